# The part has no manifest.
rm d/t.part_all_1_1_0/manifest.bin
