# What an open root keeps of a part is not read again.
rm d/t.part_all_1_1_0/marks.bin d/t.part_all_1_1_0/primary.bin d/t.part_all_1_1_0/manifest.bin
