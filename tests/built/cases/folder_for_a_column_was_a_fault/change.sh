# A folder is where the file was.
rm d/t.part_all_1_1_0/c0.bin
mkdir d/t.part_all_1_1_0/c0.bin
