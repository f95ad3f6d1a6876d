# A part as if it had been merged of two, of which the files are gone or are none.
mv d/t.part_all_1_1_0 d/t.part_all_1_2_1
mkdir d/t.part_all_1_1_0 d/t.part_all_2_2_0
printf n >d/t.part_all_2_2_0/c0.bin
