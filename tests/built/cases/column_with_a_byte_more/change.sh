# A text more than there are rows.
printf '\000' >>d/t.part_all_1_1_0/c1.bin
