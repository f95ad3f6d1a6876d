# A column of one partition is gone.
rm d/t.part_2_2_2_0/c1.bin
