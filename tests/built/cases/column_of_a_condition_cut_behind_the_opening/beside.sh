# The last byte of the last number is gone: a byte of the second granule.
truncate -s 7 d/t.part_all_1_1_0/c1.bin
