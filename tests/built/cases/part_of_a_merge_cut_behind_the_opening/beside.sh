# The last byte of the last number is gone: a byte of the last granule, which a merge reads after it wrote rows of the others.
truncate -s 7 d/t.part_all_1_1_0/c1.bin
