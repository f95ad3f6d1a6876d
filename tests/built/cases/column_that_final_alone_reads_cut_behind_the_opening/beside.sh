# The last text is gone, and the one before it but for its length: those of the second granule.
truncate -s 5 d/t.part_all_1_1_0/c2.bin
