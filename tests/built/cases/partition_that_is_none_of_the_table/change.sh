# The part of a partition gets the name of one that no UInt8 is.
mv d/t.part_1_2_2_0 d/t.part_256_2_2_0
