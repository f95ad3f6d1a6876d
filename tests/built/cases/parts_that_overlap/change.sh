# Two parts with blocks in common. The first one contains the part that was there.
cp -r d/t.part_all_1_1_0 d/t.part_all_1_3_1
cp -r d/t.part_all_1_1_0 d/t.part_all_2_4_1
