# A file has the name of the part.
rm -r d/t.part_all_1_1_0
printf n >d/t.part_all_1_1_0
