# A file has the name of a part that is hidden by a merged one.
rm -r d/t.part_all_1_1_0
printf n >d/t.part_all_1_1_0
