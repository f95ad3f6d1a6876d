# A pipe has the name of the part: to open it would hold the run.
rm -r d/t.part_all_1_1_0
mkfifo d/t.part_all_1_1_0
