# A file, and two stages as a crash leaves them. The first one is in the way of the next run.
printf n >d/.note
mkdir d/.stage_0_0 d/.stage_0_1
printf n >d/.stage_0_0/c0.bin
printf n >d/.stage_0_1/c0.bin
