# A file stands where the first stage of each run is made.
mkdir -p d
printf n >d/.stage_0_0
