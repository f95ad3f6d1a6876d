# A folder stands where the first stage of each run is made.
mkdir -p d
mkdir -p d/.stage_0_0/below/it
printf n >d/.stage_0_0/below/it/file
