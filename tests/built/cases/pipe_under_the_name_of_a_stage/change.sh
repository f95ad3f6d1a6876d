# A pipe stands where the first stage of each run is made.
mkdir -p d
mkfifo d/.stage_0_0
