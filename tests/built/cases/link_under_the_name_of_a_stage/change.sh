# A link to a folder stands where the first stage of each run is made: the link goes, and the folder stays.
mkdir d other
printf n >other/file
ln -s ../other d/.stage_0_0
