# A file has the name of the folder.
printf n >d
