# A file among the folders.
printf n >d/notes.txt
