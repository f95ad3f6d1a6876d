# A file has the name of the table.
rm -r d/t.create
printf n >d/t.create
