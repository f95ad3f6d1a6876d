# A folder is where the file was.
rm d/t.create/entry.bin
mkdir d/t.create/entry.bin
