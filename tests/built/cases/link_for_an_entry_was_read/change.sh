# A link to the file, with its bytes, is where the file was.
mv d/t.create/entry.bin kept
ln -s ../../kept d/t.create/entry.bin
