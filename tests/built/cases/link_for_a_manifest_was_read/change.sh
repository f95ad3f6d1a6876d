# A link to the file, with its bytes, is where the file was.
mv d/t.part_all_1_1_0/manifest.bin kept
ln -s ../../kept d/t.part_all_1_1_0/manifest.bin
