# A link that leads to itself is where the file was.
ln -sf c0.bin d/t.part_all_1_1_0/c0.bin
