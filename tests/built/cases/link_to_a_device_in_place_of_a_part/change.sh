# A link to a device has the name of the part.
rm -r d/t.part_all_1_1_0
ln -s /dev/zero d/t.part_all_1_1_0
