# The part lies elsewhere, and a link to it has its name.
mv d/t.part_all_1_1_0 part
ln -s ../part d/t.part_all_1_1_0
