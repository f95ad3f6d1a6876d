# A link that leads to itself has the name of the table.
rm -r d/t.create
ln -s t.create d/t.create
