# The part has no table.
rm -r d/t.create
