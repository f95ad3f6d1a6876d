# The table has no statement.
rm d/t.create/entry.bin
