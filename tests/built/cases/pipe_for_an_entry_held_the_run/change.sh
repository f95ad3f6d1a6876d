# A pipe is where the file was.
rm d/t.create/entry.bin
mkfifo d/t.create/entry.bin
