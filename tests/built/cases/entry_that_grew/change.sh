# The file entry.bin has grown to 1 TiB, of which nothing takes room on the disk.
truncate -s 1T d/t.create/entry.bin
