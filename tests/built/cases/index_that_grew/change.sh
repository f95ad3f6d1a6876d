# The file s0.bin has grown to 1 TiB, of which nothing takes room on the disk.
truncate -s 1T d/t.part_all_1_1_0/s0.bin
