# The second number is another one.
printf '\001\003' >d/t.part_all_1_1_0/c0.bin
