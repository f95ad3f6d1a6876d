# Two such names, and a byte of one of them is escaped as in a field.
printf n >"$(printf 'd/\200\t')"
printf n >"$(printf 'd/\377')"
