# The name begins with a dot.
printf n >"$(printf 'd/.\377')"
