#!/bin/sh
# Runs each script of examples/ over a new folder, by bin/mergetree or by the program that MERGETREE names (as bin/try), and
# compares what it writes with the replies beside the script. Ends with status 1 where one differs.
#
#     tests/examples.sh [NAME ..]        as tests/examples.sh first
root=$(cd "$(dirname "$0")/.." && pwd -P) || exit 1
room=$(mktemp -d) || exit 1
trap 'rm -rf "$room"' EXIT
[ $# -gt 0 ] || set -- $(cd "$root/examples" && ls *.sql | sed 's/\.sql$//')
failed=0
for name; do
    "${MERGETREE:-$root/bin/mergetree}" --path "$room/$name" <"$root/examples/$name.sql" >"$room/out" 2>"$room/err"
    # Statuses 0 and 1 are those of a script that ran to its end.
    if [ $? -gt 1 ] || ! diff "$root/examples/$name.out" "$room/out"; then
        cat "$room/err"
        echo "$name differs"
        failed=1
    else
        echo "$name ok"
    fi
done
exit $failed
