#!/usr/bin/env bash
# Kills the built program in the midst of a script, while another one is started over the same folder, and compares what the next run
# prints with what is wanted. The one word is the number of rounds, 20 if it is left out. It prints a line for each round, and ends with
# 1 where one differs.
#
# A round is in a new folder of its own, outside the repository. A first run makes two tables, of which the first has partitions. A second
# run, of many INSERTs into that table, is killed after a random part of the time that all of them take; the whole script is its input from
# the start, since it is read before its first statement is run. Each of its INSERTs has two rows of the partition 2, one of 1 and one of 3,
# so it is three commands, in this order. Beside it another program is started over the same folder, after another random part of the time
# until the kill, with one INSERT into the second table. A last run reads both tables. Wanted are
#   of the other one    status 5 and no reply, where the folder was held; or, where it had the folder to itself, as before the killed run
#                       opened it or after it was killed, status 0 and one OK
#   of the killed run   a front of the replies to the whole script; none where it found the folder held and ended with 5
#   of the last run     status 0, the rows of the first n commands of the first table, and of the second table the row of the other program,
#                       if that was answered; n is three for each whole reply that the killed run wrote, and up to three more
# So nothing that was acknowledged is lost, of the INSERT under way there are the first partitions, each whole, the places of all commands
# are as many as there are commands, and no place is given twice.
#
# Only the process is killed, and the system goes on: what it was given is there, synced or not. What a loss of power leaves is not
# looked at.
#
# The seed of the random parts is printed; where SEED is set, it is the seed. The time is measured, so one seed need not kill at the same
# statement twice. Where MERGETREE is set, it is the program that is run. Where in no round a program was killed before its end, or in
# none the other one was turned away, nothing was tried, and the status is 1.
set -euo pipefail
here=$(cd "$(dirname "$0")" && pwd -P)
rounds=${1:-20}
inserts=100
parts=3 # the commands of each INSERT
program=${MERGETREE:-$here/../../bin/mergetree}
seed=${SEED:-$RANDOM}
work=$(mktemp -d)
running=
other=

clean() {
    local started
    for started in $running $other; do
        kill -KILL "$started" 2>/dev/null || true
    done
    rm -rf "$work"
}
trap clean EXIT

# Runs the program over the folder of the round. The script is its input.
run_in_room() {
    timeout 60 "$program" --path "$work/room"
}

# Makes a new folder with the tables, and starts the program on the script.
start() {
    rm -rf "$work/room"
    run_in_room <"$work/tables" >/dev/null
    : >"$work/out" # here, since the program may be killed before its shell has opened the file
    "$program" --path "$work/room" <"$work/script" >"$work/out" &
    running=$!
}

# Starts the other program after so many seconds.
start_other() {
    : >"$work/other"
    (sleep "$1" && exec "$program" --path "$work/room" <"$work/row" >"$work/other") &
    other=$!
}

# Waits for the end of what was started, and keeps its status.
finish() {
    status=0
    { wait "$running"; } 2>/dev/null || status=$?
    running=
}

# Waits for the end of the other program, and keeps its status.
finish_other() {
    others=0
    { wait "$other"; } 2>/dev/null || others=$?
    other=
}

# Prints how the other program ended in another way than is wanted, and nothing where it did not.
other_differences() {
    case "$others $(cat "$work/other")" in
    "5 " | "0 OK "*) ;;
    *) printf 'status %s of the other program, which wrote %s; ' "$others" "$(head -c 200 "$work/other" | tr '\n' '|')" ;;
    esac
    if grep -qxF -f "$work/other" "$work/out"; then
        printf 'both programs were given %s; ' "$(cat "$work/other")"
    fi
}

# The replies to the whole script, where so many commands were accepted before.
replies_after() {
    seq -f 'OK %.0f' $(($1 + parts)) "$parts" $(($1 + parts * inserts))
}

# Prints how the replies of the killed program differ: they are a front of those of the script, after the two tables and perhaps the
# other program's row.
reply_differences() {
    local size
    size=$(stat -c %s "$work/out")
    if ! cmp -s -n "$size" "$work/out" <(replies_after 2) &&
        ! { [ "$others" = 0 ] && cmp -s -n "$size" "$work/out" <(replies_after 3); }; then
        printf 'other replies; '
    fi
}

# The rows of the table t after so many of its commands: of each partition those of each INSERT whose turn for it came.
rows_after() {
    local whole=$(($1 / parts)) begun=$(($1 % parts)) row
    seq -f $'1\t%.0f' $((whole + (begun > 1)))
    for row in $(seq $((whole + (begun > 0)))); do
        printf '2\t%s\n2\t%s\n' "$row" "$row"
    done
    seq -f $'3\t%.0f' "$whole"
}

# Prints how a table differs that is to have these rows, which are read here, where the folder has so many commands.
table_differences() {
    local table=$1 commands=$2 ended=0
    cat >"$work/wanted"
    run_in_room <<<"SELECT * FROM $table;" >"$work/rows" || ended=$?
    if [ "$ended" != 0 ]; then
        printf 'status %s of the last run; ' "$ended"
    fi
    if ! { echo "ROWS $(wc -l <"$work/wanted") PREFIX $commands" && cat "$work/wanted"; } | cmp -s - "$work/rows"; then
        printf 'other rows of %s: %s; ' "$table" "$(head -c 200 "$work/rows" | tr '\n' '|')"
    fi
}

# How many commands the table t has, beside those of the two tables and of the other program, which has so many.
commands_of_t() {
    local length
    length=$(run_in_room <<<'SELECT * FROM t;' | sed -n '1s/^ROWS [0-9]* PREFIX \([0-9]*\)$/\1/p')
    printf '%s\n' $((${length:-0} - 2 - $1))
}

# Prints how the replies of what was started, of which so many are whole, and what the last run reads differ: nothing where they do not.
differences() {
    local answered=$1 others_row commands
    others_row=$(wc -l <"$work/other")
    commands=$(commands_of_t "$others_row" || true)
    other_differences
    reply_differences
    if [ "$commands" -lt $((parts * answered)) ] || [ "$commands" -gt $((parts * (answered + 1))) ]; then
        printf '%s commands of INSERTs; ' "$commands"
    fi
    table_differences t $((2 + commands + others_row)) < <(rows_after "$commands")
    table_differences u $((2 + commands + others_row)) < <(seq "$others_row")
}

# So many microseconds, in seconds.
seconds() {
    printf '%d.%06d' $(($1 / 1000000)) $(($1 % 1000000))
}

# Counts what came of a round of which so many statements were answered, and prints what the killed program ended with, if it may not.
count_round() {
    if [ "$others" = 5 ]; then
        turned_away=$((turned_away + 1))
    fi
    if [ "$status" = 137 ]; then
        killed=$((killed + 1))
    elif [ "$status" != 0 ] && ! { [ "$status" = 5 ] && [ "$others" = 0 ] && [ "$1" = 0 ]; }; then
        found="status $status of the killed run; $found"
    fi
}

# Tries a round, in which the other program is started and the first one is killed after so many microseconds, and prints its line.
try_round() {
    local beside delay answered found
    beside=$(seconds "$2")
    delay=$(seconds "$3")
    start
    start_other "$beside"
    sleep "$delay"
    kill -KILL "$running" 2>/dev/null || true
    finish
    finish_other
    answered=$(wc -l <"$work/out")
    found=$(differences "$answered" || true)
    count_round "$answered"
    printf '%s: %s s, %s answered, %s commands; another after %s s, status %s: %s\n' \
        "$1" "$delay" "$answered" "$(commands_of_t "$(wc -l <"$work/other")" || true)" "$beside" "$others" "${found:-ok}"
    [ -z "$found" ]
}

for row in $(seq "$inserts"); do
    printf 'INSERT INTO t;\n2\t%s\n1\t%s\n2\t%s\n3\t%s\n\\.\n' "$row" "$row" "$row" "$row"
done >"$work/script"
printf 'INSERT INTO u;\n1\n\\.\n' >"$work/row"
{
    echo 'CREATE TABLE t (p UInt8, a UInt16) ENGINE = MergeTree PARTITION BY p ORDER BY a;'
    echo 'CREATE TABLE u (a UInt16) ENGINE = MergeTree ORDER BY a;'
} >"$work/tables"

"$program" --path "$work/built" </dev/null >/dev/null # builds the program, where needed
killed=0
turned_away=0
failed=0
others=5
: >"$work/other"
start
begun=${EPOCHREALTIME/[!0-9]/}
finish
whole=$((${EPOCHREALTIME/[!0-9]/} - begun))
found=$(differences "$inserts" || true)
if [ "$status" != 0 ] || [ -n "$found" ]; then
    printf 'not killed: status %s; %s\n' "$status" "$found"
    exit 1
fi
printf 'seed %s\n' "$seed"
RANDOM=$seed
for round in $(seq "$rounds"); do
    killed_at=$((whole * RANDOM / 32768))
    started_at=$((killed_at * RANDOM / 32768))
    try_round "$round" "$started_at" "$killed_at" || failed=$((failed + 1))
done
printf '%d rounds, %d killed before the end, %d with another program turned away, %d differ\n' "$rounds" "$killed" "$turned_away" "$failed"
[ "$killed" -gt 0 ] && [ "$turned_away" -gt 0 ] && [ "$failed" -eq 0 ]
