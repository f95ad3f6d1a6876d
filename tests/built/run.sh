#!/usr/bin/env bash
# Runs the built program on the cases of `cases/`, and compares what it prints, its status and the files that it leaves with what is
# wanted. The words are the names of the cases, all of them if they are left out. It prints a line for each case, and at the end the names
# of those that differ; it ends with 1 where one does. Each run is in a new folder of its own, outside the repository.
#
# A case is a folder of `cases/`, whose name is the case's. It has some of the files
#   script.sql     the script
#   script.sh      commands that write the script, where it is long; neither: the script is that of the case two_rows
#   source         what is read in place of the script
#   sink           what is written to in place of a file that is compared
#   closed         the numbers of the standard streams that are closed in the run, one a line
#   words          the words of the command line after the program's name, one a line; none: --path d
#   memory         how many KB of memory the run may take; none: as many as it wants
#   stack          how many KB of stack the runs have; none: those of STACK, or as many as this script has
#   size           the bytes of a small file system that is mounted for the case; where none can be mounted the case is skipped, aloud
#   before.sql     a script that is run before, with the same words in the same folder
#   change.sh      commands that change the folder of the run, after that script
#   beside.sql     the script of a run that has opened the folder before the case's run, and goes on once that has ended
#   beside.sh      commands that change the folder of the run, once the run beside it has opened it
#   after.sql      a script that is run at the end, with the same words in the same folder
#   stdout         what is to be printed, to the byte; none: nothing
#   status         the status that is wanted; none: 0
#   seconds        how long the run may take, where it has to wait for many syncs; none: 60
#   beside.stdout  what the run beside it is to print
#   beside.status  the status with which it is to end; none: 0
#   after.stdout   what the run at the end is to print, whatever its status
#   files          what is to lie in the folder of the run at the end, in the order of the paths' bytes: a file as its path, a space
#                  and its bytes in hexadecimal digits, an empty folder as its path and a slash; none: that is not compared
# Where MERGETREE is set, it is the program that is run. Where STACK is set, the runs of all cases
# have so many KB of stack, as with `STACK=128 tests/built/run.sh`.
set -euo pipefail
here=$(cd "$(dirname "$0")" && pwd -P)
program=${MERGETREE:-$here/../../bin/mergetree}
work=$(mktemp -d)
folder= # the folder of the case that is tried
beside= # the run beside the one that is looked at
mounted=

# Gives up what the case has begun: a run beside its own, and a file system.
end_case() {
    if [ -n "$beside" ]; then
        kill -KILL "$beside" 2>/dev/null || true
        beside=
    fi
    if [ -n "$mounted" ]; then
        umount "$work/room"
        mounted=
    fi
}

trap 'end_case; rm -rf "$work"' EXIT

# The first of these files that is there.
first_of() {
    local file
    for file in "$@"; do
        if [ -e "$file" ]; then
            printf '%s\n' "$file"
            return
        fi
    done
}

# Prints what lies in a folder, as a case's `files` has it.
files_in() {
    local path
    cd "$1"
    find . -mindepth 1 \( -type f -printf '%P\n' -o -type d -empty -printf '%P/\n' \) | LC_ALL=C sort | while read -r path; do
        case $path in
        */) printf '%s\n' "$path" ;;
        *) printf '%s %s\n' "$path" "$(od -An -v -tx1 "$path" | tr -d ' \n')" ;;
        esac
    done
}

# Prints how a run differs from the files of its case: nothing where it does not.
differences() {
    local status=$1 wanted wanted_beside printed
    wanted=$(cat "$folder/status" 2>/dev/null || echo 0)
    wanted_beside=$(cat "$folder/beside.status" 2>/dev/null || echo 0)
    printed=$(first_of "$folder/stdout" /dev/null)
    if [ "$status" != "$wanted" ]; then
        printf 'status %s in place of %s; ' "$status" "$wanted"
    fi
    if ! cmp -s "$work/out" "$printed"; then
        printf 'other output: %s; ' "$(diff "$printed" "$work/out" | tr '\n' '|')"
    fi
    if [ -e "$folder/beside.sql" ] && [ "$besides" != "$wanted_beside" ]; then
        printf 'status %s in place of %s of the run beside it; ' "$besides" "$wanted_beside"
    fi
    if [ -e "$folder/beside.sql" ] && ! cmp -s "$work/beside" "$folder/beside.stdout"; then
        printf 'other replies beside it: %s; ' "$(diff "$folder/beside.stdout" "$work/beside" | tr '\n' '|')"
    fi
    if [ -e "$folder/after.sql" ] && ! cmp -s "$work/after" "$folder/after.stdout"; then
        printf 'found at the end: %s; ' "$(diff "$folder/after.stdout" "$work/after" | tr '\n' '|')"
    fi
    if [ -e "$folder/files" ] && ! (files_in "$work/room") | cmp -s "$folder/files"; then
        printf 'other files: %s' "$( (files_in "$work/room") | diff "$folder/files" - | tr '\n' '|')"
    fi
}

# Sets the stack of the runs that follow in this shell, where the case or STACK says it.
limit_stack() {
    local stack=${STACK:-}
    if [ -e "$folder/stack" ]; then
        stack=$(cat "$folder/stack")
    fi
    if [ -n "$stack" ]; then
        ulimit -s "$stack"
    fi
}

# Runs the program in the case's folder, with these words. The script is its input.
run_in_room() {
    (cd "$work/room" && limit_stack && exec timeout 60 "$program" "$@")
}

# The same for as long as the case may take, with the standard streams closed that it wants closed.
run_closed() {
    local number closing= seconds=60 memory=unlimited
    if [ -e "$folder/seconds" ]; then
        seconds=$(cat "$folder/seconds")
    fi
    if [ -e "$folder/memory" ]; then
        memory=$(cat "$folder/memory")
    fi
    for number in $(cat "$folder/closed" 2>/dev/null); do
        closing="$closing $number>&-"
    done
    (cd "$work/room" && limit_stack && ulimit -v "$memory" && exec timeout "$seconds" bash -c "exec \"\$0\" \"\$@\" $closing" "$program" "$@")
}

# Starts the run beside the case's, and waits until it holds the folder and sleeps: it has opened the folder then, and waits for its
# script, which it is given later.
start_beside() {
    local tries
    rm -f "$work/later"
    mkfifo "$work/later"
    (cd "$work/room" && limit_stack && exec "$program" "$@") <"$work/later" >"$work/beside" &
    beside=$!
    exec {later}>"$work/later"
    for tries in $(seq 500); do
        if cat "/proc/$beside/fdinfo/"* 2>/dev/null | grep -q '^lock:' && grep -q '^State:.S' "/proc/$beside/status"; then
            return
        fi
        sleep 0.02
    done
    printf 'the run beside it holds no folder; '
}

# Gives the run beside the case's its script, and waits for its end.
finish_beside() {
    cat "$1" >&"$later"
    exec {later}>&-
    besides=0
    wait "$beside" || besides=$?
    beside=
}

# Makes the folder of the case, on a small file system where the case wants one. Fails where none can be mounted.
make_room() {
    rm -rf "$work/room"
    mkdir "$work/room"
    if [ -e "$folder/size" ]; then
        mount -t tmpfs -o "size=$(cat "$folder/size")" tmpfs "$work/room" 2>/dev/null || return 1
        mounted=1
    fi
}

# Runs a case, and prints its line.
try_case() {
    local name=$1 status=0 besides=0 script source sink found later
    local words=(--path d)
    folder=$here/cases/$name
    if [ -e "$folder/words" ]; then
        mapfile -t words <"$folder/words"
    fi
    script=$(first_of "$folder/script.sql" "$here/cases/two_rows/script.sql")
    if [ -e "$folder/script.sh" ]; then
        script=$work/script
        bash "$folder/script.sh" >"$script"
    fi
    source=$(cat "$folder/source" 2>/dev/null || echo "$script")
    sink=$(cat "$folder/sink" 2>/dev/null || echo "$work/out")
    : >"$work/out"
    : >"$work/beside"
    if ! make_room; then
        printf '%s: SKIPPED, no file system can be mounted\n' "$name"
        skipped=$((skipped + 1))
        return 0
    fi
    if [ -e "$folder/before.sql" ]; then
        run_in_room "${words[@]}" <"$folder/before.sql" >/dev/null
    fi
    if [ -e "$folder/change.sh" ]; then
        (cd "$work/room" && bash -e "$folder/change.sh")
    fi
    if [ -e "$folder/beside.sql" ]; then
        start_beside "${words[@]}"
    fi
    if [ -e "$folder/beside.sh" ]; then
        (cd "$work/room" && bash -e "$folder/beside.sh")
    fi
    run_closed "${words[@]}" <"$source" >"$sink" || status=$?
    if [ -e "$folder/beside.sql" ]; then
        finish_beside "$folder/beside.sql"
    fi
    if [ -e "$folder/after.sql" ]; then
        run_in_room "${words[@]}" <"$folder/after.sql" >"$work/after" || true
    fi
    found=$(differences "$status" || true)
    end_case
    printf '%s: %s\n' "$name" "${found:-ok}"
    [ -z "$found" ]
}

"$program" --path "$work/built" </dev/null >/dev/null # builds the program, where needed
tried=0
skipped=0
differ=()
mapfile -t names < <(if [ $# -gt 0 ]; then printf '%s\n' "$@"; else ls "$here/cases"; fi)
for name in "${names[@]}"; do
    if [ ! -d "$here/cases/$name" ]; then
        printf '%s: no such case\n' "$name" >&2
        exit 2
    fi
    tried=$((tried + 1))
    try_case "$name" || differ+=("$name")
done
printf '%d cases, %d skipped, %d differ\n' "$tried" "$skipped" "${#differ[@]}"
if [ "${#differ[@]}" -gt 0 ]; then
    printf 'differs: %s\n' "${differ[@]}"
    exit 1
fi
[ "$tried" -gt 0 ]
