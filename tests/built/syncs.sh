#!/usr/bin/env bash
# Traces the built program at a CREATE and an INSERT of one row into a new folder, and compares what it locks, syncs and renames, in order,
# with what is wanted: each file by the handle that wrote it, then the stage's folder, the rename, and the folder of the root
# (docs/folder.md, "The calls of the system"). No clause says that a call of the real folder reaches the system, so a disk that counts a
# sync and makes none is seen here alone.
#
# It needs `strace`, and says so where it is not there; then nothing was tried, and the status is 2. It ends with 1 where the calls differ.
# Where MERGETREE is set, it is the program that is run.
set -euo pipefail
here=$(cd "$(dirname "$0")" && pwd -P)
program=${MERGETREE:-$here/../../bin/mergetree}
if ! command -v strace >/dev/null; then
    echo "skipped: there is no strace on the path"
    exit 2
fi
work=$(mktemp -d)
work=$(cd "$work" && pwd -P)
trap 'rm -rf "$work"' EXIT
cd "$work"

cat >script <<'SCRIPT'
CREATE TABLE t (a UInt8, s String) ENGINE = MergeTree ORDER BY a;
INSERT INTO t;
1	a
\.
SCRIPT
cat >wanted <<'CALLS'
flock d/.lock
fsync .
fsync d/.stage_0_0/entry.bin
fsync d/.stage_0_0
rename d/.stage_0_0 d/t.create
fsync d
fsync d/.stage_0_1/marks.bin
fsync d/.stage_0_1/primary.bin
fsync d/.stage_0_1/c0.bin
fsync d/.stage_0_1/c1.bin
fsync d/.stage_0_1/manifest.bin
fsync d/.stage_0_1
rename d/.stage_0_1 d/t.part_all_1_1_0
fsync d
CALLS

strace -f -y -e trace=fsync,fdatasync,rename,renameat,renameat2,flock -o trace "$program" --path d <script >replies
# A call by its name and the paths of its files from the folder of this run on.
sed -n -e "s#<$work>#<.>#; s#<$work/#<#" \
    -e 's#^[0-9]* *\([a-z]*\)([0-9]*<\([^>]*\)>.*= 0$#\1 \2#p' \
    -e 's#^[0-9]* *\(rename\)("\([^"]*\)", "\([^"]*\)").*= 0$#\1 \2 \3#p' trace >calls
printf 'OK 1\nOK 2\n' | cmp - replies
diff wanted calls
echo "the calls are those that are wanted: $(wc -l <calls)"
