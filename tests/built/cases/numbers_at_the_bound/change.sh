# A table of which two numbers are left, as if merges had left one part of all before.
python3 "$(dirname "$0")/../../make_root.py" d <<'ROOT'
create h CREATE TABLE h (p UInt8, k UInt8) ENGINE = MergeTree PARTITION BY p ORDER BY k
part h.part_1_4294967293_4294967293_0 UInt8,UInt8 1 1,7
ROOT
