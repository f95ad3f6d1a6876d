# A table of which three numbers are left.
python3 "$(dirname "$0")/../../make_root.py" d <<'ROOT'
create h CREATE TABLE h (p UInt8, k UInt8) ENGINE = MergeTree PARTITION BY p ORDER BY k
part h.part_1_4294967292_4294967292_0 UInt8,UInt8 1 1,7
ROOT
