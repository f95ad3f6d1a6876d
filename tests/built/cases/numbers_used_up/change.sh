# Two tables without a partition column, of which the last number was drawn: by an INSERT, and by a merge of all.
python3 "$(dirname "$0")/../../make_root.py" d <<'ROOT'
create t CREATE TABLE t (a UInt8, s String) ENGINE = MergeTree ORDER BY a
part t.part_all_3_3_0 UInt8,String 0 1,a/2,b
part t.part_all_4294967295_4294967295_0 UInt8,String 0 0,z
create u CREATE TABLE u (a UInt8) ENGINE = MergeTree ORDER BY a
part u.part_all_1_4294967295_32 UInt8 0 5/6
ROOT
