# A block keeps one value twice.
python3 "$(dirname "$0")/../../make_root.py" d <<'ROOT'
create n CREATE TABLE n (k UInt8, v UInt8, INDEX iv v TYPE set(3) GRANULARITY 3) ENGINE = MergeTree ORDER BY k SETTINGS index_granularity = 1
granule 1
part n.part_all_1_1_0 UInt8,UInt8 0 1,7/2,8/3,9/4,7/5,7 s0.bin=030000000708080100000007
ROOT
