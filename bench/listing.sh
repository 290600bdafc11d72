#!/bin/sh
# The time of the listing of a store of 65,536 bytes beside that of `od -An -tx1` on the same file: the mean of 200 runs each, in turns, the
# start of the process included, which `true` shows by itself. Two stores: three long records, and as many of 211 bytes as fit (the last is longer).
set -eu
cd "$(dirname "$0")/.."
program=target/bin/listing
out=target/bench
mkdir -p "$out"
[ -x "$program" ] || tools/build listing >&2
cp crates/listings/data/bytes_65536 "$out/long_records"
python3 - "$out/many_records" <<'PYTHON'
import sys
def text(t):
    return len(t).to_bytes(2, "big") + t
def record(n, size):
    head = b"\x15\xff" + text(b"%032d" % n) + text(b"1928301774abcdef") + text(b"a6c85cf1234567ab") + b"\x02"
    head += 3 * text(b"sip:panel@zone.example.org") + bytes([0, 0, 0, 1, 0, 0, 0, 7, 0, 0, 7, 8]) + b"\x01"
    route = b"sip:proxy@zone.example.org;lr;i="
    return head + text(route + b"0" * (size - len(head) - 2 - len(route)))
count = 65536 // 211
store = b"".join(record(n, 211) for n in range(count - 1))
open(sys.argv[1], "wb").write(store + record(count - 1, 65536 - len(store)))
PYTHON
runs=200
for name in long_records many_records; do
    store=$out/$name
    ours=0
    theirs=0
    start=0
    i=0
    while [ $i -lt $runs ]; do
        a=$(date +%s%N)
        "$program" <"$store" >"$out/listed"
        b=$(date +%s%N)
        od -An -tx1 "$store" >"$out/dumped"
        c=$(date +%s%N)
        /bin/true <"$store" >"$out/nothing"
        d=$(date +%s%N)
        start=$((start + d - c))
        ours=$((ours + b - a))
        theirs=$((theirs + c - b))
        i=$((i + 1))
    done
    echo "$name: $(tail -n 1 "$out/listed"), listing $((ours / runs / 1000)) us, od $((theirs / runs / 1000)) us, true $((start / runs / 1000)) us"
done
