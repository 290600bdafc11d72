#!/bin/sh
# crates.txt lists for each crate exactly what it uses, leaves first.
set -eu
cd "$(dirname "$0")/.."
made=$(mktemp)
said=$(mktemp)
trap 'rm -f "$made" "$said"' EXIT
python3 tests/crates.py >"$made" 2>"$said"
cat "$said"
diff crates.txt "$made"
[ ! -s "$said" ]
echo "crates.txt: $(grep -c '^[a-z]' crates.txt) crates, as the sources have it"
