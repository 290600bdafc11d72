#!/bin/sh
# The program `listing`: the stores of tests/stores.py are as that script writes them, and the program prints what is expected of
# these and many more, however the input comes to it. Prints one line if all holds.
# LISTING: the program (default: target/bin/listing, built by `tools/build listing` if it isn't there).
set -eu
cd "$(dirname "$0")/.."
program=${LISTING:-target/bin/listing}
data=crates/listings/data
out=target/listing_runs
mkdir -p "$out"
command -v python3 >/dev/null || { apt-get update -q && apt-get install -q -y python3; } >&2
[ -x "$program" ] || tools/build listing >&2
python3 tests/stores.py --check >"$out/log"

# wrong WHAT: says which run is not as expected, and what it wrote.
wrong() {
    echo "listing.sh: $1: standard output and standard error:" >&2
    head -c 2000 "$out/stdout" "$out/stderr" >&2
    exit 1
}

# prints WHAT FILE WORDS..: the words write just what FILE has to standard output, and nothing to standard error.
runs=0
prints() {
    what=$1 expected=$2
    shift 2
    "$@" >"$out/stdout" 2>"$out/stderr" || wrong "$what (it failed)"
    cmp -s "$expected" "$out/stdout" && [ ! -s "$out/stderr" ] || wrong "$what"
    runs=$((runs + 1))
}

# fails WHAT MESSAGE WORDS..: the words write nothing to standard output, and the message to standard error.
fails() {
    what=$1
    echo "$2" >"$out/expected"
    shift 2
    "$@" >"$out/stdout" 2>"$out/stderr" || wrong "$what (it failed)"
    cmp -s "$out/expected" "$out/stderr" && [ ! -s "$out/stdout" ] || wrong "$what"
    runs=$((runs + 1))
}

echo "total 0" >"$out/empty.txt"
echo "refused 1" >"$out/refused_1.txt"
sed -n '/^bytes_65536$/,/^total/p' crates/listings/stdout | sed 1d >"$out/long.txt"

# From a file, a pipe, and a pipe in small pieces.
prints "the example of document 01" crates/listing/stdout "$program" <crates/listing/stdin
prints "examples/store.bin" examples/store.txt "$program" <examples/store.bin
prints "examples/store.bin by a pipe" examples/store.txt sh -c 'cat examples/store.bin | "$0"' "$program"
prints "the example of document 01 in pieces" crates/listing/stdout python3 tests/feed.py pieces crates/listing/stdin "$program"
prints "examples/store.bin in pieces" examples/store.txt python3 tests/feed.py pieces examples/store.bin "$program"

# Nothing, as much as is listed, and more.
prints "no input" "$out/empty.txt" "$program" </dev/null
prints "an empty pipe" "$out/empty.txt" sh -c ': | "$0"' "$program"
prints "65,536 bytes" "$out/long.txt" "$program" <"$data/bytes_65536"
prints "65,536 bytes in pieces" "$out/long.txt" python3 tests/feed.py pieces "$data/bytes_65536" "$program"
prints "65,537 bytes" "$out/refused_1.txt" "$program" <"$data/bytes_65537"
prints "65,537 bytes in pieces" "$out/refused_1.txt" python3 tests/feed.py pieces "$data/bytes_65537" "$program"
prints "input without an end" "$out/refused_1.txt" "$program" </dev/zero

# Input that cannot be read, at once or after a whole store; output that cannot be written.
fails "a folder" "standard input: Is a directory" "$program" </
fails "closed input" "standard input: Bad file descriptor" "$program" <&-
fails "input that breaks off" "standard input: Input/output error" python3 tests/feed.py broken examples/store.bin "$program"
fails "a full device" "standard output: No space left on device" sh -c '"$0" >/dev/full' "$program" <examples/store.bin

more=$(python3 tests/stores.py --against "$program")
echo "listing: $((runs + more)) runs, all as expected"
