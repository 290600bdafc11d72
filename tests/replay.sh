#!/bin/sh
# The program `replay` reports what isn't as recorded: copies of its list, each with one thing altered, must be reported; the list itself, and the list by a pipe,
# must not. Prints one line if all holds.
# REPLAY: the program (default: target/bin/replay, built by `tools/build replay` if it isn't there).
set -eu
cd "$(dirname "$0")/.."
program=${REPLAY:-target/bin/replay}
list=crates/replay/stdin
out=target/replay_runs
mkdir -p "$out"
[ -x "$program" ] || tools/build replay >&2
runs=0

# wrong WHAT: says which run is not as expected, and what it wrote.
wrong() {
    echo "replay.sh: $1: its last lines:" >&2
    tail -n 5 "$out/stdout" >&2
    exit 1
}

# alter WHAT SED PATTERN: the list with the first line that has PATTERN changed by SED; just that line's call must differ.
alter() {
    at=$(grep -n -m 1 -e "$3" "$list" | cut -d: -f1)
    [ -n "$at" ] || wrong "$1 (no such line)"
    sed "${at}$2" "$list" >"$out/list"
    ! cmp -s "$list" "$out/list" || wrong "$1 (nothing was altered)"
    "$program" <"$out/list" >"$out/stdout"
    name=$(sed -n "${at}s/ .*//p" "$list")
    grep -q "^$name: [0-9]* calls, [1-9][0-9]* differ, the first in line $at\$" "$out/stdout" || wrong "$1 (line $at)"
    tail -n 1 "$out/stdout" | grep -q ' calls, [1-9][0-9]* differ$' || wrong "$1 (the last line)"
    runs=$((runs + 1))
}

# unreadable WHAT SED PATTERN: the same, but the line can't be read.
unreadable() {
    at=$(grep -n -m 1 -e "$3" "$list" | cut -d: -f1)
    [ -n "$at" ] || wrong "$1 (no such line)"
    sed "${at}$2" "$list" >"$out/list"
    ! cmp -s "$list" "$out/list" || wrong "$1 (nothing was altered)"
    "$program" <"$out/list" >"$out/stdout"
    grep -q "^line $at can't be read\$" "$out/stdout" || wrong "$1 (line $at)"
    tail -n 1 "$out/stdout" | grep -q " calls, [0-9]* differ, 1 lines can't be read\$" || wrong "$1 (the last line)"
    runs=$((runs + 1))
}

"$program" <"$list" >"$out/stdout"
cmp -s crates/replay/stdout "$out/stdout" || wrong "the list"
cat "$list" | "$program" >"$out/stdout"
cmp -s crates/replay/stdout "$out/stdout" || wrong "the list by a pipe"

alter "a number" 's/ = 0$/ = 2/' '^check_block .* = 0$'
alter "yes for no" 's/ = 0$/ = 1/' '^is_success .* = 0$'
alter "a time" 's/\(.*\) = \(.*\)$/\1 = 1\2/' '^non_refresher_expiry .* = '
alter "an out number" 's/[0-9]*$/77/' '^cseq_number .* = 0 [0-9]*$'
alter "an out number that is kept" 's/[0-9]*$/77/' '^cseq_number .* = 4 [0-9]*$'
alter "the last of seven out numbers" 's/[0-9]*$/77/' '^sip_uri .* = 0 '
alter "a place in a list" 's/[0-9]*$/777/' '^next_header_value .* = 0 1 '
alter "an output byte" 's/"\([A-Z]\)\([A-Z]*\)"\([^"]*\)$/"a\2"\3/' '^method_text .* = 0 [0-9]* "[A-Z]*"$'
alter "an output byte past the result" 's/<"$/>"/' '^listing .* = 0 .*total 0\\n"[0-9]*\*"<"$'
alter "an image's byte" 's/\(.*\)sip:/\1sap:/' '^image_confirm .* = 0 .*sip:'
alter "a byte past the used length" 's/\(.*\*\)"[^"]*"$/\1"!"/' '^image_.* = 0 .*\*"[^"]*"$'
alter "a used length" 's/ = 0 \([0-9]*\) / = 0 1\1 /' '^put .* = 0 '
alter "a count" 's/ = 0 \([0-9]*\) \([0-9]*\)/ = 0 \1 9\2/' '^put .* = 0 '
alter "a changed byte" 's/sip:\([^:]*\)$/sap:\1/' '^put .* = 0 .*sip:'
alter "a place in a store" 's/[0-9]*$/777/' '^get .* = 0 '
alter "an RSeq" 's/[0-9]*$/7/' '^rseq_current .* = 0 '
alter "a RAck" 's/ = 0 \([0-9]*\) / = 0 \1 9/' '^prack_validate .* = 0 '
alter "a listing" 's/total/totel/' '^listing .*total'

unreadable "another name" 's/^header /haeder /' '^header "'
unreadable "an item less" 's/ [0-9]*$//' '^header .* = 0 '
unreadable "an item more" 's/$/ 1/' '^header .* = 0 '
unreadable "no closing quote" 's/"\([^"]*\)$/\1/' '^header .* = 0 '
unreadable "a number over 64 bits" 's/= 0/= 18446744073709551616/' '^header .* = 0 '
unreadable "a text for a number" 's/ = 0 / = "0" /' '^header .* = 0 '

echo "replay: $runs altered lists, each reported where it was altered"
