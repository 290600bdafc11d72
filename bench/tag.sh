#!/bin/sh
# The cost of reading a tag from values of one kind of byte: callgrind's instructions, in all and for each byte.
# PORT_LIB: a folder with libsip_dialog.a (default: built by `tools/build archive`).
set -eu
cd "$(dirname "$0")/.."
archive=${PORT_LIB:-target/staticlib}/libsip_dialog.a
out=target/bench
[ -n "${PORT_LIB:-}" ] || tools/build archive >&2
command -v valgrind >/dev/null || { apt-get update -q && apt-get install -q -y valgrind; } >&2
mkdir -p "$out"
cc -std=c99 -O2 -Wall -Wextra -Werror -Iinclude bench/tag.c "$archive" -o "$out/tag"
printf '%-12s %8s %14s %12s\n' value bytes instructions 'each byte'
for kind in plain quotes brackets pairs backslashes quoted covered held semicolons segments parameters; do
    for bytes in 512 2048 8192; do
        valgrind --tool=callgrind --toggle-collect=sip_dialog_extract_tag --callgrind-out-file="$out/callgrind" \
            "$out/tag" "$kind" "$bytes" >"$out/log" 2>&1 || { cat "$out/log" >&2; exit 1; }
        total=$(sed -n 's/^.*Collected : //p' "$out/log")
        printf '%-12s %8d %14d %12s\n' "$kind" "$bytes" "$total" "$(echo "$total $bytes" | awk '{ printf "%.2f", $1 / $2 }')"
    done
done
