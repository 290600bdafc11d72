#!/bin/sh
# The cost of a look-up: callgrind's instructions of one call, in a block with full names and in one with short ones, asked by either spelling.
# PORT_LIB: a folder with libsip_dialog.a (default: built by `tools/build archive`).
set -eu
cd "$(dirname "$0")/.."
archive=${PORT_LIB:-target/staticlib}/libsip_dialog.a
out=target/bench
[ -n "${PORT_LIB:-}" ] || tools/build archive >&2
command -v valgrind >/dev/null || { apt-get update -q && apt-get install -q -y valgrind; } >&2
mkdir -p "$out"
cc -std=c99 -O2 -Wall -Wextra -Werror -Iinclude bench/header.c "$archive" -o "$out/header"
printf '%-6s %-8s %14s\n' block name instructions
for spelling in full short; do
    for name in Contact m Call-ID i; do
        valgrind --tool=callgrind --toggle-collect=sip_dialog_header --callgrind-out-file="$out/callgrind" \
            "$out/header" "$spelling" "$name" >"$out/log" 2>&1 || { cat "$out/log" >&2; exit 1; }
        printf '%-6s %-8s %14d\n' "$spelling" "$name" "$(sed -n 's/^.*Collected : //p' "$out/log")"
    done
done
