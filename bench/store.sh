#!/bin/sh
# The cost of reading a store, duplicate test and all, and of a request: callgrind's instructions and the clock's nanoseconds for each record.
# PORT_LIB: a folder with libsip_dialog.a (default: built by `tools/build archive`).
set -eu
cd "$(dirname "$0")/.."
archive=${PORT_LIB:-target/staticlib}/libsip_dialog.a
out=target/bench
[ -n "${PORT_LIB:-}" ] || tools/build archive >&2
command -v valgrind >/dev/null || { apt-get update -q && apt-get install -q -y valgrind; } >&2
mkdir -p "$out"
cc -std=c99 -O2 -Wall -Wextra -Werror -Iinclude bench/store.c "$archive" -o "$out/store"
printf '%-8s %-8s %8s %14s %12s %10s\n' call kind records instructions 'each record' 'ns each'
for call in count request; do
    for kind in plain chosen; do
        for records in 1 10 100 1000 10000; do
            valgrind --tool=callgrind --toggle-collect="sip_dialog_$call" --callgrind-out-file="$out/callgrind" \
                "$out/store" "$call" "$records" "$kind" 1 >"$out/log" 2>&1 || { cat "$out/log" >&2; exit 1; }
            total=$(sed -n 's/^.*Collected : //p' "$out/log")
            turns=$((200000 / records + 1))
            ns=$("$out/store" "$call" "$records" "$kind" "$turns")
            printf '%-8s %-8s %8d %14d %12d %10d\n' "$call" "$kind" "$records" "$total" $((total / records)) $((ns / records))
        done
    done
done
