#!/bin/sh
# The cost of the worst minute of a run of verdicts, and of a verdict added: callgrind's instructions, also for each verdict held.
# PORT_LIB: a folder with libsip_dialog.a (default: built by `tools/build archive`).
set -eu
cd "$(dirname "$0")/.."
archive=${PORT_LIB:-target/staticlib}/libsip_dialog.a
out=target/bench
[ -n "${PORT_LIB:-}" ] || tools/build archive >&2
command -v valgrind >/dev/null || { apt-get update -q && apt-get install -q -y valgrind; } >&2
mkdir -p "$out"
cc -std=c99 -O2 -Wall -Wextra -Werror -Iinclude bench/verdicts.c "$archive" -o "$out/verdicts"
printf '%-13s %-8s %8s %14s %13s\n' call kind verdicts instructions 'each verdict'
for call in worst_minute add_verdict; do
    for kind in one bursts seconds minutes; do
        for verdicts in 1 10 100 1000 4096; do
            valgrind --tool=callgrind --toggle-collect="sip_dialog_$call" --callgrind-out-file="$out/callgrind" \
                "$out/verdicts" "$call" "$verdicts" "$kind" >"$out/log" 2>&1 || { cat "$out/log" >&2; exit 1; }
            total=$(sed -n 's/^.*Collected : //p' "$out/log")
            printf '%-13s %-8s %8d %14d %13d\n' "$call" "$kind" "$verdicts" "$total" $((total / verdicts))
        done
    done
done
