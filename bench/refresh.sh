#!/bin/sh
# The cost of the refresh test, on numbers and on an image: callgrind's instructions of one call.
# PORT_LIB: a folder with libsip_dialog.a (default: built by `tools/build archive`).
set -eu
cd "$(dirname "$0")/.."
archive=${PORT_LIB:-target/staticlib}/libsip_dialog.a
out=target/bench
[ -n "${PORT_LIB:-}" ] || tools/build archive >&2
command -v valgrind >/dev/null || { apt-get update -q && apt-get install -q -y valgrind; } >&2
mkdir -p "$out"
cc -std=c99 -O2 -Wall -Wextra -Werror -Iinclude bench/refresh.c "$archive" -o "$out/refresh"
printf '%-8s %10s %22s %8s %14s\n' call seconds elapsed answer instructions
for call in numbers image; do
    function=sip_dialog_needs_refresh
    [ "$call" = numbers ] || function=sip_dialog_image_needs_refresh
    for times in "90 0" "90 59999999999" "90 60000000000" "90 90000000000" "4294967295 18446744073709551615"; do
        # shellcheck disable=SC2086
        set -- $times
        answer=$(valgrind --tool=callgrind --toggle-collect="$function" --callgrind-out-file="$out/callgrind" "$out/refresh" "$call" "$@" 2>"$out/log")
        total=$(sed -n 's/^.*Collected : //p' "$out/log")
        printf '%-8s %10s %22s %8s %14d\n' "$call" "$1" "$2" "$answer" "$total"
    done
done
