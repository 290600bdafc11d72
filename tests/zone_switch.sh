#!/bin/sh
# The example program examples/zone_switch.c: built against the static library, it prints what examples/zone_switch.txt has, by
# itself and under valgrind. Prints one line if all holds.
# PORT_LIB: a folder with libsip_dialog.a (default: built by `tools/build archive`).
set -eu
cd "$(dirname "$0")/.."
archive=${PORT_LIB:-target/staticlib}/libsip_dialog.a
expected=examples/zone_switch.txt
out=target/zone_switch

# The packages of the tools that aren't there.
set --
command -v gcc >/dev/null || set -- "$@" gcc libc6-dev
command -v valgrind >/dev/null || set -- "$@" valgrind
if [ $# -gt 0 ]; then
    { apt-get update -q && apt-get install -q -y "$@"; } >&2
fi

mkdir -p "$out"
[ -n "${PORT_LIB:-}" ] || tools/build archive >&2
gcc -std=c11 -Wall -Wextra -Wpedantic -Werror -Iinclude -g examples/zone_switch.c "$archive" -o "$out/zone_switch"

# prints WORDS..: the words succeed, write just what is expected to standard output, and nothing to standard error.
prints() {
    status=0
    "$@" >"$out/stdout" 2>"$out/stderr" || status=$?
    diff "$expected" "$out/stdout" >&2 && [ "$status" -eq 0 ] && [ ! -s "$out/stderr" ] && return
    echo "zone_switch.sh: $* ended with $status; its standard error:" >&2
    cat "$out/stderr" >&2
    exit 1
}
prints "$out/zone_switch"
prints valgrind --error-exitcode=1 --leak-check=full -q "$out/zone_switch"
echo "zone_switch: $(wc -l <"$expected") lines as expected, by itself and under valgrind"
