#!/bin/sh
# The C face: tests/c_face.c and the other tests/c_face_*.c against the static library, by themselves and under valgrind; and that the
# library, the header and the tests have the same functions. Prints one line if all holds.
# PORT_LIB: a folder with libsip_dialog.a (default: built by `tools/build archive`).
set -eu
cd "$(dirname "$0")/.."
archive=${PORT_LIB:-target/staticlib}/libsip_dialog.a
header=include/sip_dialog.h
out=target/c_face

# The packages of the tools that aren't there.
set --
{ command -v cc && command -v nm; } >/dev/null || set -- "$@" gcc libc6-dev
command -v valgrind >/dev/null || set -- "$@" valgrind
if [ $# -gt 0 ]; then
    { apt-get update -q && apt-get install -q -y "$@"; } >&2
fi

mkdir -p "$out"
[ -n "${PORT_LIB:-}" ] || tools/build archive >&2
set --
for part in c_face c_face_store c_face_rseq c_face_prack c_face_rfc c_face_verdicts c_face_settings; do
    cc -std=c99 -Wall -Wextra -Werror -pedantic -Iinclude -g -c "tests/$part.c" -o "$out/$part.o"
    set -- "$@" "$out/$part.o"
done
cc "$@" "$archive" -o "$out/c_face"

# names FILE: the functions of the library among some words, one to a line.
names() {
    sed -n 's/^\(.* \)*\(sip_dialog_[A-Za-z0-9_]*\)$/\2/p' "$1" | sort -u
}
nm -g --defined-only "$archive" >"$out/defined.nm"
nm -u "$@" >"$out/called.nm"
cc -std=c99 -E -P "$header" | grep -o 'sip_dialog_[A-Za-z0-9_]* *(' | tr -d ' (' >"$out/declared.c"
names "$out/defined.nm" >"$out/defined"
names "$out/declared.c" >"$out/declared"
names "$out/called.nm" >"$out/called"

# each LIST OTHER WORDS: every name of LIST is in OTHER; one that isn't is printed with the words.
missing=0
each() {
    while read -r name; do
        grep -qx "$name" "$out/$2" && continue
        echo "c_face.sh: $name $3" >&2
        missing=1
    done <"$out/$1"
}
each defined declared "is in the library, but not declared in $header"
each defined called "is in the library, but not called in tests/c_face*.c"
each declared defined "is declared in $header, but not in the library"
each called defined "is called in tests/c_face*.c, but not in the library"
[ -s "$out/defined" ] || { echo "c_face.sh: no function found in $archive" >&2; missing=1; }
[ "$missing" -eq 0 ]

# run WORDS..: the test, with what it prints shown only if it fails.
run() {
    "$@" >"$out/log" 2>&1 || { cat "$out/log" >&2; exit 1; }
}
run "$out/c_face"
run valgrind --error-exitcode=1 --leak-check=full -q "$out/c_face"
echo "c_face: $(wc -l <"$out/defined") functions, $(tail -n 1 "$out/log"), by itself and under valgrind"
