#!/bin/sh
# The refresh test divides nothing (02, request 5): the machine code of `sip_dialog_needs_refresh` and of `sip_dialog_image_needs_refresh`, with all that they call, has no division and
# no product that stands for one; and the look at it finds both in C that divides.
# PORT_LIB: a folder with libsip_dialog.a (default: built by `tools/build archive`).
set -eu
cd "$(dirname "$0")/.."
archive=${PORT_LIB:-target/staticlib}/libsip_dialog.a
out=target/divisions
{ command -v cc && command -v objdump; } >/dev/null || { apt-get update -q && apt-get install -q -y gcc libc6-dev binutils; } >&2
mkdir -p "$out"
[ -n "${PORT_LIB:-}" ] || tools/build archive >&2
python3 tests/divisions.py "$archive" sip_dialog_needs_refresh sip_dialog_image_needs_refresh

# The same test as it was before the request, by a product and by a division: each is found.
cat >"$out/divides.c" <<'C'
#include <stdint.h>
uint8_t by_product(uint32_t seconds, uint64_t elapsed) { return (uint64_t)seconds * 1000000000 * 2 / 3 <= elapsed; }
uint8_t by_division(uint64_t interval, uint64_t elapsed, uint64_t three) { return interval * 2 / three <= elapsed; }
__attribute__((noinline)) static uint64_t third(uint64_t n) { return n / 3; }
uint8_t by_a_call(uint64_t interval, uint64_t elapsed) { return third(interval * 2) <= elapsed; }
C
cc -O2 -c "$out/divides.c" -o "$out/divides.o"
for name in by_product by_division by_a_call; do
    if python3 tests/divisions.py "$out/divides.o" "$name" >"$out/$name"; then
        echo "divisions: $name was not found"
        exit 1
    fi
done
echo "divisions: by a product, by a division and in a function called, each found"
