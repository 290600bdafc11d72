#!/bin/sh
# No exported function takes more than 44,000 bytes of stack, and none that reads no store of records more than 1,600 (include/sip_dialog.h), as read off the
# code of the archive. PORT_LIB: a folder with libsip_dialog.a
# (default: built by `tools/build archive`). Then programs that must fail: a frame that is too large, a function that calls itself, a call by pointer, and the archive
# held to a limit that its largest function is over.
set -eu
cd "$(dirname "$0")/.."
archive=${PORT_LIB:-target/staticlib}/libsip_dialog.a
[ -n "${PORT_LIB:-}" ] || tools/build archive >&2
work=$(mktemp -d)
trap 'rm -rf "$work"' EXIT

link() {
    printf 'int main(void) { return 0; }\n' >"$work/main.c"
    cc -O1 "$work/main.c" ${2:+"$2"} -Wl,--whole-archive "$archive" -Wl,--no-whole-archive -o "$work/$1"
}

refused() {
    printf '%s\n' "$2" >"$work/$1.c"
    link "$1" "$work/$1.c"
    if python3 tests/stack.py "$work/$1" 44000 1600 >"$work/said" 2>&1; then
        cat "$work/said"
        echo "stack: $1 was taken" >&2
        exit 1
    fi
    grep -q "$3" "$work/said" || { cat "$work/said"; echo "stack: $1 is refused for something else" >&2; exit 1; }
}

link archive
python3 tests/stack.py "$work/archive" 44000 1600
refused large 'void take(char *); void take(char *p) { p[0] = 1; } void sip_dialog_large(void) { char room[48100]; void (*volatile no)(char *) = 0; if (no == 0) { take(room); } __asm__ volatile("" : : "r"(room) : "memory"); }' sip_dialog_large
refused round 'int sip_dialog_round(int n) { volatile int k = n; return n < 2 ? 1 : sip_dialog_round(n - 1) * sip_dialog_round(k - 2); }' 'round of calls'
refused pointer 'int sip_dialog_pointer(int (*f)(void)) { return f() + 1; }' 'calls by pointer'
for limits in "40000 1600" "44000 1500"; do
    if python3 tests/stack.py "$work/archive" $limits >"$work/said" 2>&1; then
        cat "$work/said"
        echo "stack: the limits $limits were met" >&2
        exit 1
    fi
done
echo "stack: five wrong ones refused"
