#!/bin/sh
# The C functions are declared in include/sip_dialog.h as in the sources, and all that is made from these is as it is made (tools/face); and copies, each with one
# thing altered, are reported. Prints one line if all holds.
set -eu
cd "$(dirname "$0")/.."
out=$(mktemp -d)
trap 'rm -rf "$out"' EXIT
command -v python3 >/dev/null || { apt-get update -q && apt-get install -q -y python3; } >&2
source=crates/sip_dialog/src
exports=crates/sip_dialog_c/src
lines=crates/replay_lines/src
readings=crates/replay_readings/src
changes=crates/replay_changes/src
called=crates/sip_dialog/proofs/Called.antt
header=include/sip_dialog.h
settings=crates/limits/src/settings.rt
oracle=oracle/port/src/c.rs
rows=oracle/driver/src/record/rows.rs
proofs=docs/PROOFS.md
list=crates/replay/stdin
runs=0
python3 tools/face check >"$out/same"

# What a copy is made from.
for file in "$source"/* "$exports"/* "$lines/sizes.rt" "$lines/lent.rt" "$readings"/* "$changes"/* "$called" "$header" "$settings" "$oracle" "$rows" "$proofs" "$list"; do
    mkdir -p "$out/kept/$(dirname "$file")"
    cp "$file" "$out/kept/$file"
done

# wrong WHAT: says which copy is not reported as expected, and what was said of it.
wrong() {
    echo "face.sh: $1: it was said:" >&2
    cat "$out/said" >&2
    exit 1
}

# alter WHAT FILE SED BEGIN: copies with FILE changed by SED; lines must be said of them, and each must begin with BEGIN.
alter() {
    rm -rf "$out/copy"
    cp -r "$out/kept" "$out/copy"
    sed "$3" "$2" >"$out/copy/$2"
    : >"$out/said"
    ! cmp -s "$2" "$out/copy/$2" || wrong "$1 in $2 (nothing was altered)"
    ! python3 tools/face check "$out/copy" >"$out/said" 2>&1 || wrong "$1 in $2 (it was taken)"
    [ -s "$out/said" ] && ! grep -v "^face: $4: " "$out/said" >/dev/null || wrong "$1 in $2 (of $4)"
    runs=$((runs + 1))
}

alter "another result" "$header" 's/^bool sip_dialog_is_error(/uint8_t sip_dialog_is_error(/' sip_dialog_is_error
alter "a wider number" "$header" 's/sip_dialog_is_error(uint16_t /sip_dialog_is_error(uint32_t /' sip_dialog_is_error
alter "a pointer to a wider number" "$header" 's/uint32_t \*seconds, uint8_t \*refresher);/uint64_t *seconds, uint8_t *refresher);/' 'sip_dialog_\(image_numbers\|\(parse_\)*session_expires\)'
alter "a number for a pointer" "$header" '/sip_dialog_route_count(/s/size_t \*count/size_t count/' sip_dialog_route_count
alter "a byte run that may be written" "$header" 's/sip_dialog_check_block(const /sip_dialog_check_block(/' sip_dialog_check_block
alter "another name" "$header" '/sip_dialog_extract_tag(/s/\*place/*tag/' sip_dialog_extract_tag
alter "another name of a length" "$header" '/sip_dialog_check_block(/s/block_len/length/' sip_dialog_check_block
alter "another order" "$header" '/sip_dialog_extract_tag(/s/size_t \*place, size_t \*length/size_t *length, size_t *place/' sip_dialog_extract_tag
alter "another order of byte runs" "$header" '/sip_dialog_header(/s/\(const .* block_len\), \(const .* name_len\)/\2, \1/' sip_dialog_header
alter "a parameter less" "$header" '/sip_dialog_extract_tag(/s/, size_t \*length//' sip_dialog_extract_tag
alter "a parameter more" "$header" '/sip_dialog_is_error(/s/uint16_t code/uint16_t code, uint8_t class/' sip_dialog_is_error
alter "a function less" "$header" '/sip_dialog_is_error(/d' sip_dialog_is_error
alter "a function more" "$header" '/sip_dialog_is_error(/s/$/ bool sip_dialog_is_none(uint16_t code);/' sip_dialog_is_none
alter "a function twice" "$header" '/sip_dialog_is_error(/s/$/ bool sip_dialog_is_error(uint16_t code);/' sip_dialog_is_error
alter "a type that isn't known" "$header" '/sip_dialog_is_error(/s/uint16_t/int/' sip_dialog_is_error
alter "a struct that no function is given" "$header" 's/^enum sip_dialog_run /typedef struct { uint32_t most; } sip_dialog_most; &/' sip_dialog_most
alter "a macro" "$header" 's/^#include <stddef.h>$/#define size_t int/' "$header"

alter "another value of a setting" "$header" 's/{1000, 10, /{1000, 11, /' sip_dialog_settings
alter "another value of a setting" "$settings" 's/pending: 10,/pending: 11,/' sip_dialog_settings
alter "another name of a setting" "$header" 's/uint32_t cleanup_seconds;/uint32_t clean_seconds;/' sip_dialog_settings
alter "a wider setting" "$header" 's/uint32_t cleanup_seconds;/uint64_t cleanup_seconds;/' sip_dialog_settings
alter "a setting less" "$header" '/uint32_t early_cap;/d' sip_dialog_settings

alter "another result" "$oracle" '/sip_dialog_is_error(/s/-> bool/-> u8/' "$oracle"
alter "a wider number" "$oracle" '/sip_dialog_is_error(/s/u16/u32/' "$oracle"
alter "a byte run that may be written" "$oracle" '/sip_dialog_check_block(/s/\*const/*mut/' "$oracle"
alter "another order" "$oracle" '/sip_dialog_extract_tag(/s/place: \*mut usize, length:/length: *mut usize, place:/' "$oracle"
alter "a function less" "$oracle" '/sip_dialog_is_error(/d' "$oracle"
alter "a function more" "$oracle" '/sip_dialog_is_error(/s/$/ pub fn sip_dialog_is_none(code: u16) -> bool;/' "$oracle"
alter "a name for the linker" "$oracle" '/sip_dialog_is_error(/s/pub/#[link_name = "other"] pub/' "$oracle"
alter "a kind" "$rows" '/"check_block"/s/t=n/n=n/' "$rows"
alter "a row less" "$rows" '/"sweep"/d' "$rows"
alter "another definition" "$proofs" 's/^| `sweep` | .*/| `sweep` | stores.rt | |/' "$proofs"
alter "no mark" "$proofs" 's/^<!-- The end of that list. -->$//' "what is made"
alter "a row" "$list" 's/^sweep nnnnnsn=nn$/sweep nnnnnsn=n/' "$list"
alter "a row less" "$list" '/^interval_contest n*=/d' "$list"

alter "another result" "$source/blocks.rt" '/sip_dialog_is_error(/s/-> bool/-> u8/' sip_dialog_is_error
alter "a wider number" "$source/blocks.rt" '/sip_dialog_is_error(/s/u16/u32/' sip_dialog_is_error
alter "a pointer to a wider number" "$source/prack.rt" '/sip_dialog_cseq_number(/s/&mut u32/\&mut u64/' sip_dialog_cseq_number
alter "a byte run that may be written" "$source/blocks.rt" '/sip_dialog_check_block(/s/&\[u8\]/\&mut [u8]/' sip_dialog_check_block
alter "a number for a byte run" "$source/blocks.rt" '/sip_dialog_check_block(/s/&\[u8\]/\&mut u8/' sip_dialog_check_block
alter "another name" "$source/identifiers.rt" '/sip_dialog_extract_tag(/s/place:/tag:/' sip_dialog_extract_tag
alter "another name of a byte run" "$source/blocks.rt" '/sip_dialog_check_block(/s/block:/bytes:/' sip_dialog_check_block
alter "another order" "$source/identifiers.rt" '/sip_dialog_extract_tag(/s/place: &mut usize, length:/length: \&mut usize, place:/' sip_dialog_extract_tag
alter "a parameter less" "$source/identifiers.rt" '/sip_dialog_extract_tag(/s/, length: &mut usize//' sip_dialog_extract_tag
alter "a function less" "$source/blocks.rt" '/^\/\/ 400 to 699\.$/,$d' sip_dialog_is_error
alter "a function more" "$source/lib.rt" '$apub fn sip_dialog_is_none(code: u16) -> bool\n{' sip_dialog_is_none
alter "a function that isn't public" "$source/uris.rt" 's/^pub fn/fn/' '\(crates.*\|sip_dialog_[a-z_]*uri[a-z_]*\)'
alter "a function that is exported itself" "$source/uris.rt" 's/^pub fn/pub extern "C" fn/' '\(crates.*\|sip_dialog_[a-z_]*uri[a-z_]*\)'
alter "a type that isn't known" "$source/blocks.rt" '/sip_dialog_check_block(/s/&\[u8\]/\&[u16]/' sip_dialog_check_block
alter "a struct that isn't known" "$source/blocks.rt" '/sip_dialog_is_error(/s/u16/Status/' sip_dialog_is_error
alter "another clause" "$source/blocks.rt" 's/in_class 100 200/in_class 101 200/' "$exports/blocks.rt"
alter "a clause that can't be read" "$source/blocks.rt" 's/ensures { result ≡ is_error_code code }/ensures*{ }/' '\(crates.*\|sip_dialog_is_error\)'

alter "a function that isn't exported" "$exports/blocks.rt" '/^#\[unsafe(no_mangle)\]$/d' "$exports/blocks.rt"
alter "another result" "$exports/blocks.rt" '/sip_dialog_is_error(/s/-> bool/-> u8/' "$exports/blocks.rt"
alter "another clause" "$exports/blocks.rt" 's/in_class 100 200/in_class 101 200/' "$exports/blocks.rt"
alter "a clause less" "$exports/stores.rt" '/^    ensures created_after/d' "$exports/stores.rt"
alter "a call of another function" "$exports/blocks.rt" 's/::sip_dialog_is_success(code)/::sip_dialog_is_error(code)/' "$exports/blocks.rt"
alter "a function less" "$exports/blocks.rt" '/^\/\/ 400 to 699\.$/,$d' "$exports/blocks.rt"
alter "a function more" "$exports/lib.rt" '$a#[unsafe(no_mangle)]\npub extern "C" fn sip_dialog_is_none(code: u16) -> bool\n{' "$exports/lib.rt"

alter "another count of rows" "$lines/sizes.rt" 's/ROWS: usize = /&1/' "$lines/sizes.rt"
alter "a number that isn't left" "$lines/lent.rt" '/o\[6\] = /d' "$lines/lent.rt"
alter "another name" "$readings/blocks.rt" 's/b"header" =>/b"heading" =>/' "$readings/blocks.rt"
alter "another place of an argument" "$readings/blocks.rt" 's/i.value(2)/i.value(3)/' "$readings/blocks.rt"
alter "another function" "$changes/images.rt" 's/sip_dialog_image_confirm(/sip_dialog_image_terminate(/' "$changes/images.rt"
alter "another order of lent numbers" "$changes/stores.rt" 's/|used, created|/|created, used|/' "$changes/stores.rt"
alter "a source less" "$changes/lib.rt" '/verdicts::call/d' "$changes/lib.rt"

alter "another contract" "$called" 's/put-reads.Post/sweep-reads.Post/' "$called"
alter "a number that is kept" "$called" "s/(created', tt)/(created, tt)/" "$called"

# A file that is not made, in the crates that are.
for folder in "$exports" "$readings" "$changes"; do
    rm -rf "$out/copy"
    cp -r "$out/kept" "$out/copy"
    echo "// More." >"$out/copy/$folder/more.rt"
    ! python3 tools/face check "$out/copy" >"$out/said" 2>&1 || wrong "a file more in $folder (it was taken)"
    grep -q "^face: $folder/more.rt: " "$out/said" || wrong "a file more in $folder"
    runs=$((runs + 1))
done

echo "face: $(cat "$out/same"); $runs altered copies, each reported"
