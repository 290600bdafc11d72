#!/bin/sh
# The rows of docs/DIFFERENCES.md by their inputs; the differential run over all operations and the three stores, with 8,000,000 calls; beside
# it, a shorter one with a fault planted in each operation.
# PORT_LIB: a folder with libsip_dialog.a (default: built by `tools/build archive`).
set -eu
cd "$(dirname "$0")/.."
command -v cargo >/dev/null || { apt-get update -q && apt-get install -q -y cargo; }
[ -n "${PORT_LIB:-}" ] || { tools/build archive >&2; PORT_LIB=$PWD/target/staticlib; }
export PORT_LIB
oracle/run --if-present build
log=$(mktemp)
trap 'rm -f "$log"' EXIT
oracle/run --if-present planted >"$log" 2>&1 &
planted=$!
status=0
oracle/run --if-present differences || status=$?
oracle/run --if-present all --calls 8000000 || status=$?
wait "$planted" || status=$?
cat "$log"
exit "$status"
