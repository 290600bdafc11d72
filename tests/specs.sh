#!/bin/sh
# Each file of definitions says in its head what it comes from; docs/PROOFS.md lists those with steps of the code alone.
set -eu
cd "$(dirname "$0")/.."
wrong=$(python3 tests/specs.py)
[ -z "$wrong" ] || { echo "$wrong"; exit 1; }
