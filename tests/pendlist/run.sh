#!/usr/bin/env bash
# What no contract can say of the program pendlist: how it reads and writes. Needs `tools/program pendlist pendlist_long`.
set -eu
cd "$(dirname "$0")/../.."
program=target/bin/pendlist

# The table does not depend on how the input is cut into reads: a byte at a time, and odd pieces.
for list in pendlist pendlist_long; do
    for piece in 1 7 255 4095; do
        dd if=crates/$list/stdin ibs=$piece obs=$piece status=none | $program | cmp - crates/$list/stdout
    done
done

# A write that fails ends the program, though the input has no end.
status=0
{ echo 'c 2 2 10 16 -'; yes 'o 300 1 0'; } 2>/dev/null | timeout 10 $program >/dev/full || status=$?
[ "$status" -ne 124 ] || { echo "pendlist goes on after a write that fails"; exit 1; }

echo "pendlist reads and writes as it should"
