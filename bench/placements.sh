#!/bin/sh
# Measures the preflight and the cache's queries with the functions at other places of the program, and
# takes the least of all: where a loop stands among the processor's lines moves its time by a third and
# more.
# Usage: ./placements.sh [quick]
set -eu
cd "$(dirname "$0")"
rows=$(mktemp -d)
trap 'rm -rf "$rows"' EXIT
for seed in 1 2 3 4 5 6 7 8; do
    cargo rustc --offline --release --quiet --target-dir target/placed -- \
        -C "link-arg=-Wl,--shuffle-sections=.text*=$seed"
    for kind in preflight queries; do
        target/placed/release/bench "$@" "$kind" plain >>"$rows/$kind"
    done
done
for kind in preflight queries; do
    target/placed/release/bench least "$kind" <"$rows/$kind"
done
