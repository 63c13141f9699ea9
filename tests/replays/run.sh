#!/usr/bin/env bash
# What the programs that replay recorded answers make of lists that are not of the recorded form: rows over several
# lines, cut short or going on, numbers that no call has, texts around an expected answer. What they are to write was
# made by the programs as they were before the design pass.
# Needs `tools/program replay_preflight replay_budget replay_cache replay_lines`.
set -eu
cd "$(dirname "$0")/../.."
for list in tests/replays/lists/*.in; do
    name=$(basename "$list" .in)
    program=target/bin/$(cut -d_ -f1,2 <<<"$name")
    $program <"$list" | cmp - "tests/replays/lists/$name.out"
done
echo "the replays take lists of other forms as they should"
