#!/usr/bin/env bash
# The swap, tried: makes a tree of the files of netflow_parser 1.0.6 that the cache and the budget
# lean on, with stand-ins for the rest, and builds and tests it before the swap and after the steps
# of the README. The tree is made in a temporary folder and removed.
set -eu
: "${NETFLOW_PARSER_SRC:?has to name the folder src of netflow_parser 1.0.6}"
swap=$(cd "$(dirname "$0")" && pwd)
root=$(cd "$swap/../.." && pwd)
tree=$(mktemp -d)
trap 'rm -rf "$tree"' EXIT
modules=$tree/src/variable_versions

stage() {
    echo "== $1"
    cargo test --offline --quiet --manifest-path "$tree/Cargo.toml"
}

mkdir -p "$modules"
for name in config metrics output_budget pending_flows ttl wire; do
    cp "$NETFLOW_PARSER_SRC/variable_versions/$name.rs" "$modules/"
    echo "pub(crate) mod $name;" >> "$modules/mod.rs"
done
cp "$swap/src/variable_versions/enterprise_registry.rs" "$modules/"
echo "pub(crate) mod enterprise_registry;" >> "$modules/mod.rs"
cp "$swap/src/template_store.rs" "$swap/src/replay.rs" "$tree/src/"
cat > "$tree/src/lib.rs" <<END
#![allow(dead_code, unused_imports)]
#[cfg(test)]
mod replay;
mod template_store;
mod variable_versions;
use variable_versions::config::{ConfigError, DEFAULT_MAX_RECORDS_PER_FLOWSET};
END
cat > "$tree/Cargo.toml" <<END
[package]
name = "netflow_parser"
version = "1.0.6"
edition = "2024"

[dependencies]
lru = { path = "$root/oracle/stand_ins/lru" }
serde = { path = "$root/oracle/stand_ins/serde" }
END
stage "before the swap"

echo "netflow_pending = { path = \"$root/rust\" }" >> "$tree/Cargo.toml"
cp "$swap/src/variable_versions/pending_flows.rs" "$modules/"
sed -i -f "$swap/config.sed" "$modules/config.rs"
cp "$swap/src/refusals.rs" "$tree/src/"
echo '#[cfg(test)] mod refusals;' >> "$tree/src/lib.rs"
stage "after step 2: the cache"

cp "$swap/src/variable_versions/output_budget.rs" "$modules/"
stage "after step 3: the budget too"
