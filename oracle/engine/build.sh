#!/bin/sh
# Compiles the published engine, unchanged, with our stand-ins and driver.
# Usage: build.sh SOURCES [BUILD_DIR]
#   SOURCES    the published crate's src: holds types.rs and aggregation/{engine,safe_tip,types,config}.rs
#   BUILD_DIR  where to build, outside the repository (default /tmp/engine_oracle)
# Prints the path of the program.
set -eu
[ $# -ge 1 ] || { sed -n 2,6p "$0" >&2; exit 2; }
here=$(cd "$(dirname "$0")" && pwd)
build="${2:-/tmp/engine_oracle}"
published="types.rs aggregation/engine.rs aggregation/safe_tip.rs aggregation/types.rs aggregation/config.rs"

unchanged() {
    for file in $published; do cmp "$1/$file" "$build/consensus/$file"; done
}

mkdir -p "$build/consensus/aggregation"
for file in $published; do
    rm -f "$build/consensus/$file"
    cp "$1/$file" "$build/consensus/$file"
done
unchanged "$1"
cp "$here/consensus/lib.rs" "$build/consensus/lib.rs"
cp "$here/consensus/aggregation.rs" "$build/consensus/aggregation/mod.rs"
cp "$here/consensus/metrics.rs" "$here/consensus/scheme.rs" "$build/consensus/aggregation/"

compile() { # NAME KIND SOURCE CRATES..
    name=$1 kind=$2 source=$3
    shift 3
    for crate in "$@"; do set -- "$@" --extern "$crate"; shift; done
    rustc --edition 2024 -O -C debuginfo=0 --crate-type "$kind" --crate-name "$name" \
        --out-dir "$build" -L "$build" "$@" "$source"
}
rlib() { name=$1; shift; compile "$name" rlib "$here/standins/$name.rs" "$@"; }

rlib world
rlib bytes
rlib rand_core
rlib futures
rlib tracing world
compile thiserror proc-macro "$here/standins/thiserror.rs" proc_macro
rlib commonware_parallel
rlib commonware_macros
rlib commonware_utils
rlib commonware_codec bytes
rlib commonware_runtime world
rlib commonware_cryptography bytes rand_core commonware_codec commonware_parallel commonware_utils
rlib commonware_p2p world commonware_codec commonware_cryptography
rlib commonware_storage world commonware_codec commonware_runtime
crates="world bytes rand_core futures tracing thiserror commonware_parallel commonware_macros
    commonware_utils commonware_codec commonware_runtime commonware_cryptography commonware_p2p
    commonware_storage"
compile consensus rlib "$build/consensus/lib.rs" $crates
compile engine_oracle bin "$here/driver/main.rs" consensus $crates
unchanged "$1"
echo "$build/engine_oracle"
