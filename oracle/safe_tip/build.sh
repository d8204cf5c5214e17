#!/bin/sh
# Compiles the published safe_tip.rs, unchanged, with our stand-ins and driver.
# Usage: build.sh SOURCES [BUILD_DIR]
#   SOURCES    the folder that holds aggregation/safe_tip.rs (the published crate's src)
#   BUILD_DIR  where to build, outside the repository (default /tmp/safe_tip_oracle)
# Prints the path of the program.
set -eu
[ $# -ge 1 ] || { sed -n 2,6p "$0" >&2; exit 2; }
here=$(cd "$(dirname "$0")" && pwd)
published="$1/aggregation/safe_tip.rs"
build="${2:-/tmp/safe_tip_oracle}"
mkdir -p "$build"
cp "$here/driver.rs" "$build/driver.rs"
rm -f "$build/safe_tip.rs"
cp "$published" "$build/safe_tip.rs"
cmp "$published" "$build/safe_tip.rs"
for crate in commonware_cryptography commonware_utils; do
    rustc --edition 2024 -O --crate-type rlib --crate-name "$crate" \
        --out-dir "$build" "$here/standins/$crate.rs"
done
rustc --edition 2024 -O --crate-name safe_tip_oracle -L "$build" \
    --extern commonware_cryptography --extern commonware_utils \
    -o "$build/safe_tip_oracle" "$build/driver.rs"
cmp "$published" "$build/safe_tip.rs"
echo "$build/safe_tip_oracle"
