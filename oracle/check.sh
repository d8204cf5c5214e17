#!/bin/sh
# Builds both oracles from the published sources and reruns a short comparison.
# Usage: check.sh SOURCES [BUILD_DIR]
#   SOURCES    the published crate's src
#   BUILD_DIR  where to build, outside the repository (default /tmp/oracle)
set -eu
[ $# -ge 1 ] || { sed -n 2,5p "$0" >&2; exit 2; }
sources=$(cd "$1" && pwd)
build="${2:-/tmp/oracle}"
cd "$(dirname "$0")"
export PYTHONDONTWRITEBYTECODE=1

echo "== safe tip"
safe_tip=$(safe_tip/build.sh "$sources" "$build/safe_tip")
for script in safe_tip/sample.stdin safe_tip/samples/*.stdin; do
    "$safe_tip" < "$script" | cmp - "${script%.stdin}.stdout"
done
echo "recorded samples: the same answers"
safe_tip/compare.py safe_tip/model.py "$safe_tip" 30000

echo "== engine"
engine=$(engine/build.sh "$sources" "$build/engine")
for name in worked small large; do
    "$engine" < "runs/$name.stdin" | cmp - "runs/$name.stdout"
    model/console.py < "runs/$name.stdin" | cmp - "runs/$name.stdout"
done
model/console.py < runs/rules.stdin | cmp - runs/rules.stdout
echo "recorded runs: the same answers"
for script in differences/*.script; do
    "$engine" < "$script" | cmp - "${script%.script}.published"
    grep -v '^kept' "$script" | model/console.py | cmp - "${script%.script}.rules"
done
echo "differences by design: as recorded"
model/compare.py "$engine" 30000
