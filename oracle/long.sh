#!/bin/sh
# Builds both oracles and runs the long comparison, and the errors put into the model.
# Usage: long.sh SOURCES [BUILD_DIR] [EVENTS]
#   EVENTS  how many events are compared (default 1,500,000)
set -eu
[ $# -ge 1 ] || { sed -n 2,4p "$0" >&2; exit 2; }
sources=$(cd "$1" && pwd)
build="${2:-/tmp/oracle}"
events="${3:-1500000}"
cd "$(dirname "$0")"
export PYTHONDONTWRITEBYTECODE=1
safe_tip=$(safe_tip/build.sh "$sources" "$build/safe_tip")
engine=$(engine/build.sh "$sources" "$build/engine")
safe_tip/compare.py safe_tip/model.py "$safe_tip" 240000
safe_tip/compare.py safe_tip/model.py "$safe_tip" 60000 --sizes
model/compare.py "$engine" "$events" 1000001
model/mutants.py "$engine" 1000
