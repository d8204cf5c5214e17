#!/bin/sh
# Makes what the gate's program `replay` is to print out of the answers that the oracles recorded, part by part.
# Usage: recordings.sh
# The safe tip's recording is made as well: the samples, with a line `new` between two.
# A part is made anew by its oracle before (README.md, "What the gate replays"); no answer comes from our programs.
set -eu
[ $# -eq 0 ] || { sed -n 3p "$0" >&2; exit 2; }
cd "$(dirname "$0")"
replay=../crates/replay
samples=$(for n in 2 3 4 5 6 7 8 9 10 11 12 13 14 15 16; do echo "safe_tip/samples/signers-$n"; done; echo safe_tip/sample)

for sample in $samples; do
    [ "$sample" = safe_tip/samples/signers-2 ] || echo new
    cat "$sample.stdin"
done > $replay/data/safe_tip
{
    echo "recording safe_tip"
    for sample in $samples; do cat "$sample.stdout"; done
    for part in forms provider journal; do
        echo "recording $part"
        cat $part/answers
    done
} > $replay/stdout
