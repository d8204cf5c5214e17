#!/bin/sh
# Makes the recorded samples anew. Usage: record.sh ORACLE (the program that build.sh has made)
set -eu
[ $# -eq 1 ] || { sed -n 2p "$0" >&2; exit 2; }
cd "$(dirname "$0")"
python3 generate.py 16 1 2400 > sample.stdin
"$1" < sample.stdin > sample.stdout
mkdir -p samples
for n in 2 3 4 5 6 7 8 9 10 11 12 13 14 15 16; do
    python3 generate.py $n 2 200 > samples/signers-$n.stdin
    "$1" < samples/signers-$n.stdin > samples/signers-$n.stdout
done
