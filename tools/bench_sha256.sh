#!/bin/sh
# Times the proved SHA-256 against SHA-256 in plain C at gcc -O3, in one run, and prints the ratio.
set -e
cd "$(dirname "$0")/.."
(cd crates/digest_c && rt lib) > /dev/null
work=$(mktemp -d)
trap 'rm -r "$work"' EXIT
cp crates/digest_c/out/libdigest_c.a "$work/libdigest.a"
gcc -O3 -o "$work/bench" tools/bench_sha256.c "$work/libdigest.a"
"$work/bench"
