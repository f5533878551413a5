#!/bin/sh
# Times stretching over HMAC-SHA-256 against plain C at gcc -O3, its key absorbed once too, and against Python's
# hashlib.pbkdf2_hmac, all in one run:
#
#     tools/bench_stretching.sh
#
# Processor time is taken, the best of 15 turns each, and the three results are compared.
set -eu
root=$(cd "$(dirname "$0")/.." && pwd)
work=$(mktemp -d)
(cd "$root/crates/cipher_c" && rt lib >"$work/staticlib.log" 2>&1) || { tail -n 5 "$work/staticlib.log" >&2; exit 1; }
cp "$root/crates/cipher_c/out/libcipher_c.a" "$work/libcipher.a"
gcc -O3 -fPIC -c -o "$work/bench.o" "$root/tools/bench_stretching.c"
gcc -shared -o "$work/bench.so" "$work/bench.o" -Wl,--whole-archive "$work/libcipher.a" -Wl,--no-whole-archive
python3 "$root/tools/bench_stretching.py" "$work/bench.so"
rm -r "$work"
