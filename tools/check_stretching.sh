#!/bin/sh
# Compares stretching over HMAC-SHA-256 with Python's hashlib.pbkdf2_hmac, and stretching over the drill digest, which
# takes up to eight blocks, with RFC 8018 written out in Python, on random input:
#
#     tools/check_stretching.sh [SEED [COUNT]]
set -eu
root=$(cd "$(dirname "$0")/.." && pwd)
work=$(mktemp -d)
(cd "$root/crates/cipher_c" && rt lib >"$work/staticlib.log" 2>&1) || { tail -n 5 "$work/staticlib.log" >&2; exit 1; }
cp "$root/crates/cipher_c/out/libcipher_c.a" "$work/libcipher.a"
gcc -shared -o "$work/cipher.so" -Wl,--whole-archive "$work/libcipher.a" -Wl,--no-whole-archive
python3 "$root/tools/check_stretching.py" "$work/cipher.so" "$@"
rm -r "$work"
