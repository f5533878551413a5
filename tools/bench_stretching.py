"""Times stretching: python3 tools/bench_stretching.py LIBRARY, where LIBRARY is what tools/bench_stretching.sh builds."""

import ctypes
import hashlib
import sys
import time

IDENTIFIER, EXPONENT, REPEATS = 1234, 5, 15
ITERATIONS = 2500 << EXPONENT
PASSPHRASE, HALF = b"a passphrase of some length", bytes(range(32))
PASSWORD = bytes([2]) + PASSPHRASE
SALT = b"shamir" + IDENTIFIER.to_bytes(2, "big") + HALF


def main(path):
    library = ctypes.CDLL(path)
    size = ctypes.c_size_t
    out = ctypes.create_string_buffer(32)

    def proved():
        done = library.cipher_stretch_hmac_sha256(
            ctypes.c_uint8(2), PASSPHRASE, size(len(PASSPHRASE)), ctypes.c_uint16(IDENTIFIER), ctypes.c_bool(False),
            ctypes.c_uint8(EXPONENT), HALF, size(32), out, size(32),
        )
        assert done & 1
        return out.raw

    def plain_c():
        library.pbkdf2_plain(PASSWORD, size(len(PASSWORD)), SALT, size(len(SALT)), ctypes.c_uint32(ITERATIONS), out)
        return out.raw

    def python():
        return hashlib.pbkdf2_hmac("sha256", PASSWORD, SALT, ITERATIONS, 32)

    ways = {"proved": proved, "plain C": plain_c, "hashlib": python}
    best = dict.fromkeys(ways, float("inf"))
    for _ in range(REPEATS):
        for name, way in ways.items():
            start = time.process_time()
            result = way()
            best[name] = min(best[name], time.process_time() - start)
            assert result == python(), name
    for name, seconds in best.items():
        print(f"{name}: {seconds / ITERATIONS * 1e9:.1f} nanoseconds for an iteration")
    print(f"ratio of the proved code to plain C: {best['proved'] / best['plain C']:.3f} (at most 1.0 is wanted)")
    print(f"ratio of the proved code to hashlib.pbkdf2_hmac: {best['proved'] / best['hashlib']:.3f} (at most 2.0 is wanted)")


if __name__ == "__main__":
    main(sys.argv[1])
