#!/usr/bin/env python3
"""Writes the commands that the program `digests` is run on, to the standard output.

    python3 tools/digest_samples.py > crates/digests/stdin

The examples of FIPS 180-4 and RFC 4231 come first, then lengths around the edges of a block, the limits of a key,
a message and a space, and random cases. The same commands come out each time.
"""
import random

random.seed(180198)

FIPS_180_4 = [
    b"abc",
    b"",
    b"abcdbcdecdefdefgefghfghighijhijkijkljklmklmnlmnomnopnopq",
    b"abcdefghbcdefghicdefghijdefghijkefghijklfghijklmghijklmnhijklmnoijklmnopjklmnopqklmnopqrlmnopqrsmnopqrstnopqrstu",
]
RFC_4231 = [
    (b"\x0b" * 20, b"Hi There"),
    (b"Jefe", b"what do ya want for nothing?"),
    (b"\xaa" * 20, b"\xdd" * 50),
    (bytes(range(1, 26)), b"\xcd" * 50),
    (b"\x0c" * 20, b"Test With Truncation"),
    (b"\xaa" * 131, b"Test Using Larger Than Block-Size Key - Hash Key First"),
    (
        b"\xaa" * 131,
        b"This is a test using a larger than block-size key and a larger than block-size data. "
        b"The key needs to be hashed before being used by the HMAC algorithm.",
    ),
]
EDGES = [0, 1, 31, 32, 33, 55, 56, 57, 63, 64, 65, 119, 120, 121, 127, 128, 129, 1000]
SIZES = {"hmac": 32, "drill": 4}


def word(data):
    return data.hex() or "-"


def some(length):
    return random.randbytes(length)


def repeated(length):
    return f"{random.randrange(256):02x}*{length}"


def main():
    for message in FIPS_180_4:
        print("sha256", word(message))
    print("sha256 61*1000000")
    for key, message in RFC_4231:
        print("hmac 32", word(key), word(message))

    for length in EDGES:
        print("sha256", word(some(length)))
    for length in range(131):
        print("sha256", word(some(length)))
    for length in (65535, 65536, 65537, 200000):
        print("sha256", repeated(length))
    for name, size in SIZES.items():
        for length in EDGES:
            print(name, size, word(some(length)), word(some(random.randrange(40))))
            print(name, size, word(some(random.randrange(40))), word(some(length)))
        for key, message in [(65536, 5), (5, 65536), (65536, 65536), (65535, 65537), (65537, 5), (65537, 65537)]:
            print(name, size, repeated(key), repeated(message))
        for space in (0, 1, size - 1, size, size + 1, size + 9):
            print(name, space, word(some(9)), word(some(30)))
            print(name, space, repeated(65537), word(some(30)))
            print(name, space, word(some(9)), repeated(65537))

    for _ in range(200):
        print("sha256", word(some(random.randrange(300))))
    for name, size in SIZES.items():
        for _ in range(200):
            print(name, size, word(some(random.randrange(100))), word(some(random.randrange(150))))

    for name, size in SIZES.items():
        for count in (0, 1, 2, 3, 4, 7, 64, 1000):
            for length in (0, 1, 20, 64, 65, 100):
                print(f"{name}-chain", count, word(some(length)), word(some(size)), word(some(size)))
            print(f"{name}-chain", count, repeated(65536), word(some(size)), word(some(size)))
            print(f"{name}-chain", count, repeated(65537), word(some(size)), word(some(size)))
            print(f"{name}-chain", count, repeated(65537), word(some(size - 1)), word(some(size)))
            for link, total in [(-1, 0), (0, -1), (-1, -1), (5, 0), (0, 5), (7, 3), (-size, 0), (0, -size)]:
                print(f"{name}-chain", count, word(some(12)), word(some(size + link)), word(some(size + total)))


if __name__ == "__main__":
    main()
