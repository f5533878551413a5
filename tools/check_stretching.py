"""Compares stretching with Python: python3 tools/check_stretching.py LIBRARY [SEED [COUNT]], LIBRARY as tools/check_stretching.sh builds it."""

import ctypes
import hashlib
import random
import sys


def drill_digest(key, message):
    lanes = bytearray(4)
    for position, byte in enumerate(key + message):
        lanes[position % 4] ^= byte
    return bytes(lanes)


def pbkdf2(digest, password, salt, count, length):
    """Section 5.2 of RFC 8018."""
    derived, number = b"", 0
    while len(derived) < length:
        number += 1
        link = digest(password, salt + number.to_bytes(4, "big"))
        total = int.from_bytes(link, "big")
        for _ in range(count - 1):
            link = digest(password, link)
            total ^= int.from_bytes(link, "big")
        derived += total.to_bytes(len(link), "big")
    return derived[:length]


def by_hashlib(password, salt, count, length):
    return hashlib.pbkdf2_hmac("sha256", password, salt, count, length)


def by_drill(password, salt, count, length):
    return pbkdf2(drill_digest, password, salt, count, length)


def lawful(number, passphrase, identifier, exponent, half, room):
    return (
        number < 4 and identifier < 32768 and exponent < 16 and 8 <= len(half) <= 32 and room >= len(half)
        and len(passphrase) <= 100 and all(32 <= byte <= 126 for byte in passphrase)
    )


def random_case(source):
    often = source.random() < 0.8
    length = source.choice((0, 1, 20, 63, 64, 99, 100, 101) if often else (100, 101, 102, 200))
    passphrase = bytes(source.randrange(32, 127) for _ in range(length))
    if passphrase and source.random() < 0.1:
        place = source.randrange(length)
        passphrase = passphrase[:place] + bytes([source.choice((0, 31, 127, 255))]) + passphrase[place + 1:]
    half = source.randbytes(source.choice((8, 9, 16, 31, 32) if often else (0, 7, 8, 32, 33)))
    room = len(half) + source.choice((0, 0, 1, 40)) if often else source.randrange(40)
    number = source.choice((0, 1, 2, 3) if often else (3, 4, 255))
    identifier = source.choice((0, 255, 256, 32767, source.randrange(32768)) if often else (32767, 32768, 65535))
    exponent = source.choice((0, 0, 1) if often else (0, 16, 255))
    return number, passphrase, identifier, source.randrange(2), exponent, half, room


def main(path, seed="1", count="60"):
    library = ctypes.CDLL(path)
    ways = ((library.cipher_stretch_hmac_sha256, by_hashlib), (library.cipher_stretch_drill, by_drill))
    source = random.Random(int(seed))
    written = 0
    for _ in range(int(count)):
        case = random_case(source)
        number, passphrase, identifier, flag, exponent, half, room = case
        before = source.randbytes(room)
        for proved, expected in ways:
            out = ctypes.create_string_buffer(before, max(room, 1))
            answer = proved(
                ctypes.c_uint8(number), passphrase, ctypes.c_size_t(len(passphrase)), ctypes.c_uint16(identifier), ctypes.c_bool(flag),
                ctypes.c_uint8(exponent), half, ctypes.c_size_t(len(half)), out, ctypes.c_size_t(room),
            ) & 1
            wanted = before
            if lawful(number, passphrase, identifier, exponent, half, room):
                salt = half if flag else b"shamir" + identifier.to_bytes(2, "big") + half
                wanted = expected(bytes([number]) + passphrase, salt, 2500 << exponent, len(half)) + before[len(half):]
                written += 1
            assert out.raw[:room] == wanted and bool(answer) == lawful(number, passphrase, identifier, exponent, half, room), case
    print(f"{count} cases for each of two digests agree, {written} of the answers with a result")


if __name__ == "__main__":
    main(*sys.argv[1:])
