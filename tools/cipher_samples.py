"""Samples of `encrypt` and `decrypt` for the run of `kit`."""

import cipher
import commands
from cipher import Parameters

PRINTABLE = bytes(range(32, 127))
LONGEST = (PRINTABLE + b"12345")[:100]


def both_ways(parameters, secret, passphrase):
    """A secret is encrypted, and what comes out is decrypted."""
    yield commands.cipher(b"encrypt", parameters, secret, passphrase)
    encrypted = cipher.encrypt(cipher.SHOP, parameters, secret, passphrase)
    yield commands.cipher(b"decrypt", parameters, encrypted, passphrase)


def right(rng):
    yield b"# encrypt and decrypt: each length, and both flags"
    for length in cipher.LAWFUL_LENGTHS:
        parameters = Parameters(rng.randrange(1 << 15), length // 2 % 2, 0)
        yield from both_ways(parameters, rng.randbytes(length), b"TREZOR")
    yield b"# exponents 0 and 1 under both flags, and the ends of the identifier, which the flag 1 leaves out"
    secret = rng.randbytes(16)
    for flag in (0, 1):
        for exponent in (0, 1):
            yield from both_ways(Parameters(4660, flag, exponent), secret, b"a passphrase")
        for identifier in (0, 255, 256, 32767):
            yield commands.cipher(b"encrypt", Parameters(identifier, flag, 0), secret, b"")
    yield b"# passphrases: none, one space, spaces at the ends, each printable byte, and 100 bytes"
    parameters = Parameters(7, 0, 0)
    yield commands.cipher(b"encrypt", parameters, secret, b"").removesuffix(b" ")
    for passphrase in (b"", b" ", b"  two words  ", b"# no remark", b"~", PRINTABLE, LONGEST, b"~" * 100):
        yield from both_ways(parameters, secret, passphrase)
    yield b"# zeros before a number, and digits of either case"
    yield b"encrypt 000007 00 000 00112233445566778899AaBbCcDdEeFf x"


def refusals(rng):
    parameters = Parameters(7, 0, 0)
    secret = rng.randbytes(16)
    yield b"# 10, and 10 before 9"
    for length in (0, 1, 2, 8, 14, 15, 17, 31, 33, 63, 65, 66, 128, 300):
        yield commands.cipher(b"encrypt", parameters, rng.randbytes(length), b"TREZOR")
        yield commands.cipher(b"decrypt", parameters, rng.randbytes(length), b"\x00")
    yield b"# 9: the first bad byte, also past the hundredth, else 100"
    bad = [b"\t", b"tab\tand\rmore", b"\x1f", b"\x7f", b"caf\xc3\xa9", b"\x00", b" \xff"]
    bad += [b"x" * 101, b"x" * 1000, b"x" * 100 + b"\x00", b"x" * 150 + b"\x80", b"x" * 99 + b"\x80", b"crlf\r"]
    for passphrase in bad:
        yield commands.cipher(b"encrypt", parameters, secret, passphrase)
        yield commands.cipher(b"decrypt", parameters, secret, passphrase)


def errors():
    value = b"00112233445566778899aabbccddeeff"
    right = [b"7", b"0", b"0", value, b"TREZOR"]
    for name in (b"encrypt", b"decrypt"):
        yield b"# %s: arguments that cannot be made out" % name
        yield from (name, name + b" ", name + b"  ", name + b" " + value, name + b"\t7 0 0 " + value)
        for count in (1, 2, 3):
            yield b" ".join([name, *right[:count]])
            yield b" ".join([name, *right[:count], b""])
        for at, other in enumerate((b"32768", b"2", b"16", value[:-1])):
            yield b" ".join([name, *right[:at], other, *right[at + 1 :]])
        for text in (b"", b"-7", b"+7", b"7.", b"0x7", b"seven", b"99999999999999999999999", b"7\x00"):
            yield b" ".join([name, text, *right[1:]])
        for text in (b"", b"0", b"--", b"-00", b"0x00", value[:-1] + b"g", value + b"\t", b"\xff\xff"):
            yield b" ".join([name, *right[:3], text, b"TREZOR"])


def lines(rng):
    yield from right(rng)
    yield from refusals(rng)
    yield from errors()
