"""Keyed digests, round functions and the cipher of SLIP-0039, in both suites.

Written from SLIP-0039, RFC 8018 and the kit's own rules alone: it shares no text with the sources under crates/.
"""

import hashlib
import hmac
from collections.abc import Callable
from dataclasses import dataclass

from slip39 import Refused

ROUND_NUMBERS = range(4)
FEWEST_ITERATIONS = 2500
LONGEST_PASSPHRASE = 100
LAWFUL_LENGTHS = range(16, 66, 2)


@dataclass(frozen=True)
class Parameters:
    """What an encryption depends on beside the secret and the passphrase."""

    identifier: int
    flag: int
    exponent: int


@dataclass(frozen=True)
class Suite:
    """The functions of a run: round_function(number, passphrase, parameters, half) and digest(key, message)."""

    round_function: Callable
    digest: Callable


def hmac_sha256(key, message):
    return hmac.digest(key, message, "sha256")


def drill_digest(key, message):
    """Four bytes, each the exclusive or of every fourth byte of key then message."""
    lanes = bytearray(4)
    for position, byte in enumerate(key + message):
        lanes[position % 4] ^= byte
    return bytes(lanes)


def stretching(number, passphrase, parameters, half):
    """PBKDF2 over HMAC-SHA-256."""
    salt = half if parameters.flag else b"shamir" + parameters.identifier.to_bytes(2, "big") + half
    iterations = FEWEST_ITERATIONS << parameters.exponent
    return hashlib.pbkdf2_hmac("sha256", bytes([number]) + passphrase, salt, iterations, len(half))


def drill_round(number, passphrase, parameters, half):
    addend = sum(passphrase) + number
    return bytes((byte + addend) % 256 for byte in half)


SHOP = Suite(stretching, hmac_sha256)
DRILL = Suite(drill_round, drill_digest)
SUITES = {"shop": SHOP, "drill": DRILL}


def check_length(secret):
    if len(secret) not in LAWFUL_LENGTHS:
        raise Refused(10, len(secret))


def check_passphrase(passphrase):
    for position, byte in enumerate(passphrase):
        if not 32 <= byte <= 126:
            raise Refused(9, position)
    if len(passphrase) > LONGEST_PASSPHRASE:
        raise Refused(9, LONGEST_PASSPHRASE)


def exclusive_or(one, other):
    return bytes(a ^ b for a, b in zip(one, other, strict=True))


def rounds(suite, numbers, parameters, secret, passphrase):
    """The rounds of those numbers, and the halves exchanged at the end."""
    check_length(secret)
    check_passphrase(passphrase)
    middle = len(secret) // 2
    left, right = secret[:middle], secret[middle:]
    for number in numbers:
        mask = suite.round_function(number, passphrase, parameters, right)
        left, right = right, exclusive_or(left, mask)
    return right + left


def encrypt(suite, parameters, secret, passphrase):
    return rounds(suite, ROUND_NUMBERS, parameters, secret, passphrase)


def decrypt(suite, parameters, secret, passphrase):
    return rounds(suite, reversed(ROUND_NUMBERS), parameters, secret, passphrase)
