"""The arguments of the commands of the program `kit`."""

import re
from dataclasses import dataclass

from cipher import Parameters
from dealing import Group, Plan
from slip39 import Card

BYTE = (0, 255)
SIZE = (0, 65535)
# identifier, flag and exponent, as a card can have them
PARAMETERS = ((0, 32767), (0, 1), (0, 15))
# the arguments of `write` before the value
CARD = (*PARAMETERS, (0, 15), (1, 16), (1, 16), (0, 15), (1, 16))
# the arguments of `deal` before the groups: what the fields of a plan can hold
PLAN = (SIZE, BYTE, BYTE, SIZE, BYTE, BYTE)
MOST_GROUPS = 16


class Malformed(Exception):
    """The arguments of a command cannot be made out."""


def number(text, least, most):
    """The number that decimal digits write; zeros may stand before it."""
    if not re.fullmatch(b"[0-9]+", text):
        raise Malformed
    digits = text.lstrip(b"0") or b"0"
    if len(digits) > len(str(most)) or not least <= int(digits) <= most:
        raise Malformed
    return int(digits)


def numbers(texts, ranges):
    """One number for each range."""
    if len(texts) != len(ranges):
        raise Malformed
    return [number(text, least, most) for text, (least, most) in zip(texts, ranges)]


def value(text):
    """The bytes that hexadecimal digits of either case write, as many as a card can have."""
    if not re.fullmatch(b"[0-9a-fA-F]+", text) or len(text) not in range(32, 132, 4):
        raise Malformed
    return bytes.fromhex(text.decode())


def some_bytes(text):
    """Bytes in hexadecimal digits of either case; `-` is for none."""
    if text == b"-":
        return b""
    if len(text) < 2 or len(text) % 2 or not re.fullmatch(b"[0-9a-fA-F]+", text):
        raise Malformed
    return bytes.fromhex(text.decode())


def exactly(arguments, count):
    """As many arguments as the count, with one space between."""
    texts = (arguments or b"").split(b" ")
    if len(texts) != count:
        raise Malformed
    return texts


def before_passphrase(arguments, count):
    """As many arguments as the count, and the passphrase: what stands after one space more, or nothing."""
    texts = (arguments or b"").split(b" ", count)
    if len(texts) < count:
        raise Malformed
    return texts[:count], texts[count] if len(texts) > count else b""


def card(arguments):
    """The card of the arguments of `write`; its fields may not go together."""
    texts = exactly(arguments, len(CARD) + 1)
    return Card(*numbers(texts[:-1], CARD), value(texts[-1]))


@dataclass(frozen=True)
class Encryption:
    """The arguments of `encrypt` and `decrypt`."""

    parameters: Parameters
    secret: bytes
    passphrase: bytes


def encryption(arguments):
    texts, passphrase = before_passphrase(arguments, len(PARAMETERS) + 1)
    return Encryption(Parameters(*numbers(texts[:-1], PARAMETERS)), some_bytes(texts[-1]), passphrase)


def groups(text):
    """Groups as T/N,T/N and so on."""
    pairs = [pair.split(b"/") for pair in text.split(b",")]
    if len(pairs) > MOST_GROUPS:
        raise Malformed
    return tuple(Group(*numbers(pair, (BYTE, BYTE))) for pair in pairs)


@dataclass(frozen=True)
class Deal:
    """The arguments of `deal`."""

    plan: Plan
    secret: bytes
    random_bytes: bytes
    passphrase: bytes


def deal(arguments):
    texts, passphrase = before_passphrase(arguments, len(PLAN) + 3)
    plan = Plan(*numbers(texts[: len(PLAN)], PLAN), groups(texts[-3]))
    return Deal(plan, some_bytes(texts[-2]), some_bytes(texts[-1]), passphrase)


def place(arguments):
    """The group number and the member number of `withdraw`."""
    return numbers(exactly(arguments, 2), (BYTE, BYTE))


def spaces(arguments):
    """The sizes of the work space and the answer space, and the passphrase."""
    texts, passphrase = before_passphrase(arguments, 2)
    return *numbers(texts, (SIZE, SIZE)), passphrase
