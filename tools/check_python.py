"""Checks the Python implementation against published facts: python3 tools/check_python.py."""

import hashlib
import random

import check_vectors
import cipher
import dealing
import sharing
import slip39
from random_deals import random_plan
from tray import Tray


def check_fields():
    """FIPS 197 has the product; the laws are tried on every element."""
    assert sharing.product(0x57, 0x83) == 0xC1
    assert sharing.inverse(0x53) == 0xCA
    for a in range(256):
        assert sharing.product(a, 1) == a and sharing.product(a, 0) == 0
        assert a == 0 or sharing.product(a, sharing.inverse(a)) == 1
    points = {0: b"\x00\x07", 1: b"\x01\x07", 2: b"\x02\x07"}
    assert sharing.interpolate(points, 200) == b"\xc8\x07"


def check_digests():
    """Cases 1 and 2 of RFC 4231, and the case of PBKDF2 over HMAC-SHA-256 in RFC 7914."""
    assert cipher.hmac_sha256(b"\x0b" * 20, b"Hi There").hex().startswith("b0344c61d8db38535ca8afceaf0bf12b")
    assert cipher.hmac_sha256(b"Jefe", b"what do ya want for nothing?").hex().startswith("5bdcc146bf60754e6a04")
    assert hashlib.pbkdf2_hmac("sha256", b"passwd", b"salt", 1, 64).hex().startswith("55ac046e56e3089fec1691c2")
    assert cipher.drill_digest(b"\x01\x02\x03\x04\x05", b"\x06\x07") == b"\x04\x04\x04\x04"


def check_checksum():
    """The check words of no string and no words, and the words of the fields of a card."""
    polymod = slip39.rs1024_polymod([0] * 3) ^ 1
    assert [polymod >> 20, polymod >> 10 & 1023, polymod & 1023] == [14, 56, 65]
    card = slip39.Card(5, 0, 1, 2, 2, 3, 4, 3, bytes(range(16)))
    assert slip39.encode(card)[:4] == [0, 161, 132, 578]
    assert slip39.decode(slip39.encode(card)) == card


def check_cipher():
    parameters = cipher.Parameters(0, 0, 0)
    assert cipher.encrypt(cipher.DRILL, parameters, bytes(8) + b"\2" * 8, b"") == b"\5" * 8 + b"\1" * 8
    for suite in cipher.SUITES.values():
        for length in cipher.LAWFUL_LENGTHS:
            parameters = cipher.Parameters(7, length // 2 % 2, 0)
            hidden = cipher.encrypt(suite, parameters, bytes(range(length)), b"TREZOR")
            assert cipher.decrypt(suite, parameters, hidden, b"TREZOR") == bytes(range(length))


def check_deal(rng, suite):
    """Just enough cards of a deal give the secret back, all cards do too, and one card less does not."""
    plan = random_plan(rng)
    secret = rng.randbytes(plan.length)
    cards = dealing.deal(suite, plan, secret, rng.randbytes(dealing.drawn(plan)), b"pass")
    chosen = set(rng.sample(range(plan.group_count), plan.group_threshold))
    tray, rest = Tray(), []
    for number, group in enumerate(plan.groups):
        mine = [card for card in cards if card.group == number]
        rng.shuffle(mine)
        enough = group.threshold if number in chosen else 0
        for card in mine[:enough]:
            tray.lay(card)
        rest += mine[enough:]
    assert tray.open(suite, 2048, plan.length, b"pass") == secret
    dropped = rng.choice(list(tray.cards.values()))
    tray.withdraw(dropped.group, dropped.member)
    assert tray.tally().full_rows == plan.group_threshold - 1
    for card in [*rest, dropped]:
        tray.lay(card)
    assert len(tray.cards) == len(cards) and tray.open(suite, 2048, plan.length, b"pass") == secret


def check_deals():
    rng = random.Random(256)
    for suite in cipher.SUITES.values():
        for _ in range(40):
            check_deal(rng, suite)


def check_published_vectors():
    counts = check_vectors.check(show=lambda line: None)
    assert counts["accepted"] == 15 and counts["rejected"] == 29 and counts["wrong"] == 0, counts


def main():
    check_fields()
    check_digests()
    check_checksum()
    check_cipher()
    check_deals()
    check_published_vectors()
    print("the Python implementation agrees with the published facts, and its deals open")


if __name__ == "__main__":
    main()
