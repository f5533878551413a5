"""Samples of `deal` for the run of `kit`."""

import dataclasses

import commands
from cipher_samples import LONGEST
from dealing import Group, Plan, drawn

GROUPS = (Group(2, 3), Group(3, 5), Group(1, 1))


def plan(group_threshold, groups, length=16, identifier=21930, flag=0, exponent=0):
    return Plan(identifier, flag, exponent, length, group_threshold, len(groups), tuple(groups))


def dealt(rng, chosen, passphrase=b"TREZOR", more=0):
    """A deal of a random secret with as many random bytes as it draws, and more."""
    return commands.deal(chosen, rng.randbytes(chosen.length), rng.randbytes(drawn(chosen) + more), passphrase)


def right(rng):
    yield b"# deals of one group"
    for group in (Group(1, 1), Group(2, 2), Group(2, 3), Group(3, 3), Group(3, 5), Group(16, 16), Group(2, 16)):
        yield dealt(rng, plan(1, [group]))
    yield b"# two of the groups 2/3, 3/5 and 1/1, with both flags and exponents"
    for length in (16, 32, 64):
        for flag in (0, 1):
            yield dealt(rng, plan(2, GROUPS, length, flag=flag), LONGEST)
    yield dealt(rng, plan(3, GROUPS, 18, exponent=1), b"")
    yield dealt(rng, plan(1, GROUPS, 34, flag=1, exponent=1), b" ")
    yield b"# each length"
    for length in range(16, 66, 2):
        yield dealt(rng, plan(2, (Group(2, 2), Group(1, 1)), length, identifier=length))
    yield b"# the ends of the identifier, 16 groups, and groups of 16 cards"
    for identifier in (0, 32767):
        yield dealt(rng, plan(2, (Group(1, 1),) * 3, identifier=identifier))
    yield dealt(rng, plan(16, (Group(1, 1),) * 16))
    yield dealt(rng, plan(16, (Group(16, 16),) * 16))
    yield dealt(rng, plan(3, [Group(1, 1)] + [Group(threshold, 16) for threshold in range(2, 17)], 64))
    yield b"# more random bytes than are drawn, groups past those that count, zeros before numbers, no passphrase"
    yield dealt(rng, plan(2, GROUPS), more=1)
    yield dealt(rng, plan(1, [Group(1, 1)]), more=40)
    yield dealt(rng, dataclasses.replace(plan(2, (*GROUPS, Group(0, 9), Group(255, 255))), group_count=3))
    yield b"deal 007 00 000 0016 01 0001 002/03 " + rng.randbytes(16).hex().upper().encode() + b" " + b"Ab" * 12
    yield dealt(rng, plan(2, GROUPS), b"").removesuffix(b" ")


def plan_faults(rng):
    """A plan out of its range at each place, and at several."""
    right = plan(2, GROUPS)
    change = dataclasses.replace
    faulty = [change(right, identifier=number) for number in (32768, 65535)]
    faulty += [change(right, flag=number) for number in (2, 255)]
    faulty += [change(right, exponent=number) for number in (16, 255)]
    faulty += [change(right, length=number) for number in (0, 14, 15, 17, 63, 65, 66, 65535)]
    faulty += [change(right, group_count=number) for number in (0, 17, 255)]
    faulty += [change(right, group_threshold=number) for number in (0, 4, 16, 255)]
    for threshold, count in ((0, 0), (0, 1), (1, 0), (1, 2), (1, 16), (3, 2), (2, 17), (17, 17)):
        faulty += [plan(1, [*GROUPS[:at], Group(threshold, count), *GROUPS[at:]]) for at in range(4)]
    faulty += [change(right, group_count=number) for number in (4, 16)]
    faulty += [plan(1, [Group(1, 1)] * 15 + [group]) for group in (Group(2, 1), Group(255, 255))]
    yield b"# 11: the first part of the plan that is out of its range"
    for chosen in faulty:
        yield commands.deal(chosen, rng.randbytes(16), b"", b"TREZOR")
    worst = Plan(65535, 255, 255, 1, 255, 255, (Group(0, 0),))
    yield b"# every part but the first ones"
    repairs = {"identifier": 1, "flag": 1, "exponent": 0, "length": 16, "group_count": 1, "group_threshold": 1}
    for name, number in repairs.items():
        yield commands.deal(worst, b"", b"", b"\x00")
        worst = change(worst, **{name: number})
    yield commands.deal(worst, b"", b"", b"\x00")


def other_refusals(rng):
    right = plan(2, GROUPS)
    enough = rng.randbytes(drawn(right))
    secret = rng.randbytes(16)
    yield b"# 10: no length of a secret, or not the plan's; 10 before 9"
    for length in (0, 1, 14, 15, 17, 18, 64, 65, 200):
        yield commands.deal(right, rng.randbytes(length), enough, b"TREZOR")
    yield commands.deal(right, b"", b"", b"\x80")
    yield b"# 9, and 9 before 29"
    for passphrase in (b"x" * 101, b"caf\xc3\xa9", b"\t", b"x" * 120 + b"\x00"):
        yield commands.deal(right, secret, enough, passphrase)
        yield commands.deal(right, secret, b"", passphrase)
    yield b"# 29: all that the call draws"
    for count in (0, 1, 11, 12, len(enough) - 1):
        yield commands.deal(right, secret, enough[:count], b"TREZOR")
    for chosen in (plan(1, [Group(2, 3)]), plan(1, [Group(3, 3)], 64), plan(16, (Group(16, 16),) * 16, 64)):
        yield commands.deal(chosen, rng.randbytes(chosen.length), rng.randbytes(drawn(chosen) - 1), b"")


def errors():
    value = b"00112233445566778899aabbccddeeff"
    right = [b"7", b"0", b"0", b"16", b"1", b"1", b"2/3", value, value]
    yield b"# deal: arguments that cannot be made out"
    yield from (b"deal", b"deal ", b"deal  " + b" ".join(right), b"deal\t" + b" ".join(right))
    for count in range(1, 9):
        yield b" ".join([b"deal", *right[:count]])
    for at, other in enumerate((b"65536", b"256", b"256", b"65536", b"256", b"256", b"2", b"0", value + b"1")):
        yield b" ".join([b"deal", *right[:at], other, *right[at + 1 :]])
    for at in range(9):
        yield b" ".join([b"deal", *right[:at], b"", *right[at + 1 :]])
        yield b" ".join([b"deal", *right[:at], b"-1", *right[at + 1 :]])
    groups = b"/ 2/ /3 2/3, ,2/3 2/3,,2/3 2/3/4 2/3;2/3 2/256 256/2 - 2\\3 2-3 2/3,2 2/-3".split(b" ")
    for text in (*groups, b",".join([b"1/1"] * 17)):
        yield b" ".join([b"deal", *right[:6], text, *right[7:]])


def lines(rng):
    yield from right(rng)
    yield from plan_faults(rng)
    yield from other_refusals(rng)
    yield from errors()
