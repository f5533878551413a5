"""Random plans, passphrases, and the commands `encrypt`, `decrypt` and `deal`."""

import dataclasses

import commands
from cipher import LAWFUL_LENGTHS, Parameters
from dealing import Group, Plan, drawn
from random_lines import MEGABYTE, damaged, near

PRINTABLE = range(32, 127)


def exponent(rng):
    """Mostly 0, since each one more doubles the work."""
    return int(rng.random() < 0.04)


def passphrase(rng):
    """A lawful passphrase."""
    length = rng.choice((0, 0, 1, 6, 6, 20, 63, 64, 99, 100))
    return bytes(rng.choices(PRINTABLE, k=length))


def bad_passphrase(rng):
    """A passphrase that is too long, or has bytes that are not allowed, or both."""
    text = bytearray(rng.choices(PRINTABLE, k=rng.choice((1, 20, 100, 101, 150))))
    if len(text) <= 100 or rng.randrange(2):
        text[rng.randrange(len(text))] = rng.choice(b"\x00\x1f\x7f\x80\xff\t\r")
    return bytes(text)


def any_passphrase(rng):
    return bad_passphrase(rng) if rng.randrange(8) == 0 else passphrase(rng)


def any_secret(rng):
    """Bytes, most of them of a lawful length."""
    if rng.randrange(4):
        return rng.randbytes(rng.choice(LAWFUL_LENGTHS))
    return rng.randbytes(rng.choice((0, 1, 14, 15, 17, 63, 65, 66, rng.randrange(200))))


def random_group(rng, most):
    """A lawful group with a threshold up to the most."""
    threshold = rng.randint(1, most)
    return Group(threshold, rng.randint(threshold, min(16, 2 * threshold + 1)) if threshold > 1 else 1)


def random_plan(rng):
    """A lawful plan: mostly a small one, seldom one of 16 groups."""
    most, count = rng.choice(((3, 1), (4, 2), (3, 3), (4, 4), (16, 3), (16, 1), (5, rng.randint(1, 16))))
    groups = tuple(random_group(rng, most) for _ in range(count))
    group_threshold = rng.choice((1, min(2, count), count, rng.randint(1, count)))
    length = rng.choice((16, 16, 16, 32, 64, rng.choice(LAWFUL_LENGTHS)))
    identifier = rng.choice((0, 255, 32767, rng.randrange(1 << 15)))
    return Plan(identifier, rng.randrange(2), exponent(rng), length, group_threshold, count, groups)


def random_cipher(rng):
    """A command `encrypt` or `decrypt`."""
    name = rng.choice((b"encrypt", b"decrypt"))
    parameters = Parameters(rng.randrange(1 << 15), rng.randrange(2), exponent(rng))
    line = commands.cipher(name, parameters, any_secret(rng), any_passphrase(rng))
    texts = line.split(b" ")
    match rng.randrange(12):
        case 0:
            return damaged(rng, line)
        case 1:
            return b" ".join([name, *near(rng, texts[1:4]), *texts[4:]])
        case 2:
            return b" ".join(texts[: rng.randrange(1, 6)])
        case 3:
            return name + b" " + line.split(b" ", 1)[1].upper()
        case 4 if rng.randrange(10) == 0:
            return b"%s 5 0 0 %s x" % (name, b"5a" * (MEGABYTE // 2 + rng.randrange(2)))
        case _:
            return line


def faulty_plan(rng, plan):
    """The plan with one field, or one group, that is often out of its range."""
    name = rng.choice(("identifier", "flag", "exponent", "length", "group_threshold", "group_count", "groups"))
    if name == "groups":
        at = rng.randrange(len(plan.groups))
        group = Group(rng.choice((0, 1, 2, 16, 17, 255)), rng.choice((0, 1, 2, 15, 16, 17, 255)))
        return dataclasses.replace(plan, groups=(*plan.groups[:at], group, *plan.groups[at + 1 :]))
    if name in ("identifier", "length"):
        number = rng.choice((0, 15, 16, 18, 64, 65, 66, 32767, 32768, 65535, rng.randrange(65536)))
    else:
        number = rng.choice((0, 1, 2, 3, 16, 17, 255, rng.randrange(256)))
    return dataclasses.replace(plan, **{name: number})


def random_deal(rng):
    """A command `deal`, lawful or not."""
    plan = random_plan(rng)
    secret, random_bytes = rng.randbytes(plan.length), rng.randbytes(drawn(plan))
    words = any_passphrase(rng)
    line = commands.deal(plan, secret, random_bytes, words)
    texts = line.split(b" ")
    match rng.randrange(10):
        case 0 | 1:
            return commands.deal(faulty_plan(rng, plan), secret, random_bytes, words)
        case 2:
            faulty = faulty_plan(rng, faulty_plan(rng, faulty_plan(rng, plan)))
            return commands.deal(faulty, secret, random_bytes, words)
        case 3:
            return commands.deal(plan, any_secret(rng), random_bytes, words)
        case 4:
            return commands.deal(plan, secret, random_bytes[: rng.randrange(len(random_bytes) + 1)], words)
        case 5:
            return commands.deal(plan, secret, random_bytes + rng.randbytes(rng.randrange(9)), words)
        case 6:
            return damaged(rng, line)
        case 7:
            return b" ".join([texts[0], *near(rng, texts[1:7]), *texts[7:]])
        case 8:
            return b" ".join([*texts[:7], damaged(rng, texts[7]), *texts[8:]])
        case _:
            return b" ".join(texts[: rng.randrange(1, 11)])
