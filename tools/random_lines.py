"""Random arguments for `read` and `write`, and damage for every line."""

import dataclasses

import commands

MEGABYTE = 1 << 20


def damaged(rng, line):
    """The line with a byte or two put in, taken out or replaced."""
    line = bytearray(line)
    for _ in range(rng.randint(1, 2)):
        at = rng.randrange(len(line) + 1)
        byte = rng.choice(b"abc019 \t##zA\r\x00\x80\xff/,-")
        match rng.randrange(3):
            case 0:
                line.insert(at, byte)
            case 1:
                line[at : at + 1] = b""
            case _:
                line[at : at + 1] = bytes([byte])
    return bytes(line)


def spaced(rng, line):
    """The line with other separators, and perhaps a remark of any bytes."""
    parts = [word + bytes(rng.choices(b" \t", k=rng.randint(1, 3))) for word in line.split(b" ")]
    remark = b"#" + rng.randbytes(rng.randrange(30)) if rng.randrange(2) else b""
    return bytes(rng.choices(b" \t", k=rng.randrange(3))) + b"".join(parts) + remark


def long_line(rng):
    """A line of about a megabyte."""
    size = MEGABYTE + rng.randrange(100)
    card = commands.write(commands.random_card(rng))
    return rng.choice(
        [
            card + b" " * size,
            b"\t" * size + card,
            card + b"#" + rng.randbytes(size),
            card + b" " + b"0000 " * (size // 5),
            b"a" * size,
            b" " * size + b"?",
            rng.randbytes(size),
        ]
    )


def faulty_line(rng, card):
    """A line that has a fault, most of them of a card; the fault may be slight enough for the card to be read."""
    line = commands.write(card)
    makers = [
        lambda: damaged(rng, line),
        lambda: damaged(rng, spaced(rng, line)),
        lambda: commands.with_words(rng, rng.randrange(70)),
        lambda: commands.with_padding(rng),
        lambda: commands.write(commands.with_groups(rng)),
        lambda: commands.write(commands.with_member(rng)),
        lambda: commands.with_wrong_words(rng, rng.randint(1, 4)),
        lambda: rng.randbytes(rng.randrange(200)),
    ]
    return rng.choice(makers)()


def card_line(rng):
    """The line of a card for `read`."""
    card = commands.random_card(rng)
    match rng.randrange(10):
        case 0:
            return commands.write(card)
        case 1:
            return spaced(rng, commands.write(card))
        case _:
            return faulty_line(rng, card)


def near(rng, texts):
    """Arguments of which one is another number."""
    at = rng.randrange(len(texts))
    other = [b"", b"%d" % rng.randrange(20), b"%d" % rng.randrange(300), b"%d" % rng.randrange(70000)]
    other.append(b"0" * rng.randrange(9) + texts[at])
    return [*texts[:at], rng.choice(other), *texts[at + 1 :]]


def fields(rng):
    """The arguments of `write`."""
    card = commands.random_card(rng)
    texts = commands.fields(card)
    line = b" ".join(texts)
    makers = [
        lambda: line,
        lambda: line.upper(),
        lambda: b" ".join([*near(rng, texts[:-1]), texts[-1]]),
        lambda: damaged(rng, line),
        lambda: b" ".join(commands.fields(commands.with_groups(rng))),
        lambda: b" ".join(commands.fields(commands.with_member(rng))),
        lambda: b" ".join(commands.fields(dataclasses.replace(card, value=rng.randbytes(rng.randrange(70))))),
        lambda: b"0" * (MEGABYTE // 8) + line,
    ]
    return rng.choices(makers, weights=[9, 3, 9, 9, 3, 3, 9, 1])[0]()
