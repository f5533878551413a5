"""Writes crates/kit/stdin, the commands on which the check runs the program `kit`:

    python3 tools/samples.py [--upto card|cipher|deal|tray]

They are those on cards, then those of the cipher, of dealing and of the tray, up to the subject named (cards, which is
what the program has commands for today).
The answers to them, crates/kit/stdout, come from tools/kit.py:

    python3 tools/kit.py numbers shop < crates/kit/stdin > crates/kit/stdout
"""

import argparse
import dataclasses
import pathlib
import random

import cipher_samples
import commands
import deal_samples
import tray_samples

SUBJECTS = {"card": None, "cipher": cipher_samples.lines, "deal": deal_samples.lines, "tray": tray_samples.lines}
OUT = pathlib.Path(__file__).parent.parent / "crates" / "kit" / "stdin"


def read(line):
    return b"read " + line


def right_cards(rng):
    yield b"# right cards: each length of the value, and both flags"
    for length in commands.LENGTHS:
        card = dataclasses.replace(commands.random_card(rng, length), flag=length // 2 % 2)
        yield read(commands.write(card))
    yield b"# the ends of each field"
    card = commands.random_card(rng, 16)
    yield read(commands.write(dataclasses.replace(
        card, identifier=0, flag=0, exponent=0, group=0, group_threshold=1, group_count=1, member=0, member_threshold=1,
        value=bytes(16))))  # fmt: skip
    yield read(commands.write(dataclasses.replace(
        card, identifier=32767, flag=1, exponent=15, group=15, group_threshold=16, group_count=16, member=15,
        member_threshold=16, value=b"\xff" * 64)))  # fmt: skip


def texts(rng):
    card = commands.write(commands.random_card(rng, 16))
    words = card.split(b" ")
    yield b"# tabs, runs of separators, and remarks with any byte"
    yield read(b"\t " + b" \t ".join(words) + b"\t\t")
    yield read(card + b" # steel plate 3, kept by ANNE: \xe9\xff\x00\x7f\r")
    yield read(card + b"#glued to the last word")
    yield read(card + b"#")
    yield read(b" ".join(words[:10]) + b" # " + b" ".join(words[10:]))
    yield b"# 2: the first forbidden byte, wherever a word is wrong too"
    yield read(card + b"\r")
    yield read(card.replace(b" ", b",", 1))
    yield read(b"zzzz 12 " + card + b" \xc3\xa9")
    yield read(b"Abcd")
    yield read(b" ".join(words[:5]) + b" 0\x00 " + b"~#~")
    yield read(b"\x80# a remark does not hide what stands before it")
    yield b"# 3: the first word that is none of the lexicon"
    yield read(b" ".join(words[:7] + [b"1024"] + words[8:]))
    yield read(b" ".join(words[:7] + [b"12"] + words[8:]))
    yield read(b" ".join(words[:7] + [b"00001"] + words[8:]))
    yield read(b"\t\tacademic " + card)
    yield read(b"0 00 000 0000")
    yield read(words[0] + b" 999#9 " + card)


def counts(rng):
    yield b"# 4: no such number of words"
    yield read(b"")
    yield read(b" \t ")
    yield read(b"# only a remark")
    for count in (1, 7, 19, 21, 24, 26, 29, 58, 60, 61, 200):
        yield read(commands.with_words(rng, count))
    yield b"# numbers of words at the ends of the range, which pass to the checksum"
    for count in (20, 22, 23, 25, 27, 28, 57, 59):
        yield read(b" ".join([b"0000"] * count))


def faults(rng):
    yield b"# 5: words replaced, exchanged and turned round"
    for count in (1, 2, 3, 5):
        yield read(commands.with_wrong_words(rng, count))
    words = commands.write(commands.random_card(rng, 32)).split(b" ")
    yield read(b" ".join([words[1], words[0]] + words[2:]))
    yield read(b" ".join(reversed(words)))
    yield b"# 6, and 5 before it"
    yield from (read(commands.with_padding(rng)) for _ in range(3))
    words = commands.with_padding(rng).split(b" ")
    yield read(b" ".join(words[:-1] + [b"%04d" % ((int(words[-1]) + 1) % 1024)]))
    yield b"# 7, and 6 before it"
    yield from (read(commands.write(commands.with_groups(rng))) for _ in range(4))
    card = dataclasses.replace(commands.random_card(rng, 16), group=3, group_count=3, group_threshold=1)
    yield read(commands.write(card, padding=1))
    yield b"# 8, and 7 before it"
    yield from (read(commands.write(commands.with_member(rng))) for _ in range(2))
    yield read(commands.write(dataclasses.replace(card, member_threshold=1, member=15)))


def write(card):
    return b"write " + b" ".join(commands.fields(card))


def written_cards(rng):
    yield b"# cards that are written, and what is written is read"
    for length in (16, 18, 32, 34, 64):
        for flag in (0, 1):
            card = dataclasses.replace(commands.random_card(rng, length), flag=flag)
            yield write(card)
            yield read(commands.write(card))
    yield b"# the ends of each field, zeros before a number, and capital digits"
    yield b"write 0 0 0 0 1 1 0 1 " + b"00" * 16
    yield b"write 32767 1 15 15 16 16 15 16 " + b"ff" * 64
    yield b"write 0000000000000000000000000000000032767 01 00 000 001 016 0 02 " + b"AbCdEf01" * 4
    yield b"# 7 and 8, and 7 before 8"
    for _ in range(3):
        yield write(commands.with_groups(rng))
    yield write(commands.with_member(rng))
    yield b"write 5 0 1 3 1 3 4 1 " + b"00" * 16


def written_faults():
    value = b"00112233445566778899aabbccddeeff"
    right = [b"5", b"0", b"1", b"2", b"2", b"3", b"4", b"3", value]
    yield b"# not nine arguments with one space between"
    yield from (b"write", b"write ", b"write  " + b" ".join(right), b"write " + b" ".join(right) + b" ")
    yield b"write " + b" ".join(right[:-1])
    yield b"write " + b" ".join([*right, b"0"])
    yield b"write " + b"  ".join(right)
    yield b"write " + b"\t".join(right)
    yield b"# numbers out of their ranges, and what is no number"
    for at, ends in enumerate((b"32768", b"2", b"16", b"16", b"0 17", b"0 17", b"16", b"0 17")):
        for end in ends.split(b" "):
            yield b"write " + b" ".join([*right[:at], end, *right[at + 1 :]])
    for text in (b"", b"+5", b"-5", b"5.", b"0x5", b"five", b"65541", b"4294967301", b"5\x00", b"\xb2", b"9" * 99):
        yield b"write " + b" ".join([text, *right[1:]])
    yield b"# values of another length, and what is no value"
    lengths = (b"", value[:-1], value[:-2], value + b"0", value + b"00", value * 4 + b"0000")
    for text in (*lengths, b"g" + value[1:], b"0x" + value):
        yield b"write " + b" ".join([*right[:-1], text])
    yield b"write " + b" ".join(right) + b"# no remark"


def further(last):
    """The samples of the subjects after the cards, up to the one named. Each has random numbers of its own."""
    names = list(SUBJECTS)
    for name in names[1 : names.index(last) + 1]:
        yield from SUBJECTS[name](random.Random(name))


def lines(rng, last):
    yield from right_cards(rng)
    yield from texts(rng)
    yield from counts(rng)
    yield from faults(rng)
    yield from written_cards(rng)
    yield from written_faults()
    yield from further(last)
    yield b"# lines that ask for nothing, and lines that are no command"
    yield from (b"", b" \t ", b"#", b"#read 0000")
    yield from (b"read", b"read\t0000", b"Read 0000", b" read 0000", b"reads 0000", b"rea", b"writes 5")
    yield from (b"\xff\x00", b"\r", b"done: 1")
    yield b"# the last line has no line feed"
    yield read(commands.write(commands.random_card(rng, 16)))


def main():
    parser = argparse.ArgumentParser()
    parser.add_argument("--upto", choices=list(SUBJECTS), default="card")
    OUT.write_bytes(b"\n".join(lines(random.Random(39), parser.parse_args().upto)))


if __name__ == "__main__":
    main()
