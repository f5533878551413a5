"""Writes a random script for `kit`: python3 tools/random_commands.py SEED COUNT SUITE [WORD_FILE [--all]] > commands.

It has about COUNT commands. With a word file the cards are in its words, some of them shortened. Some lines have a
megabyte. The same seed gives the same bytes. The commands are those that the program has today; with --all also those
that it is to get.
"""

import pathlib
import random
import re
import sys

import arguments
import cipher
import random_deals
import random_lines
import random_tray
import slip39
from script import Script

SLOW_EXPONENT = 2
LEXICON = slip39.number_lexicon()
NAMES = b"read write encrypt decrypt deal lay withdraw tally open open-in".split()


def exponent_of(line):
    """The exponent by which a command would stretch a passphrase, now or at an opening; 0 where it would not."""
    name, _, rest = line.partition(b" ")
    try:
        match name:
            case b"encrypt" | b"decrypt":
                return arguments.encryption(rest).parameters.exponent
            case b"deal":
                return arguments.deal(rest).plan.exponent
            case b"lay":
                return slip39.read_card(LEXICON, rest).exponent
    except (arguments.Malformed, slip39.Refused):
        pass
    return 0


class QuickScript(Script):
    """A script without the commands that would take long: in the shop suite, those with a high exponent."""

    def say(self, *lines):
        for line in lines:
            line = line.replace(b"\n", b" ")
            if self.suite is cipher.DRILL or not SLOW_EXPONENT <= exponent_of(line) <= 15:
                super().say(line)


def no_command(rng):
    """A line that asks for nothing or is no command, or a command that is cut short."""
    name = rng.choice(NAMES)
    others = [b"", b" \t", b"# " + rng.randbytes(9), rng.randbytes(5)]
    return rng.choice([*others, name, name + b"x 1", name + b" 1", b" " + name])


def add(rng, script, every):
    """Adds a random command, or a story of the tray."""
    kind = rng.randrange(1000) if every else rng.choice((*range(640), *range(940, 1000)))
    if kind < 420:
        script.say(b"read " + random_lines.card_line(rng))
    elif kind < 423:
        script.say(rng.choice((b"read ", b"lay ")) + random_lines.long_line(rng))
    elif kind < 640:
        script.say(b"write " + random_lines.fields(rng))
    elif kind < 800:
        script.say(random_deals.random_cipher(rng))
    elif kind < 880:
        script.say(random_deals.random_deal(rng))
    elif kind < 940:
        random_tray.tell(rng, script)
    else:
        script.say(no_command(rng))


def in_words(rng, words, line):
    """The line of a card with the words of a word file for four digits, some of them shortened."""

    def word(found):
        index = int(found[0])
        if index >= len(words):
            return found[0]
        whole = words[index]
        return whole[: rng.randint(4, len(whole))] if rng.randrange(2) else whole

    if not words or not line.startswith((b"read ", b"lay ")):
        return line
    return re.sub(rb"[0-9]{4}", word, line)


def main(seed, count, suite, word_file=None, every=None):
    rng = random.Random(seed)
    words = pathlib.Path(word_file).read_bytes().split() if word_file else []
    script = QuickScript(cipher.SUITES[suite])
    while len(script.lines) < count:
        add(rng, script, every == "--all")
    sys.stdout.buffer.write(b"\n".join(in_words(rng, words, line) for line in script.lines))


if __name__ == "__main__":
    main(int(sys.argv[1]), int(sys.argv[2]), *sys.argv[3:])
