"""Answers the commands of the program `kit`: python3 tools/kit.py LEXICON SUITE [--all] < commands.

The commands are those that the program has today; with --all also those that it is to get.
"""

import sys

import arguments
import cipher
import dealing
import slip39
from arguments import Malformed
from tray import Tray

USAGE = "error: kit takes LEXICON (numbers or the path of a word file) and SUITE (shop or drill)"
NO_FILE = "error: the word file cannot be read"
NO_SUCH_COMMAND = "there is no such command"
CIPHER_TAKES = "takes an identifier, a flag, an exponent, a secret in hexadecimal digits and a passphrase"
TAKES = {
    b"read": "read takes one space and then the line of a card",
    b"write": "write takes the nine fields of a card, each in its range, with one space between",
    b"encrypt": f"encrypt {CIPHER_TAKES}",
    b"decrypt": f"decrypt {CIPHER_TAKES}",
    b"deal": "deal takes the fields of a plan, its groups as T/N,T/N, a secret, random bytes and a passphrase",
    b"lay": "lay takes one space and then the line of a card",
    b"withdraw": "withdraw takes a group number and a member number, each at most 255",
    b"tally": "tally takes nothing",
    b"open-in": "open-in takes the sizes of two spaces, each at most 65535, and a passphrase",
}
# the commands that the program has today
TODAY = (b"read", b"write")
# the spaces that `open` brings
WORK_SPACE = 2048
ANSWER_SPACE = 64


class NoCommand(Exception):
    """A line is no command that can be carried out; the message says why."""


def refused_line(refusal):
    return f"refused {refusal.number} {refusal.layer} {refusal.place}: {refusal.sentence}"


def card_line(card):
    return (
        f"card identifier={card.identifier} flag={card.flag} exponent={card.exponent} "
        f"group={card.group} group_threshold={card.group_threshold} group_count={card.group_count} "
        f"member={card.member} member_threshold={card.member_threshold} value={card.value.hex()}"
    )


def tally_line(tally):
    partial = "- -" if tally.partial_row is None else f"{tally.partial_row} {tally.wanted}"
    return f"tally {tally.cards} {tally.full_rows} {tally.group_threshold} {partial}"


class Session:
    """The state of one run: lexicon, suite and tray, and how the commands ended."""

    def __init__(self, lexicon, suite):
        self.lexicon = lexicon
        self.suite = suite
        self.tray = Tray()
        self.done = 0
        self.refused = 0
        self.errors = 0
        self.commands = {
            b"read": self.read,
            b"write": self.write,
            b"encrypt": self.encrypt,
            b"decrypt": self.decrypt,
            b"deal": self.deal,
            b"lay": self.lay,
            b"withdraw": self.withdraw,
            b"tally": self.tally,
            b"open": self.open,
            b"open-in": self.open_in,
        }

    def card(self, line):
        if line is None:
            raise Malformed
        return slip39.read_card(self.lexicon, line)

    def text(self, card):
        return slip39.write_card(self.lexicon, card).decode()

    def read(self, rest):
        return card_line(self.card(rest))

    def write(self, rest):
        return "text " + self.text(arguments.card(rest))

    def encrypt(self, rest):
        asked = arguments.encryption(rest)
        return "bytes " + cipher.encrypt(self.suite, asked.parameters, asked.secret, asked.passphrase).hex()

    def decrypt(self, rest):
        asked = arguments.encryption(rest)
        return "bytes " + cipher.decrypt(self.suite, asked.parameters, asked.secret, asked.passphrase).hex()

    def deal(self, rest):
        asked = arguments.deal(rest)
        cards = dealing.deal(self.suite, asked.plan, asked.secret, asked.random_bytes, asked.passphrase)
        return "\n".join([f"dealt {len(cards)}", *map(self.text, cards)])

    def lay(self, rest):
        card = self.card(rest)
        self.tray.lay(card)
        return f"laid {card.group} {card.member}"

    def withdraw(self, rest):
        group, member = arguments.place(rest)
        self.tray.withdraw(group, member)
        return f"withdrawn {group} {member}"

    def tally(self, rest):
        if rest is not None:
            raise Malformed
        return tally_line(self.tray.tally())

    def open(self, rest):
        return self.secret(WORK_SPACE, ANSWER_SPACE, rest or b"")

    def open_in(self, rest):
        return self.secret(*arguments.spaces(rest))

    def secret(self, work, answer, passphrase):
        return "secret " + self.tray.open(self.suite, work, answer, passphrase).hex()

    def carry_out(self, line):
        """The answer to a command; what stands after its name is None where there is not even a space."""
        name, space, rest = line.partition(b" ")
        command = self.commands.get(name)
        if command is None:
            raise NoCommand(NO_SUCH_COMMAND)
        try:
            return command(rest if space else None)
        except Malformed:
            raise NoCommand(TAKES[name]) from None

    def answer(self, line):
        """The answer to a line, or None where it asks for nothing."""
        if not line.strip(b" \t") or line.startswith(b"#"):
            return None
        try:
            text = self.carry_out(line)
            self.done += 1
            return text
        except slip39.Refused as refusal:
            self.refused += 1
            return refused_line(refusal)
        except NoCommand as fault:
            self.errors += 1
            return f"error: {fault}"

    def last_line(self):
        answered = self.done + self.refused
        return f"done: {answered} commands answered, {self.refused} of them refused, {self.errors} errors"


def lexicon_named(name):
    """The number lexicon, or that of the word file at a path."""
    if name == "numbers":
        return slip39.number_lexicon()
    with open(name, "rb") as file:
        return slip39.word_file(file.read())


def main(options):
    every = options[2:] == ["--all"]
    if len(options) != 2 + every or options[1] not in cipher.SUITES:
        print(USAGE)
        return
    try:
        session = Session(lexicon_named(options[0]), cipher.SUITES[options[1]])
    except OSError:
        print(NO_FILE)
        return
    except slip39.Refused as refusal:
        print(refused_line(refusal))
        return
    if not every:
        session.commands = {name: session.commands[name] for name in TODAY}
    for line in sys.stdin.buffer:
        text = session.answer(line.removesuffix(b"\n"))
        if text is not None:
            print(text, flush=True)
    print(session.last_line())


if __name__ == "__main__":
    main(sys.argv[1:])
