"""Writes crates/vectors/stdin, the commands for the published SLIP-0039 vectors in tools/slip39-vectors.json.

    python3 tools/vector_commands.py [--upto read|open]

Up to `read`, as where nothing is said, every card is read. Up to `open` the cards of each vector are then laid and
opened, and all that lie are withdrawn, so that the next vector finds the tray empty. The answers to the commands,
crates/vectors/stdout, come from tools/kit.py:

    python3 tools/kit.py crates/vectors/data/slip39-words.txt shop < crates/vectors/stdin > crates/vectors/stdout
"""

import argparse
import json
import pathlib

import slip39
from tray import Tray

TOOLS = pathlib.Path(__file__).parent
CRATE = TOOLS.parent / "crates" / "vectors"
LEVELS = ("read", "open")


def published_vectors():
    return json.loads((TOOLS / "slip39-vectors.json").read_text())


def published_lexicon():
    return slip39.word_file((CRATE / "data" / "slip39-words.txt").read_bytes())


def places_laid(lexicon, cards):
    """The places of the cards that a tray accepts, in the order in which they are laid."""
    tray = Tray()
    for card in cards:
        try:
            tray.lay(slip39.read_card(lexicon, card.encode()))
        except slip39.Refused:
            pass
    return list(tray.cards)


def opening(lexicon, vector):
    """Commands that lay the cards of a vector on an empty tray, open it and empty it again."""
    for card in vector["cards"]:
        yield f"lay {card}"
    yield "tally"
    yield f"open {vector['passphrase']}"
    for group, member in places_laid(lexicon, vector["cards"]):
        yield f"withdraw {group} {member}"
    yield "tally"


def lines(lexicon, vectors, level):
    for number, vector in enumerate(vectors, 1):
        yield f"# {number}. {vector['about']}"
        for card in vector["cards"]:
            yield f"read {card}"
        if level == "open":
            yield from opening(lexicon, vector)


def main():
    parser = argparse.ArgumentParser()
    parser.add_argument("--upto", choices=LEVELS, default=LEVELS[0])
    level = parser.parse_args().upto
    text = "\n".join(lines(published_lexicon(), published_vectors(), level)) + "\n"
    (CRATE / "stdin").write_text(text)


if __name__ == "__main__":
    main()
