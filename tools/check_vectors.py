"""Opens the published SLIP-0039 vectors with the Python implementation, and compares the secrets:

    python3 tools/check_vectors.py

Where no secret is published, the standard rejects the set of cards, and the kit must refuse one of them or the opening.
A set of which a card was refused may still open: then the cards that lie are a whole set of their own.
"""

import collections
import sys

import cipher
import kit
import slip39
from vector_commands import published_lexicon, published_vectors


class Outcome:
    """What the kit answers to the cards of one vector: the secret or nothing, and the refusals on the way."""

    def __init__(self, lexicon, vector):
        self.session = kit.Session(lexicon, cipher.SHOP)
        self.refusals = []
        for card in vector["cards"]:
            self.call("lay", lambda card=card: self.session.lay(card.encode()))
        secret = self.call("open", lambda: self.session.open(vector["passphrase"].encode()))
        self.secret = secret.removeprefix("secret ") if secret else ""

    def call(self, name, command):
        try:
            return command()
        except slip39.Refused as refusal:
            self.refusals.append(f"{name} {refusal.number} at {refusal.place}")
            return None


def is_right(vector, outcome):
    if vector["secret"]:
        return outcome.secret == vector["secret"] and not outcome.refusals
    return bool(outcome.refusals)


def shown(outcome):
    """The outcome in words."""
    result = f"secret {outcome.secret}" if outcome.secret else "no secret"
    return "; ".join([result, *outcome.refusals])


def check(show=print):
    """Shows and counts the sets accepted with the right secret, those rejected (and opened by the rest of their cards),
    and those that are wrong."""
    lexicon = published_lexicon()
    counts = collections.Counter()
    for number, vector in enumerate(published_vectors(), 1):
        outcome = Outcome(lexicon, vector)
        kind = ("accepted" if vector["secret"] else "rejected") if is_right(vector, outcome) else "wrong"
        counts[kind] += 1
        counts["opened by the rest"] += kind == "rejected" and bool(outcome.secret)
        show(f"{number:2} {kind}: {vector['about']}: {shown(outcome)}")
    return counts


def main():
    counts = check()
    print(
        f"{counts['accepted']} accepted with the published secret, {counts['rejected']} rejected as published "
        f"(in {counts['opened by the rest']} of them the cards left after a refused one open), {counts['wrong']} wrong"
    )
    sys.exit(1 if counts["wrong"] else 0)


if __name__ == "__main__":
    main()
