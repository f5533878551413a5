"""The tray: cards are laid on it and withdrawn, and a secret is opened from them.

Written from the kit's own rules alone: it shares no text with the sources under crates/.
"""

from dataclasses import dataclass

import cipher
import sharing
from slip39 import Refused

NO_ROW = 16  # what refusals 26 and 27 name where it is no row
WORK_SPACE = 2048


@dataclass(frozen=True)
class Tally:
    """What lies in a tray. A partly filled row has 1 to T - 1 cards and wants the rest of T."""

    cards: int
    full_rows: int
    group_threshold: int
    partial_row: int | None
    wanted: int | None


@dataclass(frozen=True)
class Row:
    """The cards of one group that lie, their values by member number."""

    number: int
    threshold: int
    values: dict[int, bytes]

    def is_full(self):
        return len(self.values) >= self.threshold

    def wants(self):
        return self.threshold - len(self.values)

    def lacks_one(self):
        return self.threshold >= 2 and self.wants() == 1


def bindings(card):
    """What a card binds the whole tray to, in the order in which refusal 22 names it."""
    return [
        card.identifier,
        card.flag,
        card.exponent,
        card.group_threshold,
        card.group_count,
        len(card.value),
    ]


class Tray:
    """Sixteen rows of sixteen places."""

    def __init__(self):
        self.cards = {}  # by group number and member number

    def any_card(self):
        return next(iter(self.cards.values()), None)

    def rows(self):
        """The rows that have a card, lowest first."""
        rows = {}
        for (group, member), card in sorted(self.cards.items()):
            row = rows.setdefault(group, Row(group, card.member_threshold, {}))
            row.values[member] = card.value
        return list(rows.values())

    def check_bindings(self, card):
        """Refuses a card that the tray, and then its row, is not bound to."""
        if not self.cards:
            return
        mine, theirs = bindings(card), bindings(self.any_card())
        for row in self.rows():
            if row.number == card.group:
                mine.append(card.member_threshold)
                theirs.append(row.threshold)
        for place, (one, other) in enumerate(zip(mine, theirs, strict=True)):
            if one != other:
                raise Refused(22, place)

    def lay(self, card):
        """Lays a card that was read."""
        self.check_bindings(card)
        lying = self.cards.get((card.group, card.member))
        if lying == card:
            raise Refused(23, card.member)
        if lying is not None:
            raise Refused(24, card.member)
        self.cards[card.group, card.member] = card

    def withdraw(self, group, member):
        if self.cards.pop((group, member), None) is None:
            raise Refused(28, member)

    def tally(self):
        rows = self.rows()
        partial = next((row for row in rows if not row.is_full()), None)
        return Tally(
            cards=len(self.cards),
            full_rows=sum(row.is_full() for row in rows),
            group_threshold=self.any_card().group_threshold if self.cards else 0,
            partial_row=partial.number if partial else None,
            wanted=partial.wants() if partial else None,
        )

    def check_thresholds(self):
        """Refuses where fewer rows are full than the group threshold asks for."""
        tally = self.tally()
        if tally.full_rows < tally.group_threshold:
            raise Refused(26, NO_ROW if tally.partial_row is None else tally.partial_row)

    def encrypted_secret(self, digest):
        """The secret of the group curve, once every card that can contradict another has been looked at."""
        rows = self.rows()
        secrets = {}
        for row in rows:
            if row.is_full():
                secrets[row.number] = row_secret(digest, row)
        groups = sharing.curve_through(digest, self.any_card().group_threshold, secrets)
        if groups is None:
            raise Refused(27, NO_ROW)
        for row in rows:
            if row.lacks_one():
                check_with_secret(digest, row, groups.value(row.number))
        return groups.secret()

    def open(self, suite, work, answer, passphrase):
        """The master secret, opened in a work space and an answer space of these sizes."""
        if work < WORK_SPACE:
            raise Refused(12, WORK_SPACE, "tray")
        cipher.check_passphrase(passphrase)
        if not self.cards:
            raise Refused(21, 0)
        card = self.any_card()
        if answer < len(card.value):
            raise Refused(12, len(card.value), "tray")
        self.check_thresholds()
        encrypted = self.encrypted_secret(suite.digest)
        parameters = cipher.Parameters(card.identifier, card.flag, card.exponent)
        return cipher.decrypt(suite, parameters, encrypted, passphrase)


def row_secret(digest, row):
    """The secret of the curve on which all cards of a full row lie."""
    curve = sharing.curve_through(digest, row.threshold, row.values)
    if curve is None:
        raise Refused(27, row.number)
    return curve.secret()


def check_with_secret(digest, row, secret):
    """Refuses a row that lacks one card if its cards and the group's secret lie on no curve."""
    points = {**row.values, sharing.SECRET_PLACE: secret}
    if sharing.curve_through(digest, row.threshold, points) is None:
        raise Refused(27, row.number)
