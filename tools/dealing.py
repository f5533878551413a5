"""Deals: plans, the random bytes that they draw, and the cards of a secret.

Written from SLIP-0039 and the kit's own rules alone: it shares no text with the sources under crates/.
"""

from dataclasses import dataclass

import cipher
import sharing
from slip39 import Card, Refused

MOST = 16  # groups of a deal, and cards of a group
FIRST_GROUP_PLACE = 6  # where refusal 11 names group 0


@dataclass(frozen=True)
class Group:
    """A group of a plan: its member threshold and how many cards it has."""

    threshold: int
    count: int

    def is_lawful(self):
        return 1 <= self.threshold <= self.count <= MOST and (self.threshold > 1 or self.count == 1)


@dataclass(frozen=True)
class Plan:
    """What a deal is to be; each field may be out of its range. Groups that are not given are 0/0."""

    identifier: int
    flag: int
    exponent: int
    length: int
    group_threshold: int
    group_count: int
    groups: tuple[Group, ...]

    def parameters(self):
        return cipher.Parameters(self.identifier, self.flag, self.exponent)

    def dealt_groups(self):
        """The groups that count: as many as the group count says."""
        given = self.groups[: self.group_count]
        return given + (Group(0, 0),) * (self.group_count - len(given))


class Source:
    """Bytes to come."""

    def __init__(self, content):
        self.content = content

    def take(self, count):
        if len(self.content) < count:
            raise Refused(29, count)
        taken, self.content = self.content[:count], self.content[count:]
        return taken


def check_plan(plan):
    right = [
        plan.identifier < 1 << 15,
        plan.flag < 2,
        plan.exponent < 16,
        plan.length in cipher.LAWFUL_LENGTHS,
        1 <= plan.group_count <= MOST,
        1 <= plan.group_threshold <= plan.group_count,
    ]
    right += [group.is_lawful() for group in plan.dealt_groups()]
    if not all(right):
        raise Refused(11, right.index(False))


def drawn_by_curve(threshold, length):
    """How many random bytes a curve draws."""
    if threshold == 1:
        return 0
    return (threshold - 2) * length + length - sharing.DIGEST_LENGTH


def drawn(plan):
    """How many random bytes the deal draws."""
    thresholds = [plan.group_threshold] + [group.threshold for group in plan.dealt_groups()]
    return sum(drawn_by_curve(threshold, plan.length) for threshold in thresholds)


def check_secret(plan, secret):
    cipher.check_length(secret)
    if len(secret) != plan.length:
        raise Refused(10, len(secret))


def group_cards(suite, plan, number, group, secret, take):
    """The cards of one group."""
    curve = sharing.dealt_curve(suite.digest, group.threshold, secret, take)
    for member in range(group.count):
        yield Card(
            plan.identifier,
            plan.flag,
            plan.exponent,
            number,
            plan.group_threshold,
            plan.group_count,
            member,
            group.threshold,
            curve.value(member),
        )


def deal(suite, plan, secret, random_bytes, passphrase):
    """The cards of the deal, by groups and then members."""
    check_plan(plan)
    check_secret(plan, secret)
    cipher.check_passphrase(passphrase)
    wanted = drawn(plan)
    if len(random_bytes) < wanted:
        raise Refused(29, wanted)
    take = Source(random_bytes).take
    encrypted = cipher.encrypt(suite, plan.parameters(), secret, passphrase)
    groups = sharing.dealt_curve(suite.digest, plan.group_threshold, encrypted, take)
    cards = []
    for number, group in enumerate(plan.dealt_groups()):
        cards += group_cards(suite, plan, number, group, groups.value(number), take)
    return cards
