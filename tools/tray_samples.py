"""Samples of `lay`, `withdraw`, `tally`, `open` and `open-in` for the run of `kit`."""

import dataclasses

import commands
from cipher_samples import LONGEST
from deal_samples import plan
from dealing import Group, drawn
from script import Script
from slip39 import Card, check_words, encode

PASSPHRASE = b"TREZOR"
GROUPS = (Group(2, 3), Group(3, 5), Group(1, 1), Group(3, 3))
changed = dataclasses.replace


class Deal:
    """A deal on its cards, which are found by group and member."""

    def __init__(self, script, rng, chosen, passphrase=PASSPHRASE):
        self.secret = rng.randbytes(chosen.length)
        self.cards = script.deal(chosen, self.secret, rng.randbytes(drawn(chosen)), passphrase)

    def card(self, group, member):
        return next(card for card in self.cards if (card.group, card.member) == (group, member))

    def some(self, group, count):
        """The first cards of a group."""
        return [self.card(group, member) for member in range(count)]


def damaged(card, at=0):
    """A card that can be read, with another byte in its value."""
    value = bytearray(card.value)
    value[at] ^= 1
    return changed(card, value=bytes(value))


def empty_tray(script):
    script.say(b"# an empty tray: nothing to count, to open or to withdraw; the order of the refusals before 21")
    script.tally()
    script.say(b"open", b"open ", b"open TREZOR", b"open \x80", b"open " + b"x" * 101)
    script.say(b"open-in 2047 64 \x80", b"open-in 2048 0 \x80", b"open-in 2048 0 x", b"open-in 0 0")
    script.say(b"open-in 65535 65535 ")
    for group, member in ((0, 0), (15, 15), (16, 3), (3, 16), (255, 255), (0, 255)):
        script.withdraw(group, member)


def two_of_three(script, rng):
    script.say(b"# two of three cards: one is lacking, two open, a third is looked at too")
    deal = Deal(script, rng, plan(1, [Group(2, 3)]))
    script.lay(deal.card(0, 2))
    script.tally()
    script.open(PASSPHRASE)
    script.lay(deal.card(0, 0))
    script.tally()
    script.open(PASSPHRASE)
    script.say(b"# another passphrase gives another secret; a passphrase of the wrong form is refused")
    for passphrase in (b"TREZOr", b"", b" TREZOR", b"TREZOR ", LONGEST, LONGEST + b"x", b"TREZOR\r"):
        script.open(passphrase)
    script.say(b"open")
    script.lay(deal.card(0, 1))
    script.tally()
    script.open(PASSPHRASE)
    script.say(b"# 23: the same card once more, also in another writing")
    script.lay(deal.card(0, 1))
    script.say(b"lay \t" + commands.write(deal.card(0, 0)).replace(b" ", b"  ") + b" # copy")
    script.say(b"# any two of the three, and then 28 where a card lay")
    script.withdraw(0, 2)
    script.withdraw(0, 2)
    script.withdraw(0, 3)
    script.withdraw(1, 1)
    script.tally()
    script.open(PASSPHRASE)
    script.lay(deal.card(0, 2))
    script.withdraw(0, 0)
    script.open(PASSPHRASE)
    script.clear()
    script.tally()
    script.open(PASSPHRASE)


def spaces(script, rng):
    script.say(b"# 12: a work space under 2048 bytes, an answer space under that of the secret; their order")
    for length in (16, 64):
        deal = Deal(script, rng, plan(1, [Group(2, 2)], length, flag=1), LONGEST)
        script.lay(deal.card(0, 1))
        for work, answer in ((2048, length - 1), (2048, length), (2047, 0)):
            script.say(commands.open_in(work, answer, LONGEST))
        script.lay(deal.card(0, 0))
        for work in (0, 1, 2047, 2048, 2049, 65535):
            for answer in (0, length - 1, length, 65535):
                script.say(commands.open_in(work, answer, LONGEST))
        script.say(commands.open_in(2047, 0, b"\x80"), commands.open_in(2048, 0, b"\x80"))
        script.clear()


def unreadable(script, rng):
    script.say(b"# what cannot be read is refused as by read, and leaves the tray as it was")
    deal = Deal(script, rng, plan(1, [Group(2, 2)]))
    script.lay(deal.card(0, 0))
    card = commands.write(deal.card(0, 1))
    words = card.split(b" ")
    script.say(b"lay ", b"lay # only a remark", b"lay " + card + b"\r", b"lay " + card.replace(b" ", b",", 1))
    script.say(b"lay " + b" ".join(words[:3] + [b"1024"] + words[4:]), b"lay " + b" ".join(words[:19]))
    script.say(b"lay " + b" ".join(words[:-1] + [words[0]]), b"lay " + commands.with_padding(rng))
    for faulty in (commands.with_groups(rng), commands.with_member(rng)):
        script.say(b"lay " + commands.write(faulty))
    script.tally()
    script.lay(deal.card(0, 1))
    script.open(PASSPHRASE)
    script.clear()


def broken_bindings(script, rng):
    script.say(b"# 22: a card that does not belong with those that lie, at each place, and the first of several")
    deal = Deal(script, rng, plan(2, GROUPS))
    first, card = deal.card(0, 0), deal.card(0, 1)
    others = {
        "identifier": 21931,
        "flag": 1,
        "exponent": 1,
        "group_threshold": 3,
        "group_count": 5,
        "value": bytes(18),
        "member_threshold": 3,
    }
    script.lay(first)
    for name, other in others.items():
        script.lay(changed(card, **{name: other}))
    while others:
        script.lay(changed(card, **others))
        del others[next(iter(others))]
    script.say(b"# 22 before 23 and 24")
    script.lay(changed(first, member_threshold=3), changed(damaged(first), exponent=1), first)
    script.say(b"# a member threshold binds its own row, and only while a card lies there")
    script.lay(deal.card(1, 4), deal.card(2, 0), changed(deal.card(1, 3), member_threshold=2))
    script.tally()
    script.withdraw(1, 4)
    script.lay(changed(deal.card(1, 3), member_threshold=2))
    script.tally()
    script.lay(deal.card(1, 4))
    script.clear()
    script.say(b"# an emptied tray is bound to nothing")
    script.lay(changed(card, identifier=3, flag=1, exponent=15, group_threshold=1, group_count=1, value=bytes(64)))
    script.tally()
    script.clear()


def dealt_twice(script, rng):
    script.say(b"# a wallet dealt twice under one identifier: two cards for one place, and then two deals in one row")
    chosen = plan(1, [Group(2, 3)])
    one, other = Deal(script, rng, chosen), Deal(script, rng, chosen)
    script.lay(one.card(0, 0), other.card(0, 0))
    script.tally()
    script.say(b"# at group threshold 1 only the digest of the members can object")
    script.lay(other.card(0, 1))
    script.tally()
    script.open(PASSPHRASE)
    script.say(b"# a surplus card that is right does not hide it; without the stranger the secret comes out")
    script.lay(one.card(0, 2))
    script.open(PASSPHRASE)
    script.withdraw(0, 1)
    script.open(PASSPHRASE)
    script.lay(one.card(0, 1))
    script.open(PASSPHRASE)
    script.say(b"# a surplus card that is wrong")
    script.withdraw(0, 2)
    script.lay(other.card(0, 2))
    script.open(PASSPHRASE)
    script.withdraw(0, 2)
    script.lay(damaged(one.card(0, 2), 15))
    script.open(PASSPHRASE)
    script.withdraw(0, 2)
    script.open(PASSPHRASE)
    script.clear()


def lacking(script, rng):
    script.say(b"# 26: group threshold 2, row 0 full, row 3 with one of three cards; then row 0 alone")
    deal = Deal(script, rng, plan(2, GROUPS))
    script.lay(*deal.some(0, 2), deal.card(3, 1))
    script.tally()
    script.open(PASSPHRASE)
    script.withdraw(3, 1)
    script.tally()
    script.open(PASSPHRASE)
    script.say(b"# the lowest partly filled row; 26 before 27; a full row more")
    script.lay(deal.card(3, 0), deal.card(1, 4))
    script.tally()
    script.open(PASSPHRASE)
    script.lay(damaged(deal.card(0, 2)))
    script.open(PASSPHRASE)
    script.withdraw(0, 2)
    script.lay(deal.card(2, 0))
    script.tally()
    script.open(PASSPHRASE)
    script.withdraw(0, 1)
    script.tally()
    script.open(PASSPHRASE)
    script.lay(deal.card(1, 1), deal.card(1, 0))
    script.tally()
    script.open(PASSPHRASE)
    script.clear()


def contradictory_groups(script, rng):
    for group_threshold in (1, 2):
        script.say(b"# 27 at 16: rows of two deals, group threshold %d; the strange row is withdrawn" % group_threshold)
        chosen = plan(group_threshold, GROUPS, 32, flag=1)
        one, other = Deal(script, rng, chosen), Deal(script, rng, chosen)
        script.lay(*one.some(0, 2), other.card(2, 0))
        script.open(PASSPHRASE)
        script.lay(*one.some(1, 3))
        script.open(PASSPHRASE)
        script.say(b"# a row comes before 16, 16 before a row that lacks one card, and the lowest row first")
        script.lay(*other.some(3, 2))
        script.open(PASSPHRASE)
        script.lay(damaged(one.card(1, 3)))
        script.open(PASSPHRASE)
        script.lay(damaged(one.card(0, 2)))
        script.open(PASSPHRASE)
        script.withdraw(0, 2)
        script.open(PASSPHRASE)
        script.withdraw(1, 3)
        script.open(PASSPHRASE)
        script.withdraw(2, 0)
        script.tally()
        script.open(PASSPHRASE)
        script.withdraw(3, 0)
        script.open(PASSPHRASE)
        script.clear()


def contradictory_remainder(script, rng):
    script.say(b"# 27 at a row that lacks one card, by the group's secret; a row that lacks two says nothing")
    for group_threshold in (1, 2, 3):
        chosen = plan(group_threshold, GROUPS, exponent=1 if group_threshold == 1 else 0)
        one, other = Deal(script, rng, chosen), Deal(script, rng, chosen)
        script.lay(*[card for group, count in ((0, 2), (2, 1), (1, 3)) for card in one.some(group, count)])
        script.lay(other.card(3, 0))
        script.open(PASSPHRASE)
        script.lay(other.card(3, 1))
        script.tally()
        script.open(PASSPHRASE)
        script.withdraw(3, 1)
        script.lay(one.card(3, 1))
        script.open(PASSPHRASE)
        script.withdraw(3, 0)
        script.lay(one.card(3, 0))
        script.open(PASSPHRASE)
        script.lay(one.card(3, 2))
        script.open(PASSPHRASE)
        script.clear()
    script.say(b"# the lowest of two such rows")
    chosen = plan(1, GROUPS)
    one, other = Deal(script, rng, chosen), Deal(script, rng, chosen)
    script.lay(one.card(2, 0), *other.some(3, 2), *one.some(1, 2), *other.some(0, 1))
    for group in (0, 3, 1):
        script.tally()
        script.open(PASSPHRASE)
        script.withdraw(group, 0)
    script.open(PASSPHRASE)
    script.clear()


def long_secrets(script, rng):
    script.say(b"# the groups 2/3, 3/5 and 1/1 with 16 and 64 bytes, from every two groups")
    for length, flag in ((16, 0), (64, 1)):
        deal = Deal(script, rng, plan(2, GROUPS[:3], length, identifier=32767, flag=flag), LONGEST)
        for rows in ((0, 1), (0, 2), (1, 2), (0, 1, 2)):
            for row in rows:
                cards = [card for card in deal.cards if card.group == row]
                script.lay(*rng.sample(cards, GROUPS[row].threshold))
            script.tally()
            script.open(LONGEST)
            script.clear()


def full_tray(script, rng):
    script.say(b"# 256 cards lie; nothing more can be laid but what lies")
    deal = Deal(script, rng, plan(5, (Group(16, 16),) * 16))
    script.lay(*deal.cards)
    script.tally()
    script.open(PASSPHRASE)
    script.lay(deal.card(15, 15), damaged(deal.card(15, 15)), deal.card(0, 0))
    script.say(b"# one card of 256 is another; without it its row lacks one card, and that is right")
    script.withdraw(7, 9)
    script.lay(damaged(deal.card(7, 9), 8))
    script.tally()
    script.open(PASSPHRASE)
    script.withdraw(7, 9)
    script.tally()
    script.open(PASSPHRASE)
    script.say(b"# a card of a row that lacks one is another")
    script.withdraw(7, 2)
    script.lay(damaged(deal.card(7, 2), 3))
    script.open(PASSPHRASE)
    script.clear()
    script.tally()


def many_rows(script, rng):
    script.say(b"# sixteen rows with thresholds 1 to 16, all of them needed, 64 bytes")
    groups = [Group(1, 1)] + [Group(threshold, threshold) for threshold in range(2, 17)]
    deal = Deal(script, rng, plan(16, groups, 64), b"")
    script.lay(*rng.sample(deal.cards[1:], len(deal.cards) - 1))
    script.tally()
    script.open(b"")
    script.lay(deal.cards[0])
    script.tally()
    script.open(b"")
    script.withdraw(9, 4)
    script.tally()
    script.open(b"")
    script.clear()


def single_card(script, rng):
    script.say(b"# a group of one card has no digest: any value opens, and only the check words can be wrong")
    card = Card(1066, 0, 0, 0, 1, 1, 0, 1, rng.randbytes(22))
    script.lay(card)
    script.open(b"")
    script.lay(damaged(card))
    script.open(b"x")
    script.clear()
    indices = encode(card)[:-3]
    script.say(b"lay " + commands.line_of(indices + check_words(1 - card.flag, indices)))


def errors(script):
    script.say(b"# arguments that cannot be made out")
    script.say(b"lay", b"lay\t0000", b"tally ", b"tally 0", b"tally\t", b"Tally", b"tallyx")
    withdrawals = (b"", b"0", b"0 ", b"0 0 ", b" 0 0", b"256 0", b"0 256", b"-1 0", b"0 0 0", b"0\t0", b"a b", b"0 99999")
    script.say(b"withdraw", *(b"withdraw " + text for text in withdrawals))
    sizes = (b"", b"2048", b"2048 ", b"65536 64", b"2048 65536", b"2048  64", b"-1 64", b"2048 x y", b"9" * 20 + b" 1")
    script.say(b"open-in", *(b"open-in " + text for text in sizes), b"open-i 2048 64")
    script.say(b"# zeros before a number")
    script.say(b"withdraw 0000 0007", b"open-in 002048 00016 TREZOR", b"withdraw 000000016 00255")


def lines(rng):
    script = Script()
    empty_tray(script)
    two_of_three(script, rng)
    spaces(script, rng)
    unreadable(script, rng)
    broken_bindings(script, rng)
    dealt_twice(script, rng)
    lacking(script, rng)
    contradictory_groups(script, rng)
    contradictory_remainder(script, rng)
    long_secrets(script, rng)
    full_tray(script, rng)
    many_rows(script, rng)
    single_card(script, rng)
    errors(script)
    return script.lines
