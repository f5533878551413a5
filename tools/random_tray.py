"""Random stories of the tray: deals, their cards laid in any order, strangers among them, and openings."""

import dataclasses

import commands
from dealing import drawn
from random_deals import any_passphrase, exponent, passphrase, random_plan
from random_lines import damaged, faulty_line, spaced


def with_other_value(rng, card):
    """The card with another byte in its value, or another value, mostly of the same length."""
    value = bytearray(card.value)
    value[rng.randrange(len(value))] ^= rng.randrange(1, 256)
    other = rng.choice((bytes(value), bytes(value), rng.randbytes(len(value)), rng.randbytes(rng.choice((16, 32, 64)))))
    return dataclasses.replace(card, value=other)


def with_other_fields(rng, card):
    """The card with one to three fields other than they were; it may be one that cannot be read."""
    others = {
        "identifier": rng.randrange(1 << 15),
        "flag": 1 - card.flag,
        "exponent": 1 - card.exponent if card.exponent < 2 else 0,
        "group": rng.randrange(card.group_count),
        "group_threshold": rng.randint(1, card.group_count),
        "group_count": rng.randint(1, 16),
        "member": rng.randrange(16),
        "member_threshold": rng.randint(1, 16),
    }
    names = rng.sample(list(others), rng.choice((1, 1, 1, 2, 3)))
    return dataclasses.replace(card, **{name: others[name] for name in names})


class Story:
    """One or two deals by one plan, and what happens to their cards. The first is the one that is to be opened."""

    def __init__(self, rng, script):
        self.rng = rng
        self.script = script
        self.plan = random_plan(rng)
        self.passphrase = passphrase(rng)
        self.deals = [self.new_deal() for _ in range(rng.choice((1, 2, 2)))]

    def new_deal(self):
        secret = self.rng.randbytes(self.plan.length)
        return self.script.deal(self.plan, secret, self.rng.randbytes(drawn(self.plan)), self.passphrase)

    def row_cards(self, row, count, deals):
        """So many cards of a row, each of any of the deals."""
        members = self.rng.sample(range(self.plan.groups[row].count), count)
        return [self.card(self.rng.choice(deals), row, member) for member in members]

    def card(self, deal, row, member):
        return next(card for card in deal if (card.group, card.member) == (row, member))

    def full_row(self, row, deals):
        """Enough cards of a row, often more than enough."""
        group = self.plan.groups[row]
        more = self.rng.randint(group.threshold, group.count)
        return self.row_cards(row, self.rng.choice((group.threshold, more)), deals)

    def partial_row(self, row, deals):
        """Too few cards of a row, often one too few."""
        threshold = self.plan.groups[row].threshold
        fewer = self.rng.randrange(threshold)
        return self.row_cards(row, self.rng.choice((threshold - 1, threshold - 1, fewer)), deals)

    def chosen_cards(self):
        """Enough full rows, partial rows beside them; strangers by the card, by the row, in partial rows, or none."""
        rng, plan = self.rng, self.plan
        strangers = rng.choice(("none", "none", "cards", "rows", "partial rows", "too few rows"))
        rows = rng.sample(range(plan.group_count), plan.group_count)
        full = rng.choice((plan.group_threshold, rng.randint(plan.group_threshold, plan.group_count)))
        full -= strangers == "too few rows"
        cards = []
        for row in rows[:full]:
            deal = [rng.choice(self.deals)] if strangers == "rows" else self.deals[:1]
            cards += self.full_row(row, self.deals if strangers == "cards" else deal)
        for row in rows[full:]:
            if rng.randrange(3):
                cards += self.partial_row(row, self.deals[-1:] if strangers == "partial rows" else self.deals[:1])
        rng.shuffle(cards)
        return cards

    def any_card(self):
        return self.rng.choice(self.rng.choice(self.deals))

    def open(self):
        """Opens: mostly as it should be, also with another passphrase or with other spaces."""
        rng = self.rng
        words = self.passphrase if rng.randrange(4) else any_passphrase(rng)
        if rng.randrange(4):
            self.script.open(words)
            return
        length = self.plan.length
        work = rng.choice((2048, 2048, 2048, 2047, 2049, 65535, rng.randrange(3000)))
        answer = rng.choice((length, length, length - 1, length + 1, 65535, rng.randrange(70)))
        line = commands.open_in(work, answer, words)
        self.script.say(damaged(rng, line) if rng.randrange(9) == 0 else line)

    def withdraw(self):
        """Withdraws a card that lies, or names any place."""
        rng = self.rng
        lying = self.script.lying()
        if lying and rng.randrange(4):
            card = rng.choice(lying)
            self.script.withdraw(card.group, card.member)
            return
        line = b"withdraw %d %d" % (rng.choice((rng.randrange(18), 255)), rng.choice((rng.randrange(18), 255, 256)))
        self.script.say(damaged(rng, line) if rng.randrange(4) == 0 else line)

    def disturb(self):
        """Something that does not belong to a plain laying of cards."""
        rng, script = self.rng, self.script
        match rng.randrange(11):
            case 0 | 1:
                script.lay(self.any_card())
            case 2:
                script.lay(with_other_value(rng, self.any_card()))
            case 3 | 4:
                script.lay(with_other_fields(rng, self.any_card()))
            case 5:
                script.say(b"lay " + faulty_line(rng, self.any_card()))
            case 6:
                script.say(b"lay " + spaced(rng, commands.write(self.any_card())))
            case 7:
                self.withdraw()
            case 8:
                script.lay(dataclasses.replace(commands.random_card(rng), exponent=exponent(rng)))
            case 9:
                self.open()
            case _:
                script.say(rng.choice(b"tally,tally,tally ,tally x,lay,withdraw,open,open-in".split(b",")))

    def repair(self):
        """Withdraws every card that the first deal did not deal."""
        for card in self.script.lying():
            if card not in self.deals[0]:
                self.script.withdraw(card.group, card.member)

    def tell(self):
        rng, script = self.rng, self.script
        calm = rng.choice((2, 8, 1000, 1000))
        for card in self.chosen_cards():
            script.lay(card)
            if rng.randrange(calm) == 0:
                self.disturb()
        for _ in range(rng.randint(1, 4)):
            script.tally()
            self.open()
            if rng.randrange(2):
                self.repair()
            else:
                self.disturb()
        self.open()


def tell(rng, script):
    """A story, mostly on an emptied tray."""
    if rng.randrange(10):
        script.clear()
    Story(rng, script).tell()
