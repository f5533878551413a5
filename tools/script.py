"""Scripts: commands for `kit` in the number lexicon, written while what lies in its tray is followed."""

import cipher
import commands
import dealing
import kit
import slip39


class Script:
    """Commands, and the tray as they leave it."""

    def __init__(self, suite=cipher.SHOP):
        self.suite = suite
        self.lines = []
        self.session = kit.Session(slip39.number_lexicon(), suite)

    def say(self, *lines):
        """Adds commands; those that change the tray are carried out."""
        for line in lines:
            self.lines.append(line)
            if line.startswith((b"lay", b"withdraw")):
                self.session.answer(line)

    def lying(self):
        """The cards that lie."""
        return list(self.session.tray.cards.values())

    def deal(self, plan, secret, random_bytes, passphrase):
        """Deals a secret by a lawful plan; returns the cards."""
        self.say(commands.deal(plan, secret, random_bytes, passphrase))
        return dealing.deal(self.suite, plan, secret, random_bytes, passphrase)

    def lay(self, *cards):
        for card in cards:
            self.say(b"lay " + commands.write(card))

    def withdraw(self, group, member):
        self.say(b"withdraw %d %d" % (group, member))

    def clear(self):
        """Withdraws every card that lies."""
        for card in self.lying():
            self.withdraw(card.group, card.member)

    def tally(self):
        self.say(b"tally")

    def open(self, passphrase):
        self.say(b"open " + passphrase)
