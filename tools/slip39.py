"""SLIP-0039 cards: their text, their words and their fields.

Written from SLIP-0039 and docs/FORMAT.md alone, so that the kit can be compared with it:
it shares no text with the sources under crates/.
"""

from dataclasses import dataclass

WORD_BITS = 10
CHECK_WORDS = 3
PREFIX_WORDS = 4  # the words that hold the fields before the value
SEPARATORS = b" \t"
WORD_BYTES = frozenset(b"abcdefghijklmnopqrstuvwxyz0123456789")

# number: (layer, sentence); None stands for the layer that was called
REFUSALS = {
    1: ("list", "the word file has a faulty or a missing line here"),
    2: ("text", "only a to z, 0 to 9, space and tab may stand before a remark"),
    3: ("text", "the word here is under four letters or begins no word of the list"),
    4: ("card", "no card has this number of words"),
    5: ("card", "the checksum is wrong, so at least one word is"),
    6: ("card", "the padding before the value is not all zero bits"),
    7: ("card", "the group number or the group threshold is too high for the group count"),
    8: ("card", "at member threshold 1 the member number must be 0"),
    9: ("cipher", "a passphrase has at most 100 bytes, each of them printable ASCII"),
    10: ("cipher", "the secret does not have a length that is allowed here"),
    11: ("deal", "a part of the plan is out of its range"),
    12: (None, "the space given is too short"),
    13: ("digest", "a key or a message has at most 65536 bytes"),
    21: ("tray", "no card lies in the tray"),
    22: ("tray", "the card does not belong with those in the tray"),
    23: ("tray", "this card lies in the tray already"),
    24: ("tray", "a card with another value lies at its place"),
    25: ("tray", "the tray is full"),
    26: ("tray", "more cards are needed"),
    27: ("tray", "the cards in the tray contradict one another"),
    28: ("tray", "no card lies at that place"),
    29: ("source", "the source has too few bytes left"),
    30: ("deal", "the deal has no card of that number"),
}


class Refused(Exception):
    """The kit refuses, with a number and a place."""

    def __init__(self, number, place, layer=None):
        super().__init__(number, place)
        self.number = number
        self.place = place
        self.layer = layer or REFUSALS[number][0]
        self.sentence = REFUSALS[number][1]


class Lexicon:
    """1,024 words, no two of them alike in their first four bytes."""

    def __init__(self, words):
        self.words = words
        self.by_start = {word[:4]: index for index, word in enumerate(words)}

    def index(self, written):
        """The index of the only word that begins with the bytes, or None."""
        if len(written) < 4:
            return None
        index = self.by_start.get(bytes(written[:4]))
        if index is None or not self.words[index].startswith(written):
            return None
        return index


def number_lexicon():
    return Lexicon([b"%04d" % index for index in range(1024)])


def word_file(content):
    """The lexicon of a word file's bytes."""
    words = []
    offset = 0
    while len(words) < 1024:
        end = content.find(b"\n", offset)
        if offset == len(content):
            raise Refused(1, offset)
        word = content[offset:end] if end >= 0 else b""
        good = end >= 0 and 4 <= len(word) <= 8 and all(97 <= byte <= 122 for byte in word)
        if good and words:
            good = words[-1] < word and words[-1][:4] != word[:4]
        if not good:
            raise Refused(1, offset)
        words.append(word)
        offset = end + 1
    if offset != len(content):
        raise Refused(1, offset)
    return Lexicon(words)


@dataclass(frozen=True)
class Card:
    identifier: int
    flag: int
    exponent: int
    group: int
    group_threshold: int
    group_count: int
    member: int
    member_threshold: int
    value: bytes


def words_of_line(line):
    """The words of a line with their offsets; a forbidden byte is refused before anything else."""
    text = line.split(b"#", 1)[0]
    for offset, byte in enumerate(text):
        if byte not in WORD_BYTES and byte not in SEPARATORS:
            raise Refused(2, offset)
    words = []
    offset = 0
    for piece in text.replace(b"\t", b" ").split(b" "):
        if piece:
            words.append((offset, piece))
        offset += len(piece) + 1
    return words


def rs1024_polymod(values):
    """The checksum of SLIP-0039, as its text computes it."""
    generator = [
        0xE0E040, 0x1C1C080, 0x3838100, 0x7070200, 0xE0E0009,
        0x1C0C2412, 0x38086C24, 0x3090FC48, 0x21B1F890, 0x3F3F120,
    ]  # fmt: skip
    checksum = 1
    for value in values:
        high = checksum >> 20
        checksum = (checksum & 0xFFFFF) << 10 ^ value
        for bit in range(10):
            checksum ^= generator[bit] if high >> bit & 1 else 0
    return checksum


def customization(flag):
    return list(b"shamir_extendable" if flag else b"shamir")


def check_words(flag, indices):
    polymod = rs1024_polymod(customization(flag) + indices + [0] * CHECK_WORDS) ^ 1
    return [polymod >> 10 * (CHECK_WORDS - 1 - i) & 1023 for i in range(CHECK_WORDS)]


def bits_to_words(bits, count):
    return [bits >> WORD_BITS * (count - 1 - i) & 1023 for i in range(count)]


def words_to_bits(indices):
    bits = 0
    for index in indices:
        bits = bits << WORD_BITS | index
    return bits


def checked(card):
    """The card, if its groups and its member go together."""
    if card.group_threshold > card.group_count or card.group >= card.group_count:
        raise Refused(7, 2)
    if card.member_threshold == 1 and card.member != 0:
        raise Refused(8, 3)
    return card


def decode(indices):
    """The card of the words' indices."""
    count = len(indices)
    value_words = count - PREFIX_WORDS - CHECK_WORDS
    padding = WORD_BITS * value_words % 16
    if not 20 <= count <= 59 or padding > 8:
        raise Refused(4, count)
    prefix = words_to_bits(indices[:PREFIX_WORDS])
    fields = []
    for width in (4, 4, 4, 4, 4, 4, 1, 15):
        fields.append(prefix & (1 << width) - 1)
        prefix >>= width
    threshold, member, groups, group_threshold, group, exponent, flag, identifier = fields
    if rs1024_polymod(customization(flag) + indices) != 1:
        raise Refused(5, 0)
    value_bits = words_to_bits(indices[PREFIX_WORDS:-CHECK_WORDS])
    length = (WORD_BITS * value_words - padding) // 8
    if value_bits >> 8 * length:
        raise Refused(6, 4)
    value = value_bits.to_bytes(length, "big")
    return checked(
        Card(identifier, flag, exponent, group, group_threshold + 1, groups + 1, member, threshold + 1, value)
    )


def encode(card, padding=0):
    """The indices of a card's words, the check words too. Fields are not looked at, so a wrong card can be made."""
    prefix = card.identifier
    for field, width in (
        (card.flag, 1),
        (card.exponent, 4),
        (card.group, 4),
        (card.group_threshold - 1, 4),
        (card.group_count - 1, 4),
        (card.member, 4),
        (card.member_threshold - 1, 4),
    ):
        prefix = prefix << width | field
    value_words = (8 * len(card.value) + WORD_BITS - 1) // WORD_BITS
    value_bits = padding << 8 * len(card.value) | int.from_bytes(card.value, "big")
    indices = bits_to_words(prefix, PREFIX_WORDS) + bits_to_words(value_bits, value_words)
    return indices + check_words(card.flag, indices)


def read_card(lexicon, line):
    """The card that a line of bytes holds."""
    indices = []
    for offset, word in words_of_line(line):
        index = lexicon.index(word)
        if index is None:
            raise Refused(3, offset)
        indices.append(index)
    return decode(indices)


def write_card(lexicon, card):
    """The line of a card, with one space between words."""
    return b" ".join(lexicon.words[index] for index in encode(checked(card)))
