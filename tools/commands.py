"""Makes lines for the commands of `kit`: cards, right and with every kind of fault, in the number lexicon, and more."""

import dataclasses

import slip39

LENGTHS = range(16, 66, 2)


def random_card(rng, length=None):
    """A card that can be read."""
    group_count = rng.randint(1, 16)
    member_threshold = rng.randint(1, 16)
    return slip39.Card(
        identifier=rng.randrange(1 << 15),
        flag=rng.randrange(2),
        exponent=rng.randrange(16),
        group=rng.randrange(group_count),
        group_threshold=rng.randint(1, group_count),
        group_count=group_count,
        member=rng.randrange(16) if member_threshold > 1 else 0,
        member_threshold=member_threshold,
        value=rng.randbytes(length or rng.choice(LENGTHS)),
    )


def line_of(indices):
    return b" ".join(b"%04d" % index for index in indices)


def write(card, padding=0):
    return line_of(slip39.encode(card, padding))


def fields(card):
    """The arguments of the command `write`."""
    return [str(part).encode() for part in dataclasses.astuple(card)[:-1]] + [card.value.hex().encode()]


def with_words(rng, count):
    """A line of that many words whose last three are right check words."""
    indices = [rng.randrange(1024) for _ in range(max(count - 3, 0))]
    flag = indices[1] >> 4 & 1 if count > 4 else 0
    return line_of((indices + slip39.check_words(flag, indices))[:count])


def padding_bits(length):
    return -8 * length % 10


def with_padding(rng):
    """A card that is right but for its padding."""
    length = rng.choice([n for n in LENGTHS if padding_bits(n)])
    return write(random_card(rng, length), rng.randrange(1, 1 << padding_bits(length)))


def with_groups(rng):
    """A card whose group number or group threshold is above what the group count allows."""
    card = random_card(rng)
    count = rng.randint(1, 15)
    if rng.randrange(2):
        card = dataclasses.replace(card, group_threshold=rng.randint(count + 1, 16))
    else:
        card = dataclasses.replace(card, group=rng.randint(count, 15))
    return dataclasses.replace(card, group_count=count)


def with_member(rng):
    """A card with member threshold 1 and a member number other than 0."""
    return dataclasses.replace(random_card(rng), member_threshold=1, member=rng.randint(1, 15))


def with_wrong_words(rng, count):
    """A right card of which some words are replaced by others."""
    indices = slip39.encode(random_card(rng))
    for at in rng.sample(range(len(indices)), count):
        indices[at] = (indices[at] + rng.randrange(1, 1024)) % 1024
    return line_of(indices)


def hexadecimal(content):
    return content.hex().encode() or b"-"


def texts(numbers):
    return [b"%d" % number for number in numbers]


def cipher(name, parameters, secret, passphrase):
    """The command `encrypt` or `decrypt`."""
    return b" ".join([name, *texts(dataclasses.astuple(parameters)), hexadecimal(secret), passphrase])


def groups(plan):
    """The groups of a plan, as the command `deal` takes them."""
    return b",".join(b"%d/%d" % (group.threshold, group.count) for group in plan.groups)


def deal(plan, secret, random_bytes, passphrase):
    """The command `deal`."""
    fields = (plan.identifier, plan.flag, plan.exponent, plan.length, plan.group_threshold, plan.group_count)
    rest = [groups(plan), hexadecimal(secret), hexadecimal(random_bytes), passphrase]
    return b" ".join([b"deal", *texts(fields), *rest])


def open_in(work, answer, passphrase):
    return b"open-in %d %d %s" % (work, answer, passphrase)
