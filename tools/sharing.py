"""GF(256), interpolation, and the curves that hold a secret.

Written from SLIP-0039 and the kit's own rules alone: it shares no text with the sources under crates/.
"""

import functools
from dataclasses import dataclass

from cipher import exclusive_or

MODULUS = 0x11B  # x^8 + x^4 + x^3 + x + 1
DIGEST_PLACE = 254
SECRET_PLACE = 255
DIGEST_LENGTH = 4


def product(a, b):
    """The product of two polynomials over two values, modulo the field's polynomial."""
    result = 0
    while b:
        result ^= a if b & 1 else 0
        a <<= 1
        a ^= MODULUS if a >> 8 else 0
        b >>= 1
    return result


@functools.cache
def inverse(a):
    """The element whose product with a is 1; 0 has none."""
    return next(b for b in range(1, 256) if product(a, b) == 1)


@functools.cache
def multiples(factor):
    """The products of one factor with each element."""
    return bytes(product(factor, element) for element in range(256))


def scaled(factor, value):
    """Each byte of the value times the factor."""
    return value.translate(multiples(factor))


def interpolate(points, x):
    """The value at x of the polynomials of least degree through the points, a value for each place."""
    total = bytes(len(next(iter(points.values()))))
    for place, value in points.items():
        factor = 1
        for other in points:
            if other != place:
                factor = product(factor, product(x ^ other, inverse(place ^ other)))
        total = exclusive_or(total, scaled(factor, value))
    return total


@dataclass(frozen=True)
class Curve:
    """A curve, by its values at as many places as its threshold has."""

    points: dict[int, bytes]

    def value(self, x):
        return interpolate(self.points, x)

    def secret(self):
        return self.value(SECRET_PLACE)


def checked_secret(digest, rest, secret):
    """What a curve has at 254: the beginning of the digest of the secret, and the rest, which is the digest's key."""
    return digest(rest, secret)[:DIGEST_LENGTH] + rest


def dealt_curve(digest, threshold, secret, take):
    """The curve for a secret that random bytes make; take(count) gives the next of them."""
    if threshold == 1:
        return Curve({SECRET_PLACE: secret})
    points = {x: take(len(secret)) for x in range(threshold - 2)}
    points[DIGEST_PLACE] = checked_secret(digest, take(len(secret) - DIGEST_LENGTH), secret)
    points[SECRET_PLACE] = secret
    return Curve(points)


def curve_through(digest, threshold, points):
    """The curve of a threshold through that many points or more, or None where there is none."""
    curve = Curve({x: points[x] for x in sorted(points)[:threshold]})
    if any(curve.value(x) != value for x, value in points.items()):
        return None
    if threshold == 1:
        return curve
    shown = curve.value(DIGEST_PLACE)
    right = shown == checked_secret(digest, shown[DIGEST_LENGTH:], curve.secret())
    return curve if right else None
