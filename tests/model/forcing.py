# Wind stress, its cross and onshore parts, and the force of a segment, as the
# section "Sine, stress, force" of document 01 writes them; the wind stress
# coefficient as TM-35's equation 9a prints it (document 02, Q-2); the limiting
# speed of a cross-stress sum (document 02, Q-6).

from fractions import Fraction
from math import isqrt

from . import ranges
from .sine import cosine, sine


def coefficient(wind):
    """k in 10^-7, a fraction. A calm has none."""
    first, second, critical = Fraction("1.1"), Fraction("2.5"), 16
    miles = Fraction(wind, 10)
    if miles == 0:
        raise ValueError("a calm has no coefficient")
    if miles <= critical:
        return 10 * first
    return 10 * (first + second * (1 - critical / miles) ** 2)


def over_square(wind):
    """k as a whole number over w^2: both of them."""
    numerator = coefficient(wind) * wind**2
    if numerator.denominator != 1:
        raise ValueError("k is no whole number over the square of %d" % wind)
    return int(numerator), wind**2


def stress(wind):
    """q in 10^-9 mph^2."""
    if wind <= 160:
        return 11 * wind**2
    return 11 * wind**2 + 25 * (wind - 160) ** 2


def cross(wind, angle):
    return stress(wind) * sine(angle)


def onshore(wind, angle):
    return stress(wind) * cosine(angle)


def force(seconds, old_sum, new_sum):
    """F as a fraction: Z is the sum of four cross stresses, two in each sum."""
    return Fraction(seconds * (old_sum + new_sum) * 121, 22_500_000_000_000)


def force_range(seconds, old_sum, new_sum):
    """F rounded outward."""
    value = force(seconds, old_sum, new_sum)
    return ranges.outward(value, value)


def limiting_speed(friction, total):
    """b in 0.001 ft/s: "the greatest whole number with 225,000·κ·b² not above 242 times
    the size of this record's cross-stress sum over the two ends". b² is whole, so it
    is not above the quotient just where it is not above its whole part."""
    return isqrt(242 * abs(total) // (225_000 * friction))
