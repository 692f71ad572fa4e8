# The sine table of document 01 and the sine and cosine of every angle from 0
# to 3,599 tenths of a degree, in units of 1/10,000. The table is worked out
# here from the polynomial P in exact fractions; nothing is copied in.

from fractions import Fraction
from math import factorial


def radians(n):
    """a = n * 314159265 / (1800 * 10^8)."""
    return Fraction(n * 314159265, 1800 * 10**8)


def polynomial(a):
    """P(a) = a - a^3/3! + a^5/5! - .. + a^13/13!."""
    return sum((-1) ** k * a ** (2 * k + 1) / factorial(2 * k + 1) for k in range(7))


def entry(n):
    """The whole number within half a unit of 10,000 P(a)."""
    exact = 10000 * polynomial(radians(n))
    nearest = (exact + Fraction(1, 2)).__floor__()
    # No entry lies half way between two numbers, so there is only one choice.
    assert abs(exact - nearest) < Fraction(1, 2)
    return nearest


TABLE = tuple(entry(n) for n in range(901))


def sine(angle):
    if 0 <= angle <= 900:
        return TABLE[angle]
    if 900 < angle <= 1800:
        return TABLE[1800 - angle]
    if 1800 < angle <= 2700:
        return -TABLE[angle - 1800]
    if 2700 < angle <= 3599:
        return -TABLE[3600 - angle]
    raise ValueError("angle past its limits")


def cosine(angle):
    """The cosine is the sine of the angle a quarter turn on."""
    return sine((angle + 900) % 3600)
