# Outward rounding and the three range formulas of document 01: water depth,
# new flux and gain; and the new flux held by the limit of document 02, request
# Every value is a Fraction until the last step; least and greatest are
# sought over all corners. Assumes depths above nought.
#
# Why corners are enough: the flux formula rises with F, is monotone in the
# depth (rising where v + F is not negative, else falling), and is monotone in
# v on each side of nought, so v = 0 is a corner where the range holds it. The
# gain rises with v and is monotone in the depth.
#
# The limit c is free of v and F, and holding between two fixed bounds keeps
# order. c grows with the depth: where v + F is not negative the held flux is the
# lesser of two that do not fall with it, else the greater of two that do not
# rise. So the corners are the same, each held by the c of its own depth.

import itertools
from fractions import Fraction


def floor(fraction):
    """The greatest whole number not above the fraction."""
    return fraction.numerator // fraction.denominator


def ceil(fraction):
    """The least whole number not below the fraction."""
    return -((-fraction.numerator) // fraction.denominator)


def outward(least, greatest):
    return floor(least), ceil(greatest)


def depth_value(depths, level, deficits, setup):
    """Water depth: depths and deficits are sums over the two ends, level is
    initial plus tide."""
    return Fraction(500 * depths + 100 * level + 57 * deficits + setup) / 100


def depth_range(depths, level, deficits, setup):
    return outward(
        depth_value(depths, level, deficits, setup[0]),
        depth_value(depths, level, deficits, setup[1]),
    )


def flux_value(v, force, drag, depth):
    """New flux; drag is kappa times the seconds."""
    square = 100 * Fraction(depth) ** 2
    return (v + force) * square / (square + drag * abs(v))


def flux_choices(v, force, depth):
    """v, F and depth of each corner."""
    places = {v[0], v[1]}
    if v[0] <= 0 <= v[1]:
        places.add(0)
    return itertools.product(places, set(force), set(depth))


def flux_corners(v, force, drag, depth):
    return [flux_value(a, f, drag, d) for a, f, d in flux_choices(v, force, depth)]


def flux_range(v, force, drag, depth):
    """The step before the limit, of which document 01 has the cases."""
    corners = flux_corners(v, force, drag, depth)
    return outward(min(corners), max(corners))


def limiting_flux(speed, depth):
    """ "c = bδ/1,000" """
    return speed * Fraction(depth) / 1000


def held(flux, limit):
    """ "held between -c and c" """
    return max(-limit, min(limit, flux))


def held_value(speed, v, force, drag, depth):
    """New flux, held by the c of this depth."""
    return held(flux_value(v, force, drag, depth), limiting_flux(speed, depth))


def held_corners(speed, v, force, drag, depth):
    choices = flux_choices(v, force, depth)
    return [held_value(speed, a, f, drag, d) for a, f, d in choices]


def held_range(speed, v, force, drag, depth):
    """ "The limit is applied inside the range step, for each choice of v, F and δ" """
    corners = held_corners(speed, v, force, drag, depth)
    return outward(min(corners), max(corners))


def gain_value(length, sine, v, onshore, depth):
    """Gain of setup; onshore is the sum Y over the two ends."""
    return length * (2_748_816 * sine * v + 2_030 * onshore) / (10**9 * Fraction(depth))


def gain_corners(length, sine, v, onshore, depth):
    return [gain_value(length, sine, a, onshore, d) for a in set(v) for d in set(depth)]


def gain_range(length, sine, v, onshore, depth):
    corners = gain_corners(length, sine, v, onshore, depth)
    return outward(min(corners), max(corners))
