# The storm maker, request Q-1 of document 02, with the calms of request Q-4 and the
# table of request Q-7, where one is given: a record from a hurricane's few numbers, in
# exact fractions, and the listing of a hurricane along its track.
# Written from the document and its readings alone; the quoted sentences are the
# document's.
#
# Pressures and deficits are hundredths of an inch of mercury; R, coordinates and
# radii tenths of a mile; winds tenths of a mile per hour; angles tenths of a degree.

from collections import namedtuple
from fractions import Fraction
from functools import cache
from math import factorial, isqrt

from . import march, profile, program
from .march import Record, Refusal, within
from .ranges import floor

# centre, edge: pressures; radius: R of greatest wind; x, y: the storm's centre.
Hurricane = namedtuple("Hurricane", "centre edge radius x y")
# One place of the track. winds: pairs (radius, wind), from the centre outward;
# sites: triples (x, y, angle), one for each point of the traverse, sea to shore.
Place = namedtuple("Place", "hurricane seconds tide winds sites")

# "Pressures run from 2,500 to 3,200 hundredths of an inch and differ by at most 300."
PRESSURE = (2500, 3200)
DROP = (0, 300)
# "R runs from 1 to 2,000 tenths of a mile."
RADIUS = (1, 2000)
# "Centre and points have plane coordinates in tenths of a mile within ±10,000"
PLANE = (-10_000, 10_000)
# "Wind comes from a list of 1 to 50 radii, each 0 to 30,000 tenths of a mile"
WINDS = (1, 50)
WIND_RADIUS = (0, 30_000)
# "one call for one place of the track and 2 to 65 points"
SITES = (2, 65)
# Numbers of the room for a point: wind, angle, deficit.
STRIDE = 3


# The deficit.


def exponential(m):
    """ "the sum of (m/100)^k/k! for k from 0 to 40" """
    return sum(Fraction(m, 100) ** k / factorial(k) for k in range(41))


@cache
def entry(m):
    """ "A table gives e^(-m/100) in ten-thousandths, m from 0 to 1,000, each
    within half a unit of 10,000 divided by the sum" """
    exact = 10_000 / exponential(m)
    nearest = floor(exact + Fraction(1, 2))
    # No value lies half way between two numbers, so there is only one choice.
    assert abs(exact - nearest) < Fraction(1, 2)
    return nearest


@cache
def own_table():
    """Our own table, "m from 0 to 1,000"."""
    return tuple(entry(m) for m in range(1001))


def distance(hurricane, site):
    """ "r is the whole root, rounded down." """
    return isqrt((site[0] - hurricane.x) ** 2 + (site[1] - hurricane.y) ** 2)


def hundredths(radius, r):
    """ "R/r is taken in hundredths, rounded down, and 1,000 stands for anything
    larger or r = 0." """
    if r == 0:
        return 1000
    return min(1000, floor(Fraction(100 * radius, r)))


def deficit(hurricane, r, table):
    """ "The deficit at distance r is (edge - centre)·(1 - e^(-R/r)), rounded
    down", or "the same rule over the loaded table" """
    part = 1 - Fraction(table[hundredths(hurricane.radius, r)], 10_000)
    return floor((hurricane.edge - hurricane.centre) * part)


# The wind.


def wind(winds, r):
    """ "straight between rows and rounded down; inside the first radius and beyond
    the last, the end row's wind holds." The interpolated wind is rounded down, not
    its change."""
    if r <= winds[0][0]:
        return winds[0][1]
    for (inner, inner_wind), (outer, outer_wind) in zip(winds, winds[1:]):
        if r <= outer:
            share = Fraction(r - inner, outer - inner)
            return floor(inner_wind + (outer_wind - inner_wind) * share)
    return winds[-1][1]


def angle_for(speed, given):
    """ "Each point's angle is given", but "a calm that Q-1 makes gets angle 0" """
    return 0 if speed == 0 else given


# The checks.


def check_storm(hurricane, winds, sites):
    """ "It refuses an edge pressure below the centre, or a value or count past its
    limits (13) .. For 13 the place is 0 for pressures, R, centre and counts" """
    return (
        within(hurricane.centre, PRESSURE)
        and within(hurricane.edge, PRESSURE)
        and within(hurricane.edge - hurricane.centre, DROP)
        and within(hurricane.radius, RADIUS)
        and within(hurricane.x, PLANE)
        and within(hurricane.y, PLANE)
        and within(len(winds), WINDS)
        and within(len(sites), SITES)
    )


def check_values(hurricane, winds, sites):
    """ "(13) .. place is 0 .., then the list's row, then the point". The given angle is
    judged at a calm too."""
    if not check_storm(hurricane, winds, sites):
        return Refusal(13, 0)
    for place, (radius, speed) in enumerate(winds, 1):
        if not (within(radius, WIND_RADIUS) and within(speed, march.WIND)):
            return Refusal(13, place)
    for place, (x, y, angle) in enumerate(sites, 1):
        if not (within(x, PLANE) and within(y, PLANE) and within(angle, march.ANGLE)):
            return Refusal(13, place)
    return None


def check_radii(winds):
    """ "then wind radii that do not rise (14) .. for 14 the row": the later one of
    the pair, and equal radii do not rise."""
    for place in range(2, len(winds) + 1):
        if winds[place - 1][0] <= winds[place - 2][0]:
            return Refusal(14, place)
    return None


def check_room(sites, room):
    """ "room too short for what this or a later call writes gets 8, place 0, last" """
    return Refusal(8, 0) if len(room) < STRIDE * len(sites) else None


# The record.


def make_record(hurricane, seconds, tide, winds, sites, room, table=None):
    """A refusal, or the record, written into the room as wind, angle and deficit
    of each point. "seconds and tide passed on as given"; "spare room stays as lent".
    A table that is given takes the place of ours, and "(20) .. before check 13" is
    judged of it; of ours it finds nothing."""
    table = own_table() if table is None else table
    refusal = (
        profile.check_table(table)
        or check_values(hurricane, winds, sites)
        or check_radii(winds)
        or check_room(sites, room)
    )
    if refusal:
        return refusal
    points = []
    for site in sites:
        r = distance(hurricane, site)
        speed = wind(winds, r)
        points.append((speed, angle_for(speed, site[2]), deficit(hurricane, r, table)))
    room[: STRIDE * len(points)] = [number for point in points for number in point]
    return Record(seconds, tide, tuple(points))


def records(track, table=None):
    """The record of each place in order, made with that table; a refusal ends them."""
    for place in track:
        record = make_record(*place, [0] * (STRIDE * len(place.sites)), table)
        yield record
        if isinstance(record, Refusal):
            return


def listing(traverse, track, formulas=march.Fractions, table=None):
    """The listing, as the program prints one, of the hurricane whose places are
    `track`, over a march.Traverse: names line, a line for each record, and where
    opening, making a record or taking it is refused, `refused NUMBER PLACE`. Its
    records are made with that table, with ours where none is given."""
    return program.listing_of(traverse, records(track, table), formulas)
