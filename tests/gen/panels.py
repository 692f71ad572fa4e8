# The harbour panel, request Q-5 of document 02: every count of points, check 19 beside
# every fault that is judged before or after it, any count of what is lent, and storms
# on traverses that the panel takes. Each call is one of both pairs: of our own
# program's calls, which never answer 19, and of the panel's.

import random

from model import march

from . import values
from .calms import (
    Fault, Lent, elapsed_to, lent_places, lent_rows, number_to, point_to, record_of, resized,
    row_to, segment_faults, strong_cross,
)  # fmt: skip

PANEL = march.PANEL_MOST_POINTS
COUNTS = range(71)
# Counts that a number of 8, 16 or 32 bits would take for others.
FAR = 101, 256, 256 + PANEL, 2**16 + PANEL, 2**16 + PANEL + 1, 2**32 + 2, 2**32 + PANEL, 2**32 + 65
# Each fault is shown with as many points as the panel takes, which gives the fault;
# one more and the most, which give 19; and one more still, which gives 5.
BESIDE = PANEL, PANEL + 1, march.MOST_POINTS, march.MOST_POINTS + 1


def too_long(count):
    """Whether so many points are refused with 19 on the panel."""
    return PANEL < count <= march.MOST_POINTS


# Counts of points, all else being sound.


def traverse_of(count):
    return Lent(False, 0, count, 1).run.traverse()


def far_traverse(count):
    """A traverse of which a request gives the count alone."""
    return traverse_of(2)._replace(points=range(count))


def counted_calls():
    """A first and a later record, with and without setup places."""
    for count in COUNTS:
        for later in (False, True):
            for places in (0, 2 * count - 2):
                yield Lent(later, places, count, 1).call()
    for count in FAR:
        yield far_traverse(count), *Lent(True).call()[1:]


# One fault beside 19. Points, rows and segments are those at which it can be mistaken:
# the first, the panel's last and the one behind it.


def points_of(count):
    return [place for place in (1, PANEL, PANEL + 1) if place <= count]


def segments_of(count):
    return [place for place in (1, PANEL - 1, PANEL) if place < count]


def point_of(place):
    return lambda lent: lent.run.points[place - 1]


def level(place):
    """A distance that is the one before."""
    return lambda lent: number_to(point_of(place), 0, lent.run.points[place - 2][0])(lent)


def traverse_faults(count):
    for index, limits in enumerate((march.LATITUDE, march.FRICTION, march.INITIAL)):
        for value in (limits[0] - 1, limits[1] + 1):
            yield Fault(6, 0, number_to(lambda lent: lent.run.head, index, value))
    for place in points_of(count):
        yield Fault(6, place, number_to(point_of(place), 0, march.DISTANCE[1] + 1))
        yield Fault(6, place, number_to(point_of(place), 1, march.DEPTH[0] - 1))
    for place in (2, *points_of(count)[1:]):
        yield Fault(7, place, level(place))
    yield Fault(7, count, number_to(point_of(count), 0, 1))


def lent_faults(count):
    for change in (list.pop, list.clear, lambda rows: rows.append(march.FRESH)):
        yield Fault(8, 0, resized(lent_rows, change))
    for more in ((7,), (7, 7)):
        yield Fault(8, 0, resized(lent_places, lambda places, more=more: places.extend(more)))
    for change in (list.pop, lambda record: record.append([500, 5, 0])):
        yield Fault(8, 0, resized(record_of, change))
    for place in segments_of(count):
        yield Fault(8, place, row_to(place, 1, 0, 0))
        yield Fault(8, place, row_to(place, 0, 0, march.CROSS_SUM[1] + 1))


def record_faults(count, later):
    yield Fault(9, 0, number_to(record_of, 0, 3601 if later else 1))
    yield Fault(9, 0, number_to(record_of, 1, march.TIDE[0] - 1))
    for elapsed in (-1, march.ELAPSED[1] + 1):
        yield Fault(9, 0, elapsed_to(elapsed))
    for place in points_of(count):
        for numbers in ((2001,), (500, -1), (500, 300, 301)):
            yield Fault(9, place, point_to(place, *numbers))
        yield Fault(18, place, point_to(place, 0, 900))


def march_faults(count, later):
    yield from segment_faults(segments_of(count))
    for place in segments_of(count) if later else ():
        yield Fault(11, place, strong_cross(place))


def faults(count, later):
    yield from traverse_faults(count)
    yield from lent_faults(count)
    yield from record_faults(count, later)
    yield from march_faults(count, later)


def faulty(fault, count, later=False, places=0):
    """What is lent with this fault; steps are long, since setup needs length."""
    lent = Lent(later, places, count, min(100, 6400 // (count - 1)))
    fault.change(lent)
    return lent


def faulty_calls():
    """(lent, its count of points, its fault)."""
    for count in BESIDE:
        for later in (False, True):
            for places in (0, 2 * count - 2):
                for fault in faults(count, later):
                    yield faulty(fault, count, later, places), count, fault


# Counts of rows, setup places and points of the record next to what one of the limits
# would need, and far past it.

ROWS = 0, 15, 16, 17, 63, 64, 65, 200, 2**31, 2**32, 2**32 + 1, 2**32 + 16, 2**32 + 64
PLACES = 1, 2, 16, 31, 32, 33, 34, 127, 128, 130
POINTS = 0, 1, 2, 16, 17, 18, 64, 65, 66, 101, 2**32 + 2, 2**32 + 17


def some(count, one):
    """A list of so many; of more than a request gives, the count alone."""
    return [one] * count if count <= 100 else range(count)


def lent_calls():
    for count in (2, PANEL, PANEL + 1, march.MOST_POINTS):
        for later in (False, True):
            traverse, state, rows, places, record = Lent(later, 0, count, 1).call()
            for number in ROWS:
                yield traverse, state, some(number, march.FRESH), places, record
            for number in PLACES:
                yield traverse, state, rows, [7] * number, record
            for number in POINTS:
                points = some(number, (500, 300, 5))
                yield traverse, state, rows, places, record._replace(points=points)


# All of them.


def traverses():
    """Those that are opened."""
    yield from map(traverse_of, COUNTS)
    yield from map(far_traverse, FAR)
    for count in BESIDE:
        for fault in traverse_faults(count):
            yield faulty(fault, count).run.traverse()


def calls():
    """What march.take_record is given, one call after the other."""
    yield from counted_calls()
    for lent, *_ in faulty_calls():
        yield lent.call()
    yield from lent_calls()


# Storms.

STYLES = values.ordinary, values.extreme, values.deep_water, values.shallow_water, values.turning_cross
# Segments of a random run, most of them next to a limit.
SEGMENTS = 1, 2, 15, 15, 16, 16, 16, 17, 17, 63, 64


def segments(rng):
    return rng.choice(SEGMENTS)


def storm_run(rng):
    return rng.choice(STYLES)(rng, segments(rng), rng.randint(1, 4))


def list_runs():
    """Runs that the panel takes, of 2, 16 and 17 points, the same whatever the seed."""
    rng = random.Random(31)
    for count in (2, PANEL - 1, PANEL):
        for style in STYLES:
            yield style(rng, count - 1, 4)
