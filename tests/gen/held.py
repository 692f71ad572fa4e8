# The flux limit, request Q-6 of document 02: limiting speeds from both sides of every
# threshold; held ranges of which the limit binds one end, both or none; and records on
# lent rows, whose sums, rows and answers show both, refusal 11 from both sides among
# them. A record's rows can be any within their limits, so that its flux ranges are as
# wide as is wanted; in a storm's files they are narrow.

import itertools
import random
from bisect import bisect_left
from functools import cache
from types import SimpleNamespace

from model import fast, forcing, march
from model.sine import sine

from .values import angle_for, distances, log_uniform

SUM = march.CROSS_SUM[1]
# The greatest size of a force: an hour of the greatest sum before and after.
FORCE = -99_620, 99_620
SECONDS = march.LATER_SECONDS
# Whether the limit binds the low end of the range, and its high end.
BINDINGS = tuple(itertools.product((False, True), repeat=2))


# Limiting speeds.


def threshold(friction, speed):
    """The least size of a sum that has this limiting speed. The document's two products
    are equal where the speed is a multiple of 11."""
    return -(-225_000 * friction * speed**2 // 242)


def greatest(friction):
    """The limiting speed of the greatest sum: the last threshold within the limits."""
    speed = 0
    while threshold(friction, speed + 1) <= SUM:
        speed += 1
    return speed


def sums():
    """(friction, sum): every speed of three frictions, just reached and just missed, in
    turn to one side and the other; the ends of every friction."""
    for friction in (10, 25, 50):
        for speed in range(1, greatest(friction) + 1):
            least = threshold(friction, speed) * (-1) ** speed
            yield friction, least
            yield friction, least - (1 if least > 0 else -1)
    for friction in range(march.FRICTION[0], march.FRICTION[1] + 1):
        sizes = [threshold(friction, speed) for speed in (1, 2, 11, 22, 3333, 7425)]
        for size in (0, 1, SUM - 1, SUM, *sizes, *(size - 1 for size in sizes)):
            yield friction, size
            yield friction, -size


# Held ranges: speed, v, force, drag and depth.


def binding(speed, *given):
    """Which ends the limit moves."""
    free, held = fast.flux_range(*given), fast.held_range(speed, *given)
    return held[0] != free[0], held[1] != free[1]


def clipped(value, limits):
    return max(limits[0], min(limits[1], value))


def beside(rng, limit):
    """A flux by the limit, at it, inside or beyond it, to either side."""
    share = rng.choice((0, 0, 0.3, 0.9, 1, 1, 1.1, 2, 8, rng.uniform(0, 3)))
    return int(rng.choice((-1, 1)) * share * limit) + rng.choice((-1, 0, 0, 1, rng.randint(-20, 20)))


def pair_beside(rng, limit, bounds):
    """One number, two neighbours, or any two, within bounds."""
    first = beside(rng, limit)
    other = rng.choice((first, first + 1, first + rng.randint(1, 30), beside(rng, limit), -first))
    return tuple(sorted(clipped(value, bounds) for value in (first, other)))


def some_speed(rng):
    return rng.choice((0, 1, 2, log_uniform(rng, 1, 16_634), rng.randint(1000, 16_634), 16_634))


def any_choice(rng):
    """The depth's ends are equal, next to each other, or up to thirty times apart."""
    shallow = log_uniform(rng, 100, 100_000)
    deep = rng.choice((shallow, shallow + 1, shallow + rng.randint(1, 50), int(shallow * rng.uniform(1, 30))))
    depth = shallow, min(100_000, deep)
    speed = some_speed(rng)
    limit = 1 + speed * rng.choice(depth) // 1000
    drag = rng.randint(10, 50) * log_uniform(rng, 1, 3600)
    return speed, pair_beside(rng, limit, march.FLUX), pair_beside(rng, limit, FORCE), drag, depth


def damped_choice(rng):
    """Long steps in shallow water: the larger v, the less of it is left, and of F as well.
    Both ends are held at v = 0 alone where F is to both sides."""
    shallow = log_uniform(rng, 100, 2000)
    depth = shallow, rng.choice((shallow, shallow + 1, int(shallow * rng.uniform(1, 3))))
    drag = rng.randint(10_000, 180_000)
    # what is left of the largest v
    rest = 100 * shallow**2 // drag + 1
    force = int(rest * rng.uniform(0.5, 5))
    limit = rng.choice((force, rest)) * rng.uniform(0.3, 3)
    speed = clipped(int(1000 * limit / shallow), (0, 16_634))
    force = rng.choice((-1, 1)) * force
    other = rng.choice((force, force + 1, int(force * rng.uniform(-2, 2))))
    force = sorted(clipped(end, FORCE) for end in (force, other))
    v = -rng.randint(0, 10 * rest), rng.randint(0, 10 * rest)
    return speed, tuple(clipped(end, march.FLUX) for end in v), tuple(force), drag, depth


def at_nought(speed, v, *given):
    """Where v = 0 stands: outside, inside its range, or inside and with an end of the flux
    that neither end of v gives."""
    if not v[0] < 0 < v[1]:
        return "outside"
    ends = [fast.held_range(speed, (a, a), *given) for a in v]
    low, high = fast.held_range(speed, v, *given)
    return "extreme" if (low, high) != (min(e[0] for e in ends), max(e[1] for e in ends)) else "inside"


def choices(rng):
    """Endless: each binding in turn, with each place of v = 0."""
    for wanted in itertools.cycle(itertools.product(BINDINGS, ("outside", "inside", "extreme"))):
        while True:
            given = damped_choice(rng) if wanted[1] == "extreme" else any_choice(rng)
            if (binding(*given), at_nought(*given)) == wanted:
                break
        yield given


# Records on lent rows.


def steps_of(call):
    """What the range step of each segment is given, as far as the march goes, and the
    segments' sums."""
    met = []
    watching = SimpleNamespace(**vars(fast))
    watching.held_range = lambda *given: met.append(given) or fast.held_range(*given)
    traverse, state, rows, places, record = call
    march.take_record(traverse, state, list(rows), list(places), record, watching)
    return met, [given.new_sum for given in march.segments_of(traverse, state, rows, record)]


def accepted(call):
    traverse, state, rows, places, record = call
    answer = march.take_record(traverse, state, list(rows), list(places), record, fast)
    return not isinstance(answer, march.Refusal)


# Winds across a traverse of so many points.


def across(rng, count, weakest=300, strongest=2000):
    """Across at all points, to one side or to both."""
    ways = rng.choice(((900,), (2700,), (900, 2700)))
    peak = rng.randint(weakest, strongest)
    for _ in range(count):
        wind = rng.randint(peak * 3 // 4, peak)
        yield wind, rng.choice(ways) + rng.randint(-60, 60), rng.choice((0, rng.randint(0, 300)))


def faint(rng, count):
    """Sums that have a limiting speed of 0 to some tens."""
    for _ in range(count):
        wind = rng.choice((1, 1, 2, rng.randint(0, 12)))
        yield wind, angle_for(wind, rng.choice((0, 1, 3599, 10, 48, 900, 2690, rng.randrange(3600)))), 0


def balanced(rng, count):
    """The two ends of each segment take each other off."""
    wind, angle = rng.randint(1, 1200), rng.randrange(3600)
    for k in range(count):
        yield wind, angle if k % 2 else (angle + 1800) % 3600, 0


def along(rng, count):
    """Winds along the axis, and calms: sums of 0, with and without a setup."""
    strongest = rng.choice((0, 1, 600))
    for _ in range(count):
        wind = rng.randint(0, strongest)
        yield wind, angle_for(wind, rng.choice((0, 1800))), rng.randint(0, 9)


def mixed(rng, count):
    """All of these, point by point: sums of 0 between others."""
    kinds = [list(kind(rng, count)) for kind in (across, faint, along, across)]
    for k in range(count):
        yield rng.choice(kinds)[k]


WINDS = across, across, mixed, faint, balanced, along


def depths_for(rng, count):
    """In tenths of a foot."""
    deepest = rng.choice((60, 300, 2000, 9000))
    return [rng.randint(max(20, deepest // 3), deepest) for _ in range(count)]


def lent_row(rng, friction, seconds, given):
    """A row beside the limit that this sum has, in the water of a calm, and an old sum that
    brings the force beside it."""
    total = given.new_sum
    limit = 1 + fast.limiting_speed(friction, total) * given.depths * 5 // 1000
    aimed = int(rng.uniform(-2, 2) * limit * 22_500_000_000_000 / (121 * seconds)) - total
    old = rng.choice((0, total, -total, rng.choice((-SUM, SUM)), rng.randint(-SUM, SUM), aimed, aimed, aimed))
    return march.Row(*pair_beside(rng, limit, march.FLUX), clipped(old, march.CROSS_SUM))


def some_seconds(rng, friction, given):
    """Any step, or one in which the damping of the limiting flux is as wanted."""
    speed = max(1, fast.limiting_speed(friction, given.new_sum))
    damping = 30 ** rng.uniform(-0.5, 1)
    seconds = int(damping * 100_000 * 5 * given.depths / (speed * friction))
    return clipped(rng.choice((seconds, seconds, log_uniform(rng, 1, 3600))), SECONDS)


def call_over(rng, points, latitude, winds):
    """A later record on such rows."""
    traverse = march.Traverse(latitude, rng.choice((10, 25, 50, rng.randint(10, 50))), 0, tuple(points))
    record = march.Record(1, rng.randint(-20, 20), tuple(winds(rng, len(points))))
    segments = list(march.segments_of(traverse, march.State(0, False), (), record))
    seconds = some_seconds(rng, traverse.friction, rng.choice(segments))
    rows = [lent_row(rng, traverse.friction, seconds, given) for given in segments]
    places = [7] * rng.choice((0, 2 * len(rows)))
    state = march.State(rng.randint(0, 10_000), True)
    return traverse, state, rows, places, record._replace(seconds=seconds)


def wide_call(rng):
    """Fluxes as wide as their limits over the outer segments, which are long: the turn of
    the earth gives the inner ones a setup, and so a water depth, between ends far apart."""
    outer, inner = rng.randint(2, 6), rng.randint(1, 4)
    count = outer + inner + 1
    depths = [rng.randint(400, 700) for _ in range(outer)] + [rng.randint(120, 250) for _ in range(inner + 1)]
    call = call_over(rng, [(95 * (count - 1 - k), depths[k]) for k in range(count)], 900, rng.choice((across, mixed)))
    rows = call[2]
    rows[:outer] = [march.Row(-400_000, 400_000, row.sum) for row in rows[:outer]]
    return call


def any_call(rng):
    if rng.random() < 0.3:
        return wide_call(rng)
    segments = rng.choice((1, 2, 4, 8, 16, 16))
    steps = distances(rng, segments, rng.choice((1, 10, 100)))
    points = list(zip(steps, depths_for(rng, segments + 1)))
    return call_over(rng, points, rng.choice((0, 300, 900)), rng.choice(WINDS))


def random_calls(count):
    """Accepted records, each with a segment of the binding whose turn it is; the same
    whatever the seed."""
    rng = random.Random(41)
    for wanted in itertools.islice(itertools.cycle((*BINDINGS, "extreme")), count):
        while True:
            call = any_call(rng)
            if accepted(call) and any(wanted in (binding(*given), at_nought(*given)) for given in steps_of(call)[0]):
                break
        yield call


# A first record: its flux stays 0, and is not held, whatever the rows are.


def first_calls(count):
    rng = random.Random(42)
    for _ in range(count):
        traverse, _, rows, places, record = any_call(rng)
        yield traverse, march.State(0, False), rows, places, record._replace(seconds=0)


# Both sides of a threshold, by the winds at the two ends of one segment.


@cache
def one_end():
    """By its cross stress, a wind and an angle of one end."""
    return {
        forcing.stress(wind) * sine(angle): (wind, angle)
        for wind in range(220, -1, -1)
        for angle in range(0, 901 if wind else 1)
    }


def ends_for(total):
    """Winds and angles of two ends whose cross stresses add up to this sum, or None."""
    known = one_end()
    for one, end in known.items():
        if total - one in known:
            return end, known[total - one]
        if one - total in known:
            return end, *turned([known[one - total]])
    return None


@cache
def ends_near(total, way):
    """The same of the nearest sum that two ends have, from this one on upward or downward."""
    return ends_for(total) or ends_near(total + way, way)


def turned(ends):
    """The same winds from the other side."""
    return [(wind, (angle + 1800) % 3600 if wind else 0) for wind, angle in ends]


# Friction and speed, of which the multiples of 11 have two equal products.
THRESHOLDS = (
    (10, 1), (10, 2), (10, 11), (10, 100), (10, 121), (10, 700), (22, 1), (22, 11), (25, 1), (25, 22),
    (25, 300), (33, 11), (50, 1), (50, 110), (50, 330),
)  # fmt: skip


def one_segment(friction, depth, row, ends, seconds=60, tide=0):
    """A record over two points of this depth."""
    traverse = march.Traverse(0, friction, 0, ((1, depth), (0, depth)))
    record = march.Record(seconds, tide, tuple((wind, angle, 0) for wind, angle in ends))
    return traverse, march.State(600, True), [row], [7, 7], record


def threshold_calls():
    """A flux far beyond the limit, to both sides, so that both ends are the limit's."""
    for friction, speed in THRESHOLDS:
        least = threshold(friction, speed)
        for ends in (ends_near(least, 1), ends_near(least - 1, -1)):
            for sign, winds in ((1, ends), (-1, turned(ends))):
                row = march.Row(-900_000, 900_000, 0)
                yield one_segment(friction, 3000 + speed, row, winds)
                yield one_segment(friction, 3000 + speed, row._replace(low=800_000), winds)
                yield one_segment(friction, 200, march.Row(-3, 2, sign * SUM), winds)


def strongest_calls():
    """The greatest sums, in depths up to the greatest, on fluxes of any size."""
    for friction in (10, 11, 25, 50):
        for outer, inner in ((2000, 2000), (2000, 1999), (1990, 2000)):
            for angle in (900, 897, 2700, 2702):
                for depth in (10, 500, 5000, 10_000):
                    ends = (outer, angle), (inner, 900 if angle < 1800 else 2700)
                    for row in ((-1_000_000, 1_000_000, 0), (0, 0, SUM), (-400_000, 30_000, -SUM)):
                        yield one_segment(friction, depth, march.Row(*row), ends, 3600)


# Refusal 11, which is judged on the held flux: c passes 1,000,000 with one unit of the
# water depth, where the flux is past it before it is held. edges.py has the same by one
# unit of a wind.

FULL = 1_000_000
# Speeds at the least friction. Of some c is just 1,000,000 in a whole depth.
LIMIT_SPEEDS = 10_001, 11_111, 12_500, 12_800, 15_000, 15_625, 16_000
LIMIT_PLACES = (1, 1), (2, 1), (2, 2), (4, 2), (16, 1), (16, 9), (16, 16)


@cache
def strong_ends(speed, friction=10):
    """Two winds straight across, so that they raise no setup, that have this limiting speed."""
    least, next_one = threshold(friction, speed), threshold(friction, speed + 1)
    crosses = [forcing.cross(wind, 900) for wind in range(2001)]
    for wind in range(2001):
        other = bisect_left(crosses, least - crosses[wind])
        if other <= 2000 and crosses[wind] + crosses[other] < next_one:
            return (wind, 900 if wind else 0), (other, 900)
    raise ValueError("no two winds have %d" % speed)


def full_call(speed, depth, way, segments=1, place=1, low=FULL):
    """The flux of one segment at its limit and still growing, the others' from nought. No
    turn of the earth, and so no setup: each segment has this water depth itself."""
    ends = strong_ends(speed)
    if way < 0:
        ends = turned(ends)
    total, tide = divmod(depth, 5)
    points = tuple((segments - k, total // 2 if k % 2 else total - total // 2) for k in range(segments + 1))
    rows = [march.FRESH] * segments
    rows[place - 1] = march.Row(*sorted((way * low, way * FULL)), way * SUM)
    record = march.Record(30, tide, tuple((*ends[k % 2], 0) for k in range(segments + 1)))
    return march.Traverse(0, 10, 0, points), march.State(600, True), rows, [7] * (2 * segments), record


def limit_pairs():
    """(accepted, refused with 11, the place)."""
    for speed in LIMIT_SPEEDS:
        deepest = 1000 * FULL // speed
        for way in (1, -1):
            for segments, place in LIMIT_PLACES:
                for low in (FULL, -FULL):
                    shallow, deep = (full_call(speed, depth, way, segments, place, low) for depth in (deepest, deepest + 1))
                    yield shallow, deep, place


def far_held_calls():
    """Fluxes past 1,000,000 that are held far below it; and small ones under a limit that is
    past it."""
    for depth in (8000, 9000, 9500):
        for way in (1, -1):
            for speed in (9000, 10_001):
                ends = strong_ends(speed) if way > 0 else turned(strong_ends(speed))
                row = march.Row(*sorted((0, way * FULL)), way * SUM)
                yield one_segment(10, depth, row, ends, 30)
            yield one_segment(10, depth, march.FRESH, [(2000, 900 if way > 0 else 2700)] * 2, 5)


def limit_calls():
    for accepted_one, refused, _ in limit_pairs():
        yield accepted_one
        yield refused
    yield from far_held_calls()


# All of them.


def calls():
    """What march.take_record is given, one call after the other."""
    yield from random_calls(240)
    yield from first_calls(24)
    yield from threshold_calls()
    yield from strongest_calls()
    yield from limit_calls()
