# Opening a traverse and taking a record: the limits, the checks 5 to 12 in
# document 01's order with their places, of document 02 check 18 behind check 9
# (request Q-4) and check 19 behind check 5 (request Q-5), and the steps of one
# record, the new flux held by its limit (request Q-6). Rows and setup places are
# lists lent by the caller; a refused record leaves them, and the state, as they
# were.

from collections import namedtuple

from . import forcing, ranges
from .sine import sine

# points: pairs (distance, depth), sea to shore.
Traverse = namedtuple("Traverse", "latitude friction initial points")
# points: triples (wind, angle, deficit), sea to shore.
Record = namedtuple("Record", "seconds tide points")
State = namedtuple("State", "elapsed accepted")
Row = namedtuple("Row", "low high sum")
Refusal = namedtuple("Refusal", "number place")
Height = namedtuple("Height", "low high state")

FRESH = Row(0, 0, 0)

LATITUDE = (0, 900)
FRICTION = (10, 50)
INITIAL = (-1000, 1000)
TIDE = (-2000, 2000)
DISTANCE = (0, 6400)
DEPTH = (0, 10_000)
FIRST_SECONDS = (0, 0)
LATER_SECONDS = (1, 3600)
WIND = (0, 2000)
ANGLE = (0, 3599)
DEFICIT = (0, 300)
FLUX = (-1_000_000, 1_000_000)
WATER_DEPTH = (100, 100_000)
SETUP = (-1_000_000, 1_000_000)
CROSS_SUM = (-2_572_800_000_000, 2_572_800_000_000)
ELAPSED = (0, 1_000_000_000)
# The most points of a traverse: our own program's, which has 64 segments, and the
# harbour panel's, which has 16 (request Q-5).
MOST_POINTS = 65
PANEL_MOST_POINTS = 17
POINTS = (2, MOST_POINTS)
STEP = (1, 100)


class Fractions:
    """The formulas by fractions; model.fast has the same five names."""

    depth_range = staticmethod(ranges.depth_range)
    force_range = staticmethod(forcing.force_range)
    limiting_speed = staticmethod(forcing.limiting_speed)
    held_range = staticmethod(ranges.held_range)
    gain_range = staticmethod(ranges.gain_range)


def within(value, limits):
    return limits[0] <= value <= limits[1]


def both_within(pair, limits):
    return within(pair[0], limits) and within(pair[1], limits)


def check_traverse(traverse, most=MOST_POINTS):
    """Checks 5, 19, 6 and 7: the first refusal, or None. Where the most points are
    the panel's: "It refuses a longer traverse on the panel only (19), with the points
    given, after check 5". More than 65 points are 5 there too."""
    points = traverse.points
    if not within(len(points), POINTS):
        return Refusal(5, len(points))
    if len(points) > most:
        return Refusal(19, len(points))
    if not (
        within(traverse.latitude, LATITUDE)
        and within(traverse.friction, FRICTION)
        and within(traverse.initial, INITIAL)
    ):
        return Refusal(6, 0)
    for place, (distance, depth) in enumerate(points, 1):
        if not (within(distance, DISTANCE) and within(depth, DEPTH)):
            return Refusal(6, place)
    for place in range(2, len(points) + 1):
        step = points[place - 2][0] - points[place - 1][0]
        if not within(step, STEP):
            return Refusal(7, place)
    if points[-1][0] != 0:
        return Refusal(7, len(points))
    return None


def open_traverse(traverse, most=MOST_POINTS):
    """A refusal, or the state before the first record."""
    return check_traverse(traverse, most) or State(0, False)


def fresh_rows(traverse):
    return [FRESH] * (len(traverse.points) - 1)


def check_lent(traverse, rows, setup, record):
    """Check 8: counts, then rows."""
    segments = len(traverse.points) - 1
    if (
        len(rows) != segments
        or len(record.points) != segments + 1
        or len(setup) not in (0, 2 * segments)
    ):
        return Refusal(8, 0)
    for place, (low, high, total) in enumerate(rows, 1):
        if low > high or not both_within((low, high), FLUX):
            return Refusal(8, place)
        if not within(total, CROSS_SUM):
            return Refusal(8, place)
    return None


def check_record(state, record):
    """Check 9: seconds, tide and elapsed time, given and new, then the points."""
    seconds = LATER_SECONDS if state.accepted else FIRST_SECONDS
    if not (
        within(record.seconds, seconds)
        and within(record.tide, TIDE)
        and within(state.elapsed, ELAPSED)
        and within(state.elapsed + record.seconds, ELAPSED)
    ):
        return Refusal(9, 0)
    for place, (wind, angle, deficit) in enumerate(record.points, 1):
        if not (within(wind, WIND) and within(angle, ANGLE) and within(deficit, DEFICIT)):
            return Refusal(9, place)
    return None


def check_calms(record):
    """Check 18: "A wind of 0 must carry angle 0. It refuses the record otherwise (18)
    with the point, directly after check 9": all points by 9, then all by 18; in a
    first record too."""
    for place, (wind, angle, _) in enumerate(record.points, 1):
        if wind == 0 and angle != 0:
            return Refusal(18, place)
    return None


Segment = namedtuple(
    "Segment",
    "friction sine length depths level deficits seconds first flux old_sum new_sum onshore",
)


def work_segment(given, setup, formulas):
    """One segment's steps 1 to 4: its flux and setup range, or the number of
    the refusal. The old flux of a first record is nought and stays; it is not held.
    The limit goes by this record's sum alone, and 11 is judged on the held flux."""
    depth = formulas.depth_range(given.depths, given.level, given.deficits, setup)
    if not both_within(depth, WATER_DEPTH):
        return 10
    if given.first:
        flux = (0, 0)
    else:
        force = formulas.force_range(given.seconds, given.old_sum, given.new_sum)
        drag = given.friction * given.seconds
        speed = formulas.limiting_speed(given.friction, given.new_sum)
        flux = formulas.held_range(speed, given.flux, force, drag, depth)
    if not both_within(flux, FLUX):
        return 11
    gain = formulas.gain_range(given.length, given.sine, flux, given.onshore, depth)
    after = (setup[0] + gain[0], setup[1] + gain[1])
    if not both_within(after, SETUP):
        return 12
    return flux, after


def segments_of(traverse, state, rows, record):
    """What each segment is given, sea to shore."""
    latitude_sine = sine(traverse.latitude)
    crosses = [forcing.cross(wind, angle) for wind, angle, _ in record.points]
    onshores = [forcing.onshore(wind, angle) for wind, angle, _ in record.points]
    for i in range(len(traverse.points) - 1):
        (outer, outer_depth), (inner, inner_depth) = traverse.points[i : i + 2]
        row = rows[i] if state.accepted else FRESH
        yield Segment(
            friction=traverse.friction,
            sine=latitude_sine,
            length=outer - inner,
            depths=outer_depth + inner_depth,
            level=traverse.initial + record.tide,
            deficits=record.points[i][2] + record.points[i + 1][2],
            seconds=record.seconds,
            first=not state.accepted,
            flux=(row.low, row.high),
            old_sum=row.sum,
            new_sum=crosses[i] + crosses[i + 1],
            onshore=onshores[i] + onshores[i + 1],
        )


def take_record(
    traverse, state, rows, setup, record, formulas=Fractions, most=MOST_POINTS
):
    """A refusal, or the shore height's range with the new state. Writes rows
    and setup places only when the record is accepted."""
    refusal = (
        check_traverse(traverse, most)
        or check_lent(traverse, rows, setup, record)
        or check_record(state, record)
        or check_calms(record)
    )
    if refusal:
        return refusal
    after = (0, 0)
    new_rows = []
    new_setup = []
    for place, given in enumerate(segments_of(traverse, state, rows, record), 1):
        answer = work_segment(given, after, formulas)
        if isinstance(answer, int):
            return Refusal(answer, place)
        flux, after = answer
        new_rows.append(Row(flux[0], flux[1], given.new_sum))
        new_setup.extend(after)
    rows[:] = new_rows
    if len(setup) != 0:
        setup[:] = new_setup
    rise = 100 * (traverse.initial + record.tide) + 114 * record.points[-1][2]
    return Height(
        after[0] + rise, after[1] + rise, State(state.elapsed + record.seconds, True)
    )
