# Calms that have a direction, request Q-4 of document 02: check 18 from both sides,
# and such a calm beside every fault that is judged before or after it. As calls,
# where rows, places and state are lent, and as files.

from collections import namedtuple

from model import march

from .run import Run

POINTS = 5
# The order in which a record is checked; 10, 11 and 12 go by segment.
ORDER = 5, 6, 7, 8, 9, 18, 10, 11, 12
Fault = namedtuple("Fault", "number place change")


class Lent:
    """What a call that takes a record is lent; faults change it where it stands.
    The record is the run's last. A first one comes on rows that were made up too.
    Distances are `step` apart."""

    def __init__(self, later, places=0, count=POINTS, step=100):
        points = [[step * (count - 1 - i), 9000] for i in range(count)]
        field = [[500 + 100 * (i % 5), (300 + 700 * i) % 3600, 5 * (i % 60)] for i in range(count)]
        self.run = Run(300, 10, 0, points, [[4 if later else 0, -300] + field])
        self.state = march.State(1000, True) if later else march.State(0, False)
        self.rows = [march.Row(-7 * i, 900 * i, 1000 * i) for i in range(count - 1)]
        self.places = [1_111_111 * i for i in range(places)]

    def call(self):
        """What march.take_record is given, its lists fresh."""
        record = self.run.record_list()[-1]
        return self.run.traverse(), self.state, list(self.rows), list(self.places), record

    def outcome(self, **how):
        answer = march.take_record(*self.call(), **how)
        return tuple(answer) if isinstance(answer, march.Refusal) else None


def record_of(lent):
    return lent.run.records[-1]


# Changes. Places, rows and segments count from 1.


def point_to(place, *numbers):
    """Wind, angle and, where it is given, deficit of a point."""

    def change(lent):
        record_of(lent)[1 + place][: len(numbers)] = numbers

    return change


def number_to(holder, index, value):
    def change(lent):
        holder(lent)[index] = value

    return change


def row_to(place, *row):
    return number_to(lambda lent: lent.rows, place - 1, march.Row(*row))


def elapsed_to(elapsed):
    def change(lent):
        lent.state = lent.state._replace(elapsed=elapsed)

    return change


def resized(holder, change_list):
    return lambda lent: change_list(holder(lent))


def lent_rows(lent):
    return lent.rows


def lent_places(lent):
    return lent.places


def ends_to(place, depth, *numbers):
    """Depth and point of the record at both ends of a segment."""

    def change(lent):
        for end in (place, place + 1):
            lent.run.points[end - 1][1] = depth
            point_to(end, *numbers)(lent)

    return change


def strong_cross(place):
    """A flux by its limit, and a strong wind across at both ends."""

    def change(lent):
        row_to(place, 999_900, 1_000_000, march.CROSS_SUM[1])(lent)
        ends_to(place, 9000, 2000, 900)(lent)

    return change


# Faults: a calm's, those of a file, and those that calls alone bring about (11 has
# runs of its own among the files).


def calm_fault(place):
    return Fault(18, place, point_to(place, 0, (1, 900, 1800, 5, 3599)[place - 1]))


def traverse_faults():
    points = lambda lent: lent.run.points
    yield Fault(5, 1, resized(points, lambda p: p.__delitem__(slice(1, None))))
    yield Fault(6, 0, number_to(lambda lent: lent.run.head, 1, 51))
    yield Fault(6, 3, number_to(lambda lent: lent.run.points[2], 1, -1))
    yield Fault(7, 2, number_to(lambda lent: lent.run.points[1], 0, 100 * POINTS - 100))


def value_faults(later):
    """Check 9. At the calm's own point its wind or its angle is the fault, or the
    deficit beside them."""
    yield Fault(9, 0, number_to(record_of, 0, 3601 if later else 1))
    yield Fault(9, 0, number_to(record_of, 1, -2001))
    for place in range(1, POINTS + 1):
        for index, value in ((0, -1), (0, 2001), (1, -1), (1, 3600), (2, -1), (2, 301)):
            point = lambda lent, at=1 + place: record_of(lent)[at]
            yield Fault(9, place, number_to(point, index, value))


def segment_faults(places=range(1, POINTS)):
    """A segment without water, and one with too much setup, a calm at one end or
    none."""
    for place in places:
        yield Fault(10, place, ends_to(place, 0))
        yield Fault(12, place, ends_to(place, 45, 2000, 0))


def lent_faults(later):
    yield Fault(8, 0, resized(lent_rows, list.pop))
    yield Fault(8, 0, resized(lent_rows, lambda rows: rows.append(march.FRESH)))
    yield Fault(8, 0, resized(lent_places, lambda places: places.append(7)))
    yield Fault(8, 0, resized(record_of, list.pop))
    yield Fault(8, 0, resized(record_of, lambda record: record.append([0, 5, 0])))
    yield Fault(8, 1, row_to(1, 1, 0, 0))
    yield Fault(8, 4, row_to(4, 0, 0, march.CROSS_SUM[1] + 1))
    for elapsed in (-1, march.ELAPSED[1] + 1):
        yield Fault(9, 0, elapsed_to(elapsed))
    if later:
        yield Fault(9, 0, elapsed_to(march.ELAPSED[1]))
        for place in range(1, POINTS):
            yield Fault(11, place, strong_cross(place))


def before(one, other):
    """Whether the first of two faults is the one that is answered."""
    ranks = [(ORDER.index(fault.number), fault.place) for fault in (one, other)]
    return ranks[0] <= ranks[1]


def turn(fault):
    """Winds of a whole segment are set before the calm, a point's number after it."""
    return 0 if fault.number in (10, 11, 12) else 1 if fault.number == 18 else 2


def with_both(lent, one, other):
    for fault in sorted((one, other), key=turn):
        fault.change(lent)
    return lent


def pairs_with(others, later, places=0):
    """(lent, the fault that is answered, the calm's, the other): each calm beside
    each of these, and beside each later calm."""
    for place in range(1, POINTS + 1):
        calm = calm_fault(place)
        later_calms = [calm_fault(p) for p in range(place + 1, POINTS + 1)]
        for other in (*others, *later_calms):
            lent = with_both(Lent(later, places), calm, other)
            yield lent, calm if before(calm, other) else other, calm, other


def file_faults(later):
    return (*traverse_faults(), *value_faults(later), *segment_faults())


def call_pairs():
    for later in (False, True):
        for places in (0, 2 * POINTS - 2):
            yield from pairs_with((*file_faults(later), *lent_faults(later)), later, places)


# One point's wind and angle, and the refusal that they bring about, if any.
SIDES = (
    (0, 0, None), (0, 1, 18), (0, 3599, 18), (1, 0, None), (1, 1, None), (1, 3599, None),
    (0, -1, 9), (0, 3600, 9), (-1, 0, 9), (-1, 5, 9),
)  # fmt: skip


def side_calls():
    """(lent, the refusal or None): check 18 from both sides at every point."""
    for later in (False, True):
        for place in range(1, POINTS + 1):
            for wind, angle, number in SIDES:
                lent = Lent(later, 2 * POINTS - 2)
                point_to(place, wind, angle)(lent)
                yield lent, number and (number, place)
        lent = Lent(later)
        for place in range(1, POINTS + 1):
            point_to(place, 0, 0)(lent)
        yield lent, None


def calls():
    """What march.take_record is given, one call after the other."""
    for lent, *_ in (*side_calls(), *call_pairs()):
        yield lent.call()


# The same as files.


def run_of(lent):
    """The lent record as a run: behind a first one where it is a later one, which
    has water and hardly any wind."""
    run = lent.run.copy()
    if lent.state.accepted:
        run.records.insert(0, [0, 2000] + [[30, 400, 10] for _ in range(POINTS)])
    return run


def flux_runs(rng):
    """(run, place of the calm): flux grows until a segment is refused with 11, in a
    record with a calm at either end of the traverse that has a direction."""
    for calm in (1, 3):
        points = [[d, 9500] for d in (10, 5, 0)]
        way = rng.choice((900, 2700))
        run = Run(0, 10, 0, points, [[0, 0] + [[2000, way, 0] for _ in range(3)]])
        while run.outcome() is None:
            run.records.append([3600, 0] + [[2000, way, 0] for _ in range(3)])
        run.records[-1][1 + calm][:2] = [0, way]
        yield run, calm


def file_runs(rng):
    for lent, _ in side_calls():
        yield "calm", run_of(lent)
    for later in (False, True):
        for lent, *_ in pairs_with(file_faults(later), later):
            yield "calm and another fault", run_of(lent)
    for run, _ in flux_runs(rng):
        yield "calm and another fault", run
