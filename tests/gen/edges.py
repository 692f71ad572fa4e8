# Pairs of runs on both sides of the setup limit and of the flux limit, one
# unit of one wind apart, so that the range's end stands at the limit itself;
# pairs of which the limiting flux is past it in one; and runs whose listing
# needs the flux at v = 0.

from model import fast, program

from .run import Run
from .values import near_nought, outcome_with, split_at


def setup_try(rng, way):
    """A shallow segment that takes setup close to its limit, then a deep one
    whose shore wind adds a little in fine steps. It begins at 1: a wind of 0 with
    this angle would be refused with 18."""
    short = rng.randint(3, 6)
    first = rng.randint(20, 60)
    second = rng.randint(100, 112) - first
    points = [[100 + short, first], [short, second], [0, rng.randint(3500, 4500)]]
    winds = [rng.randint(1850, 2000), rng.randint(1850, 2000), 1]
    record = [0, rng.randint(-30, 30)] + [[w, way, 0] for w in winds]
    return Run(rng.randint(0, 900), 25, 0, points, [record])


def setup_edge(rng):
    way = rng.choice((0, 1800))
    while True:
        run = setup_try(rng, way)
        place = (run.records[0][4], 0)
        refusal = outcome_with(run, place, 2000)
        if run.outcome() is None and refusal is not None and refusal.number == 12:
            return split_at(run, place, 1, 2000)


def deep_record(seconds, wind, way):
    return [seconds, 0, [wind, way, 0], [wind, way, 0]]


def grown_run(rng, way):
    """Deep water under a strong cross wind until one more record is too much."""
    depth = rng.randint(9000, 9900)
    run = Run(rng.choice((0, 900)), 10, 0, [[5, depth], [0, depth]], [])
    run.records.append(deep_record(0, 2000, way))
    while run.outcome() is None:
        run.records.append(deep_record(3600, rng.randint(1950, 2000), way))
        if len(run.records) > 40:
            return None
    return run


def grown_to_limit(rng, way):
    """A run whose last record is as long as the flux limit lets it be."""
    while True:
        run = grown_run(rng, way)
        if run is not None:
            return split_at(run, (run.records[-1], 0), 1, 3600)[0]


def flux_edge(rng):
    """The outer point's wind alone lets the limiting flux be above 1,000,000, so that
    what stands at the limit is the flux before it is held."""
    way = rng.choice((900, 2700))
    while True:
        last = grown_to_limit(rng, way)
        last.records[-1][0] = max(1, last.records[-1][0] - rng.randint(13, 18))
        last.records.append(deep_record(20, 2000, way))
        place = (last.records[-1][3], 0)
        near, far = (outcome_with(last, place, wind) for wind in (1, 2000))
        if near is None and far is not None:
            return split_at(last, place, 1, 2000)


def held_edge(rng):
    """A flux that is past 1,000,000 before it is held: the limiting flux is at most that
    for the weaker of two winds, and past it for the stronger."""
    way = rng.choice((900, 2700))
    while True:
        last = grown_to_limit(rng, way)
        last.records.append(deep_record(rng.randint(60, 600), 1200, way))
        place = (last.records[-1][3], 0)
        near, far = (outcome_with(last, place, wind) for wind in (1000, 2000))
        if near is None and far is not None:
            return split_at(last, place, 1000, 2000)


class EndsOnly:
    """The mistaken flux that tries only the ends of v."""

    depth_range = staticmethod(fast.depth_range)
    force_range = staticmethod(fast.force_range)
    limiting_speed = staticmethod(fast.limiting_speed)
    gain_range = staticmethod(fast.gain_range)

    @staticmethod
    def held_range(speed, v, force, drag, depth):
        ends = [fast.held_range(speed, (a, a), force, drag, depth) for a in v]
        return min(low for low, _ in ends), max(high for _, high in ends)


def inner_extreme(rng):
    """A run in which v = 0, inside its range, gives an end of a flux."""
    while True:
        run = near_nought(rng)
        texts = run.traverse_text(), run.storm_text()
        if program.listing(*texts, EndsOnly) != program.listing(*texts, fast):
            return run
