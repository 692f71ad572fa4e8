# Tests of the model and of the generators: document 01's reference runs, the
# readings of its text, the exact march within every range, ranges against a
# dense sample of fractions, and the fast path against the fractions; document
# 02's storm maker, its decks, its calms, its harbour panel, its flux limit and its
# customer's table by numbers worked out by hand, and its coefficient by those that
# TM-35 prints.
#
#   python3 selftest.py        the last line is `N passed, M failed`

import collections
import contextlib
import copy
import itertools
import math
import os
import random
import subprocess
import sys
import time
import traceback
from fractions import Fraction
from types import SimpleNamespace
from unittest import mock

import calls
import deck_calls
import make_calls
import profile_calls
from gen import calms, cases, damage, decks, edges, held, hurricanes, panels, profiles, values
from model import deck, exact, fast, forcing, hurricane, march, profile, program, ranges, reader, refread
from model.sine import TABLE, cosine, sine


def same(got, want):
    if got != want:
        raise AssertionError("got %r, expected %r" % (got, want))


# Reference runs of document 01.


def test_reference_stress():
    same([forcing.stress(w) for w in (160, 161, 1000)], [281600, 285156, 28640000])


# TM-35's Table 1 (page 37): wind in tenths of a mile per hour (column 12) and
# k in 10^-8 (column 18), row by row. Two winds are not as our copy of the table
# has them, 101.0 and 99.1: the row's columns 16 and 17, W^2 by cosine and sine,
# are those of 102.0 and 96.1, and so is its k.
PRINTED_COEFFICIENTS = (
    (900, 279), (937, 282), (973, 285), (990, 286), (1005, 287), (1015, 287), (1020, 288), (1020, 288),
    (1020, 288), (1015, 287), (1005, 287), (998, 286), (992, 286), (961, 284), (902, 279),
)  # fmt: skip


def test_printed_coefficients():
    for wind, printed in PRINTED_COEFFICIENTS:
        same(round(10 * forcing.coefficient(wind)), printed)


def test_winds_of_printed_coefficients():
    """Angle and W^2 by cosine of the two rows: the nearest wind of one decimal."""
    for angle, cosine_part, wind in ((25, 9429, 1020), (58, 4894, 961)):
        miles = math.sqrt(cosine_part / math.cos(math.radians(angle)))
        same(round(10 * miles), wind)


def test_coefficient_times_square():
    """Document 02: no rest from 1 on, and the stress is document 01's from 0 on."""
    same(forcing.stress(0), 0)
    for wind in range(1, 2001):
        numerator, square = forcing.over_square(wind)
        same(divmod(numerator * wind**2, square), (forcing.stress(wind), 0))


def test_both_lines_at_critical_wind():
    """Equation 9a's second line at W_c gives what its first does."""
    same(forcing.coefficient(160), 11 + 25 * (1 - Fraction(160, 160)) ** 2)


def test_coefficient_sizes():
    """The readings' greatest numbers, both at 2,000."""
    numbers = [forcing.over_square(wind) for wind in range(1, 2001)]
    same(max(numbers), (128_640_000, 4_000_000))
    same(max(numerator * square for numerator, square in numbers), 514_560_000_000_000)


def test_wind_runs():
    """Their records are accepted, have every wind, and are compared in fractions."""
    runs = list(cases.wind_runs())
    same([run.outcome() for run in runs], [None] * len(runs))
    winds = {point[0] for run in runs for record in run.records for point in record[2:]}
    same(winds, set(range(2001)))
    same(max(len(run.storm_text()) for run in runs) < 12_000, True)


def test_reference_sine():
    same([sine(300), sine(2100), cosine(900)], [5000, -5000, 0])


def test_reference_force():
    for angle, want in ((900, (11089, 11090)), (2700, (-11090, -11089))):
        total = 2 * forcing.cross(1000, angle)
        same(forcing.force_range(1800, total, total), want)


def test_reference_flux():
    """Of the step before the limit."""
    still = ((1000, 1800, (689, 690)), (-1000, 1800, (-690, -689)), (2500, 1600, (1250, 1250)))
    for v, seconds, want in still:
        same(ranges.flux_range((v, v), (0, 0), 25 * seconds, (1000, 1000)), want)
    wide = ranges.flux_range((-1000, 1000), (100, 100), 25 * 1600, (100, 100))
    same(wide, (-22, 100))


def test_reference_gain():
    same(ranges.gain_range(10, 5000, (10000, 10000), 0, (5000, 5000)), (274, 275))
    onshore = 2 * forcing.onshore(1000, 0)
    same(ranges.gain_range(10, 5000, (0, 0), onshore, (5000, 5000)), (2325, 2326))


def test_reference_listing():
    run = cases.reference_run()
    got = program.listing(run.traverse_text(), run.storm_text())
    same(got, b"seconds low high\n0 2325 2326\n1600 7302 7303\n")


def calm_outcome(depths, tide, seconds=None):
    field = [[0, 0, 0], [0, 0, 0]]
    records = [[0, tide] + field]
    if seconds is not None:
        records.append([seconds, tide] + field)
    points = [[10, depths // 2], [0, depths - depths // 2]]
    return cases.Run(300, 25, 0, points, records).outcome()


def test_reference_edges():
    same(calm_outcome(20, 0), None)
    same(calm_outcome(20, -1), march.Refusal(10, 1))
    same(calm_outcome(20_000, 0), None)
    same(calm_outcome(20_000, 1), march.Refusal(10, 1))
    same(calm_outcome(1000, 0, 3600), None)
    same(calm_outcome(1000, 0, 3601), march.Refusal(9, 0))


def test_mistakes_of_the_trade():
    """The ends of v alone give 27 where 100 is right."""
    ends = [ranges.flux_value(v, 100, 25 * 1600, 100) for v in (-1000, 1000)]
    same(ranges.outward(min(ends), max(ends)), (-22, 27))


# The flux limit of document 02, request Q-6, by hand.

SUM = march.CROSS_SUM[1]
# Friction, sum, b. 225,000 times 25 is 5,625,000; 242 times 572,800,000,000, a wind of
# 1,000 across at both ends, is 24,643,128.9 times as much, between the squares of 4,964
# and 4,965. 242 times 9,297 is 2,249,874, and once more 2,250,116. At a b of 11 the two
# products are equal: 225,000 times 10 times 121 is 272,250,000, 242 times 1,125,000.
SPEEDS_BY_HAND = (
    (25, 572_800_000_000, 4964), (10, 9297, 0), (10, 9298, 1), (10, 1_124_999, 10), (10, 1_125_000, 11),
    (50, 5_624_999, 10), (50, 5_625_000, 11), (10, 0, 0), (50, 0, 0), (10, 1, 0), (50, 46_487, 0),
    (50, 46_488, 1), (10, SUM, 16_634), (50, SUM, 7439), (10, SUM - 1, 16_634),
)  # fmt: skip


def test_speeds_by_hand():
    for friction, total, want in SPEEDS_BY_HAND:
        got = [forcing.limiting_speed(friction, sign * total) for sign in (1, -1)]
        same((friction, total, got), (friction, total, [want, want]))


def searched_speed(friction, total):
    """The greatest whole number by the document's words, found by halving."""
    good, bad = 0, 20_000
    while bad - good > 1:
        middle = (good + bad) // 2
        if 225_000 * friction * middle**2 <= 242 * abs(total):
            good = middle
        else:
            bad = middle
    return good


def test_speeds_by_search():
    """Every threshold of three frictions and the ends of all, and any sum."""
    rng = random.Random(43)
    asked = list(held.sums())
    asked += [(rng.randint(10, 50), rng.randint(-SUM, SUM)) for _ in range(5000)]
    for friction, total in asked:
        same(forcing.limiting_speed(friction, total), searched_speed(friction, total))
    same([held.greatest(friction) for friction in (10, 25, 50)], [16_634, 10_520, 7439])
    # what a sum has just reached, the one beside it has not
    counted = 2 * (16_634 + 10_520 + 7439)
    for pair in zip(asked[:counted:2], asked[1:counted:2]):
        reached, missed = (searched_speed(*given) for given in pair)
        same(reached - missed, 1)


# Speed, v, F, drag, depth, the held range. In a depth of 1,000 a b of 4,964 has the limit
# 4,964 itself, in 1,001 it has 4,968.964. Document 01's wide case, whose step before the
# limit gives -22 to 100, is -21.95 at v = -1,000, 100 at 0 and 26.8 at 1,000, and a b of
# 500 has the limit 50 there, one of 501 has 50.1. From 100 to 200 of depth the least is
# -81.8, at v = -1,000 in 200. A b of 250 has the limits 25 and 50 there, one of 251 has
# 25.1 and 50.2. A b of 10,000 has 1,000 and 5,000 in 100 and 500. With no drag and no force
# the step before the limit is v itself.
HELD_BY_HAND = (
    (4964, (0, 0), (11_089, 11_090), 45_000, (1000, 1000), (4964, 4964)),
    (4964, (0, 0), (11_089, 11_090), 45_000, (1000, 1001), (4964, 4969)),
    (4964, (0, 0), (11_089, 11_090), 45_000, (1001, 1001), (4968, 4969)),
    (4964, (0, 0), (-11_090, -11_089), 45_000, (1001, 1001), (-4969, -4968)),
    (4964, (0, 0), (-11_090, -11_089), 45_000, (1000, 1001), (-4969, -4964)),
    (16_634, (1000, 1000), (0, 0), 45_000, (1000, 1000), (689, 690)),
    (500, (-1000, 1000), (100, 100), 40_000, (100, 100), (-22, 50)),
    (501, (-1000, 1000), (100, 100), 40_000, (100, 100), (-22, 51)),
    (1000, (-1000, 1000), (100, 100), 40_000, (100, 100), (-22, 100)),
    (100, (-1000, 1000), (100, 100), 40_000, (100, 100), (-10, 10)),
    (1, (-1000, 1000), (100, 100), 40_000, (100, 100), (-1, 1)),
    (0, (-1000, 1000), (100, 100), 40_000, (100, 100), (0, 0)),
    (500, (-1000, 1000), (100, 100), 40_000, (100, 200), (-82, 100)),
    (250, (-1000, 1000), (100, 100), 40_000, (100, 200), (-50, 50)),
    (251, (-1000, 1000), (100, 100), 40_000, (100, 200), (-51, 51)),
    (251, (20_000, 20_000), (100, 100), 0, (100, 200), (25, 51)),
    (251, (-20_000, -20_000), (100, 100), 0, (100, 200), (-51, -25)),
    (10_000, (10_000, 20_000), (0, 0), 0, (100, 500), (1000, 5000)),
    (10_000, (-20_000, 20_000), (0, 0), 0, (100, 500), (-5000, 5000)),
    (10_000, (1500, 1500), (0, 0), 0, (100, 500), (1000, 1500)),
    (10_000, (-1500, 700), (0, 0), 0, (100, 500), (-1500, 700)),
    (16_634, (1_000_000, 1_000_000), (0, 0), 0, (60_117, 60_117), (999_986, 999_987)),
    (16_634, (1_000_000, 1_000_000), (0, 0), 0, (60_118, 60_118), (1_000_000, 1_000_000)),
)  # fmt: skip


def test_held_by_hand():
    for *given, want in HELD_BY_HAND:
        same((given, ranges.held_range(*given)), (given, want))
        same((given, fast.held_range(*given)), (given, want))
        speed, v, force, drag, depth = given
        turned = [tuple(-end for end in reversed(pair)) for pair in (v, force, want)]
        same((given, ranges.held_range(speed, *turned[:2], drag, depth)), (given, turned[2]))


# Sine, limits named by document 01.


def test_table():
    same((len(TABLE), TABLE[0], TABLE[300], TABLE[900]), (901, 0, 5000, 10000))
    for n, value in enumerate(TABLE):
        assert abs(value - 10000 * math.sin(math.radians(n / 10))) < 0.5001, n


def test_quadrants():
    for angle in range(3600):
        same(sine(angle), -sine((angle + 1800) % 3600))
        same(sine(angle), sine((5400 - angle) % 3600))
        assert abs(cosine(angle) - 10000 * math.cos(math.radians(angle / 10))) < 0.5001


def test_sum_limit():
    same(2 * forcing.cross(2000, 900), march.CROSS_SUM[1])


# Ranges: outward against a sample of fractions, and the fast path.


def fraction_in(rng, pair):
    low, high = pair
    kind = rng.random()
    if kind < 0.2:
        return Fraction(rng.choice(pair))
    if kind < 0.3 and low <= 0 <= high:
        return Fraction(rng.randint(-1, 1), rng.randint(1, 9)) if low < 0 < high else Fraction(0)
    size = rng.randint(1, 1000)
    return low + Fraction(rng.randint(0, size * (high - low)), size)


def judge_sample(value, draw, got, corners):
    """Within for every choice; each end less than one unit beyond a corner."""
    low, high = got
    assert min(corners) < low + 1 and max(corners) > high - 1
    for _ in range(20):
        chosen = value(*draw())
        assert low <= chosen <= high, (got, chosen)


def test_flux_outward():
    rng = random.Random(11)
    for _ in range(1500):
        v, force = calls.range_in(rng, march.FLUX), calls.range_in(rng, (-99620, 99620))
        depth = calls.range_in(rng, march.WATER_DEPTH)
        drag = rng.randint(10, 50) * rng.choice((1, 60, 3600))
        judge_sample(
            lambda a, f, d: ranges.flux_value(a, f, drag, d),
            lambda: (fraction_in(rng, v), fraction_in(rng, force), fraction_in(rng, depth)),
            ranges.flux_range(v, force, drag, depth),
            ranges.flux_corners(v, force, drag, depth),
        )


def test_held_outward():
    rng = random.Random(44)
    for speed, v, force, drag, depth in itertools.islice(held.choices(rng), 900):
        judge_sample(
            lambda a, f, d: ranges.held_value(speed, a, f, drag, d),
            lambda: (fraction_in(rng, v), fraction_in(rng, force), fraction_in(rng, depth)),
            ranges.held_range(speed, v, force, drag, depth),
            ranges.held_corners(speed, v, force, drag, depth),
        )


def test_gain_outward():
    rng = random.Random(12)
    for _ in range(1500):
        v, depth = calls.range_in(rng, march.FLUX), calls.range_in(rng, march.WATER_DEPTH)
        given = rng.randint(1, 100), sine(rng.randint(0, 900))
        onshore = calls.number_in(rng, march.CROSS_SUM)
        judge_sample(
            lambda a, d: ranges.gain_value(*given, a, onshore, d),
            lambda: (fraction_in(rng, v), fraction_in(rng, depth)),
            ranges.gain_range(*given, v, onshore, depth),
            ranges.gain_corners(*given, v, onshore, depth),
        )


def test_equal_ends():
    """Two ends are equal exactly where all corners are that whole number."""
    rng = random.Random(13)
    equal = 0
    for _ in range(4000):
        v, force = calls.range_in(rng, (-30, 30)), calls.range_in(rng, (-30, 30))
        depth = calls.range_in(rng, (100, 130))
        drag = rng.choice((10, 50_000, 180_000))
        low, high = ranges.flux_range(v, force, drag, depth)
        corners = set(ranges.flux_corners(v, force, drag, depth))
        same(low == high, corners == {Fraction(low)})
        equal += low == high
    assert equal > 20, equal


def test_held_equal_ends():
    """The same of the held flux: where the limit is one whole number over all choices, and
    where it does not bind."""
    rng = random.Random(45)
    equal = collections.Counter()
    for k in range(6000):
        v, force = calls.range_in(rng, (-30, 30)), calls.range_in(rng, (-30, 30))
        depth = calls.range_in(rng, (100, 130)) if k % 3 else (1000, 1000)
        speed, drag = rng.choice((0, 3, 17, 200, 16_634)), rng.choice((10, 50_000, 180_000))
        low, high = ranges.held_range(speed, v, force, drag, depth)
        corners = set(ranges.held_corners(speed, v, force, drag, depth))
        same(low == high, corners == {Fraction(low)})
        equal[any(held.binding(speed, v, force, drag, depth))] += low == high
    assert min(equal.values()) > 20 and len(equal) == 2, equal


def test_floor_and_ceil():
    for n in range(-40, 41):
        for d in range(1, 9):
            low, high = ranges.floor(Fraction(n, d)), ranges.ceil(Fraction(n, d))
            assert low * d <= n < (low + 1) * d and (high - 1) * d < n <= high * d
            same(fast.outward_div(n, n, d), (low, high))


def test_fast_formulas():
    rng = random.Random(14)
    for _ in range(20_000):
        v, force = calls.range_in(rng, march.FLUX), calls.range_in(rng, (-99620, 99620))
        depth, total = calls.range_in(rng, march.WATER_DEPTH), calls.number_in(rng, march.CROSS_SUM)
        drag = rng.randint(10, 50) * rng.randint(1, 3600)
        given = v, force, drag, depth
        same(fast.flux_range(*given), ranges.flux_range(*given))
        speed = calls.number_in(rng, calls.SPEED)
        same(fast.held_range(speed, *given), ranges.held_range(speed, *given))
        same(fast.limiting_speed(10, total), forcing.limiting_speed(10, total))
        gain = rng.randint(1, 100), sine(rng.randint(0, 900)), v, total, depth
        same(fast.gain_range(*gain), ranges.gain_range(*gain))
        sums = rng.randint(1, 3600), total, rng.randint(*march.CROSS_SUM)
        same(fast.force_range(*sums), forcing.force_range(*sums))
        water = rng.randint(0, 20_000), rng.randint(-3000, 3000), rng.randint(0, 600)
        setup = calls.range_in(rng, march.SETUP)
        same(fast.depth_range(*water, setup), ranges.depth_range(*water, setup))


def test_fast_held():
    for given in itertools.islice(held.choices(random.Random(46)), 2400):
        same(fast.held_range(*given), ranges.held_range(*given))


def test_fast_listings():
    rng = random.Random(15)
    for _ in range(400):
        run = values.sound(rng)
        texts = run.traverse_text(), run.storm_text()
        same(program.listing(*texts, fast), program.listing(*texts))


# The exact march.


def within(value, pair):
    return pair[0] <= value <= pair[1]


def judge_exact(told, rows, places, answer):
    for k, row in enumerate(rows):
        assert within(told.flux[k], (row.low, row.high))
        assert within(told.setup[k], places[2 * k : 2 * k + 2])
        assert within(told.depth[k], march.WATER_DEPTH)
    assert within(told.height, (answer.low, answer.high))


def march_beside(rng, run, limit):
    """Marches ranges and exact fractions side by side; accepted records."""
    traverse = run.traverse()
    state = march.open_traverse(traverse)
    rows, unrounded = march.fresh_rows(traverse), exact.ExactMarch(traverse)
    accepted = 0
    for record in run.record_list()[:limit]:
        if rng.random() < 0.2:
            record = record._replace(tide=2001)
        places = [7] * (2 * len(rows))
        before = list(rows), list(places), state
        answer = march.take_record(traverse, state, rows, places, record)
        refused = isinstance(answer, march.Refusal)
        told = unrounded.take(record, not refused)
        if refused:
            same((rows, places, state), before)
            continue
        state = answer.state
        accepted += 1
        judge_exact(told, rows, places, answer)
    return accepted


def test_exact_within():
    rng = random.Random(16)
    accepted = later = 0
    for _ in range(400):
        segments, records = rng.choice(((1, 6), (2, 4), (3, 3), (5, 2)))
        style = rng.choice((values.ordinary, values.extreme, values.shallow_water, values.turning_cross))
        count = march_beside(rng, style(rng, segments, records), records)
        accepted += count
        later += max(0, count - 1)
    for _ in range(30):
        later += march_beside(rng, values.deep_water(rng, 1, 6), 6)
    assert accepted > 500 and later > 300, (accepted, later)


# Taking a record: places and orders, and nothing touched where refused.


def field(count, wind=500, angle=300, deficit=10):
    return tuple((wind, angle, deficit) for _ in range(count))


TRAVERSE = march.Traverse(300, 25, 0, ((30, 900), (20, 700), (10, 500), (0, 400)))


def refusal_of(
    traverse=TRAVERSE, state=march.State(0, True), rows=None, places=(), record=None, **how
):
    rows = march.fresh_rows(TRAVERSE) if rows is None else list(rows)
    places = list(places)
    record = record or march.Record(600, 0, field(4))
    kept = list(rows), list(places)
    answer = march.take_record(traverse, state, rows, places, record, **how)
    if isinstance(answer, march.Refusal):
        same((rows, places), kept)
        return tuple(answer)
    return None


def with_distances(*distances):
    points = tuple((d, 500) for d in distances)
    return TRAVERSE._replace(points=points)


def test_traverse_checks():
    for count in (0, 1, 66, 70_000):
        same(refusal_of(TRAVERSE._replace(points=range(count))), (5, count))
    same(refusal_of(TRAVERSE._replace(latitude=901)), (6, 0))
    same(refusal_of(TRAVERSE._replace(friction=9)), (6, 0))
    same(refusal_of(with_distances(30, 20, 6401, -1)), (6, 3))
    same(refusal_of(with_distances(30, 30, 20, -1)), (6, 4))
    same(refusal_of(with_distances(30, 30, 20, 0)), (7, 2))
    same(refusal_of(with_distances(221, 120, 20, 0)), (7, 2))
    same(refusal_of(with_distances(220, 120, 20, 0)), None)
    same(refusal_of(with_distances(40, 30, 20, 1)), (7, 4))
    same(refusal_of(with_distances(40, 30, 31, 1)), (7, 3))


def test_lent_checks():
    fresh = march.FRESH
    same(refusal_of(rows=[fresh] * 2), (8, 0))
    same(refusal_of(rows=[fresh] * 4), (8, 0))
    same(refusal_of(record=march.Record(9999, 0, field(3))), (8, 0))
    for size in (1, 3, 5, 7, 12):
        same(refusal_of(places=[5] * size), (8, 0))
    same(refusal_of(places=[5] * 6), None)
    bad = march.Row(1, 0, 0), march.Row(0, 0, march.CROSS_SUM[1] + 1), march.Row(-1000001, 0, 0)
    for row in bad:
        same(refusal_of(rows=[fresh, row, bad[0]]), (8, 2))
        same(refusal_of(rows=[fresh, row, bad[0]], state=march.State(0, False)), (8, 2))
    same(refusal_of(rows=[bad[0], fresh, fresh], places=[5]), (8, 0))


def test_record_checks():
    first = march.State(0, False)
    same(refusal_of(state=first), (9, 0))
    same(refusal_of(state=first, record=march.Record(0, 0, field(4))), None)
    same(refusal_of(record=march.Record(0, 0, field(4))), (9, 0))
    same(refusal_of(record=march.Record(600, 2001, field(4, 2001))), (9, 0))
    same(refusal_of(record=march.Record(600, 2000, field(3) + field(1, 2001))), (9, 4))
    same(refusal_of(state=march.State(10**9 - 600, True)), None)
    same(refusal_of(state=march.State(10**9 - 599, True)), (9, 0))


def calm_at(place, angle=5, other=(500, 300, 10)):
    """Four points, of which one is calm."""
    return tuple((0, angle, 10) if k == place else other for k in range(1, 5))


def test_calm_checks():
    """Check 18 by hand: its place, and that it comes between 9 and the march."""
    for state, seconds in ((march.State(0, False), 0), (march.State(600, True), 600)):

        def told(points, **changes):
            return refusal_of(state=state, record=march.Record(seconds, 0, points), **changes)

        for place in (1, 2, 3, 4):
            same(told(calm_at(place, 0)), None)
            same([told(calm_at(place, angle)) for angle in (1, 3599)], [(18, place)] * 2)
            same([told(calm_at(place, angle)) for angle in (-1, 3600)], [(9, place)] * 2)
        same([told(field(4, 0, angle)) for angle in (0, 1)], [None, (18, 1)])
        same([told(field(4, 1, angle)) for angle in (0, 1, 3599)], [None] * 3)
        same([told(field(4, -1, angle)) for angle in (0, 5)], [(9, 1)] * 2)
        # two calms, and a 9 before, at and after a calm
        same(told(calm_at(1)[:2] + calm_at(4)[2:]), (18, 1))
        same(told(calm_at(1)[:3] + field(1, deficit=301)), (9, 4))
        same(told(field(1, angle=3600) + calm_at(3)[1:]), (9, 1))
        same(told(((0, 5, 301),) + field(3)), (9, 1))
        # a segment without water, and rows and places that are not as they have to be
        dry = TRAVERSE._replace(points=((30, 0), (20, 0), (10, 500), (0, 400)))
        same([told(calm_at(4, angle), traverse=dry) for angle in (0, 5)], [(10, 1), (18, 4)])
        same(told(calm_at(1), rows=[march.Row(1, 0, 0)] * 3), (8, 1))
        same(told(calm_at(1), places=[5]), (8, 0))
        same(told(calm_at(1), rows=[march.Row(-5, 5, 5)] * 3, places=[5] * 6), (18, 1))
    same(refusal_of(record=march.Record(3601, 0, calm_at(1))), (9, 0))
    same(refusal_of(record=march.Record(600, -2001, calm_at(1))), (9, 0))
    same(refusal_of(record=march.Record(600, 0, calm_at(1)), state=march.State(10**9, True)), (9, 0))


def test_calm_sides():
    for lent, want in calms.side_calls():
        same((calms.record_of(lent), lent.outcome()), (calms.record_of(lent), want))


def test_calm_pairs():
    """The first of two faults is answered, and the other one is there as well: it is
    answered where the calm has no direction."""
    met = set()
    for lent, first, calm, other in calms.call_pairs():
        same(lent.outcome(), (first.number, first.place))
        met.add((lent.state.accepted, other.number, calm.place < other.place))
        record = calms.record_of(lent)
        if other.number not in (9, 18) and len(record) > 1 + calm.place:
            record[1 + calm.place][1] = 0
            same(lent.outcome(), (other.number, other.place))
    for later in (False, True):
        numbers = {number for state, number, _ in met if state == later}
        same(numbers, set(calms.ORDER) - (set() if later else {11}))
        segments = {n for state, n, after in met if state == later and not after}
        same(segments >= {9, 10, 12}, True)


def test_calm_files():
    """The same through files; what goes before the record is accepted."""
    rng = random.Random(28)
    numbers = []
    for _, run in calms.file_runs(rng):
        numbers.append((run.outcome() or (0,))[0])
        texts = run.traverse_text(), run.storm_text()
        same(program.listing(*texts, fast), program.listing(*texts))
    same(set(numbers), {0, 5, 6, 7, 9, 18})
    for run, calm in calms.flux_runs(rng):
        same(tuple(run.outcome()), (18, calm))
        run.records[-1][1 + calm][1] = 0
        same(run.outcome().number, 11)


def test_first_record_is_fresh():
    """A first record works as if all rows were fresh, and fills them."""
    record = march.Record(0, 10, field(4, 900, 1000))
    odd = [march.Row(-5, 900_000, 7)] * 3
    fresh = march.fresh_rows(TRAVERSE)
    answers = []
    for rows in (odd, fresh):
        places = [1] * 6
        answer = march.take_record(TRAVERSE, march.State(0, False), rows, places, record)
        answers.append((answer, list(rows), places))
    same(*answers)
    total = 2 * forcing.cross(900, 1000)
    same(fresh, [march.Row(0, 0, total)] * 3)


# Mistakes in check 18: what each does in place of check 9 or 18, or of the march.


def points_one_by_one(state, record, right=march.check_record):
    """9 and 18 of a point before the next point."""
    for place in range(1, len(record.points) + 1):
        some = record._replace(points=record.points[:place])
        refusal = right(state, some) or march.check_calms(some)
        if refusal:
            return refusal
    return None


def calms_first(state, record, right=march.check_record):
    return march.check_calms(record) or right(state, record)


def calms_before_rows(*lent, right=march.check_lent):
    return march.check_calms(lent[3]) or right(*lent)


def first_record_free(record, right=march.check_calms):
    """Calms of a first record, whose seconds are 0, not looked at."""
    return right(record) if record.seconds else None


def last_calm(record, right=march.check_calms):
    alone = [record._replace(points=(point,)) for point in record.points]
    found = [k for k, point in enumerate(alone, 1) if right(point)]
    return march.Refusal(18, found[-1]) if found else None


def calms_where(has_fault, shift=0):
    def mistake(record):
        found = [k for k, point in enumerate(record.points, 1) if has_fault(*point)]
        return march.Refusal(18, found[0] + shift) if found else None

    return mistake


def all_but_the(part):
    """Some points not looked at."""

    def mistake(record, right=march.check_calms):
        return right(record._replace(points=part(record.points)))

    return mistake


def march_first(traverse, state, rows, setup, record, *formulas, right=march.take_record):
    """18 behind 10, 11 and 12."""
    with mock.patch.object(march, "check_calms", lambda record: None):
        answer = right(traverse, state, list(rows), list(setup), record, *formulas)
    if isinstance(answer, march.Refusal):
        return answer
    return right(traverse, state, rows, setup, record, *formulas)


CALM_MISTAKES = (
    ("no check", "check_calms", lambda record: None),
    ("a point's 9 and 18 together", "check_record", points_one_by_one),
    ("18 before 9", "check_record", calms_first),
    ("18 before 8", "check_lent", calms_before_rows),
    ("18 after the march", "take_record", march_first),
    ("in later records alone", "check_calms", first_record_free),
    ("the last calm", "check_calms", last_calm),
    ("the shore point left out", "check_calms", all_but_the(lambda points: points[:-1])),
    ("the first point alone", "check_calms", all_but_the(lambda points: points[:1])),
    ("points from 0", "check_calms", calms_where(lambda w, a, d: w == 0 and a != 0, -1)),
    ("a wind of 1 too", "check_calms", calms_where(lambda w, a, d: w <= 1 and a != 0)),
    ("an angle of 1 passes", "check_calms", calms_where(lambda w, a, d: w == 0 and a > 1)),
    ("every calm", "check_calms", calms_where(lambda w, a, d: w == 0)),
    ("a wind without an angle", "check_calms", calms_where(lambda w, a, d: w != 0 and a == 0)),
)


def calm_outcomes():
    found = [lent.outcome() for lent, *_ in (*calms.side_calls(), *calms.call_pairs())]
    return found, [run.outcome() for _, run in calms.file_runs(random.Random(30))]


def one_fails(*tests):
    """Whether one of these tests fails."""
    for test in tests:
        try:
            test()
        except AssertionError:
            return True
    return False


def test_calm_mistakes_are_noticed():
    right = calm_outcomes()
    for label, name, mistake in CALM_MISTAKES:
        with mock.patch.object(march, name, mistake):
            wrong = calm_outcomes()
            by_hand = one_fails(test_calm_checks)
        noticed = [sum(a != b for a, b in zip(*both)) for both in zip(wrong, right)]
        shown = (label, noticed[0], len(right[0]), noticed[1], len(right[1]))
        print("  %-28s noticed in %4d of %d calls, %3d of %d files" % shown)
        assert by_hand and noticed[0] > 1 and (noticed[1] > 1 or name == "check_lent"), label


# The harbour panel of document 02, request Q-5.

PANEL = march.PANEL_MOST_POINTS
LIMITS = march.MOST_POINTS, PANEL
COUNTS_BY_HAND = {0: 5, 1: 5, 2: None, 3: None, 16: None, 17: None, 18: 19, 19: 19, 33: 19}
COUNTS_BY_HAND.update({64: 19, 65: 19, 66: 5, 67: 5, 256 + 17: 5, 70_000: 5})


def even_traverse(count):
    points = ((count - 1 - i, 500) for i in range(count)) if count < 100 else range(count)
    return TRAVERSE._replace(points=tuple(points))


def answers_to(count, most, traverse=None, **lent):
    """What opening and taking a record answer, all being sound that is not given."""
    traverse = traverse or even_traverse(count)
    lent.setdefault("rows", march.fresh_rows(traverse))
    lent.setdefault("record", march.Record(600, 0, field(count)))
    opened = march.open_traverse(traverse, most)
    opened = tuple(opened) if isinstance(opened, march.Refusal) else None
    return opened, refusal_of(traverse, most=most, **lent)


def test_panel_counts():
    """Both limits and the place by hand; our own program knows no 19."""
    for count, number in COUNTS_BY_HAND.items():
        panel = number and (number, count)
        own = panel if number == 5 else None
        same((count, answers_to(count, PANEL)), (count, (panel, panel)))
        same((count, answers_to(count, march.MOST_POINTS)), (count, (own, own)))
        for places in ([5] * 2 * max(0, count - 1), [5]):
            told = answers_to(count, PANEL, state=march.State(0, False), places=places)[1]
            same((count, told), (count, panel or ((8, 0) if places == [5] else (9, 0))))


def with_point(traverse, place, *point):
    points = list(traverse.points)
    points[place - 1] = point
    return traverse._replace(points=tuple(points))


def faults_by_hand(count):
    """(the refusal, what is given), one fault each."""
    even, fresh = even_traverse(count), [march.FRESH] * (count - 1)
    yield (6, 0), {"traverse": even._replace(latitude=901)}
    yield (6, 0), {"traverse": even._replace(friction=9)}
    yield (6, 0), {"traverse": even._replace(initial=-1001)}
    yield (6, 1), {"traverse": with_point(even, 1, 6401, 500)}
    yield (6, 17), {"traverse": with_point(even, 17, count - 17, -1)}
    yield (6, count), {"traverse": with_point(even, count, 0, 10_001)}
    yield (7, 2), {"traverse": with_point(even, 2, count - 1, 500)}
    yield (7, 17), {"traverse": with_point(even, 17, count - 16, 500)}
    yield (7, count), {"traverse": with_point(even, count, 1, 500)}
    yield (8, 0), {"rows": fresh[1:]}
    yield (8, 0), {"rows": fresh * 2}
    yield (8, 0), {"places": [5] * (count - 1)}
    yield (8, 0), {"record": march.Record(600, 0, field(count - 1))}
    yield (8, 1), {"rows": [march.Row(1, 0, 0)] + fresh[1:]}
    yield (8, count - 1), {"rows": fresh[1:] + [march.Row(0, 0, march.CROSS_SUM[1] + 1)]}
    yield (9, 0), {"record": march.Record(0, 0, field(count))}
    yield (9, 0), {"state": march.State(10**9, True)}
    yield (9, count), {"record": march.Record(600, 0, field(count - 1) + field(1, 2001))}
    yield (18, 1), {"record": march.Record(600, 0, field(1, 0) + field(count - 1))}
    dry = with_point(with_point(even, 1, count - 1, 0), 2, count - 2, 0)
    yield (10, 1), {"traverse": dry}


def test_panel_order():
    """5 before 19, and 19 before every other, by hand."""
    for count, panel in ((17, None), (18, (19, 18)), (64, (19, 64)), (65, (19, 65)), (66, (5, 66))):
        for fault, given in faults_by_hand(count):
            own = panel if count == 66 else fault
            for most, want in ((march.MOST_POINTS, own), (PANEL, panel or fault)):
                opened = want if want[0] in (5, 19, 6, 7) else None
                got = answers_to(count, most, **given)
                same((count, most, fault, got), (count, most, fault, (opened, want)))


def test_panel_pairs():
    """The same of the generated faults, with 11 and 12; all are met at each count."""
    met = set()
    for lent, count, fault in panels.faulty_calls():
        told = fault.number, fault.place
        own = (5, count) if count > 65 else told
        panel = (19, count) if panels.too_long(count) else own
        got = [lent.outcome(most=most, formulas=fast) for most in LIMITS]
        same((count, told, got), (count, told, [own, panel]))
        met.add((count, fault.number, lent.state.accepted, len(lent.places) > 1))
    numbers = set(calms.ORDER) - {5}
    wanted = set(itertools.product((17, 18, 65, 66), numbers, (False, True), (False, True)))
    same(wanted - met, {w for w in wanted if w[1] == 11 and not w[2]})


def told_and_left(call, most=march.MOST_POINTS, formulas=fast):
    """The answer of a call that takes a record, and what it leaves."""
    traverse, state, rows, places, record = map(copy.copy, call)
    return march.take_record(traverse, state, rows, places, record, formulas, most), rows, places


def test_panel_calls():
    """Of what the panel takes, both pairs leave the same; each count is met four times."""
    counts = []
    for call in panels.counted_calls():
        count = len(call[0].points)
        counts.append(count)
        own, panel = (told_and_left(call, most) for most in LIMITS)
        sound = march.within(count, march.POINTS)
        want = march.Refusal(19 if sound else 5, count)
        same((own[0] == want, panel[0] == want), (not sound, not 2 <= count <= PANEL))
        same(panel == own, not panels.too_long(count))
    same([counts.count(count) for count in range(71)], [4] * 71)


def test_panel_storms():
    """The lists have 2, 16 and 17 points, most are accepted to their end; random
    storms have as many as each limit, and one off it."""
    runs = list(panels.list_runs())
    same({len(run.points) for run in runs}, {2, 16, 17})
    assert [run.outcome() for run in runs].count(None) >= len(runs) // 2
    rng = random.Random(32)
    counts = {len(panels.storm_run(rng).points) for _ in range(200)}
    same(counts >= {2, 16, 17, 18, 64, 65}, True)


# Mistakes in check 19: what each does in place of the checks of a traverse, or of one
# of the two calls. Where the most points are our own program's, there is no panel.


def on_panel(most):
    return most < march.MOST_POINTS


def panel_after(number):
    """19 behind the traverse's check of that number. Before 5, it is told of more
    than 65 points too."""

    def mistake(traverse, most=march.MOST_POINTS, right=march.check_traverse):
        refusal = right(traverse)
        if refusal and refusal.number <= number:
            return refusal
        if on_panel(most) and len(traverse.points) > most:
            return march.Refusal(19, len(traverse.points))
        return refusal

    return mistake


def panel_where(refused, number=19, place=lambda count: count):
    """Other counts of points refused, or another number or place."""

    def mistake(traverse, most=march.MOST_POINTS, right=march.check_traverse):
        count = len(traverse.points)
        if on_panel(most) and refused(count):
            return march.Refusal(number, place(count))
        return right(traverse)

    return mistake


def panel_behind(number):
    """19 of a record behind the record's check of that number."""

    def mistake(
        traverse, state, rows, setup, record, formulas=march.Fractions, most=march.MOST_POINTS,
        right=march.take_record,
    ):  # fmt: skip
        own = right(*map(copy.copy, (traverse, state, rows, setup, record)), formulas)
        if isinstance(own, march.Refusal) and calms.before(own, march.Refusal(number, 99)):
            return own
        return right(traverse, state, rows, setup, record, formulas, most)

    return mistake


def program_too(traverse, most=march.MOST_POINTS, right=march.check_traverse):
    return right(traverse, PANEL)


def opens_any(traverse, most=march.MOST_POINTS, right=march.open_traverse):
    return right(traverse)


def takes_any(*lent, most=march.MOST_POINTS, right=march.take_record):
    return right(*lent[:6])


PANEL_MISTAKES = (
    ("no check", "check_traverse", panel_where(lambda count: False)),
    ("before 5, past 65 points too", "check_traverse", panel_after(4)),
    ("fewer than 2 points too", "check_traverse", panel_where(lambda n: n < 2 or panels.too_long(n))),
    ("after 6", "check_traverse", panel_after(6)),
    ("after 7", "check_traverse", panel_after(7)),
    ("a record's after 8", "take_record", panel_behind(8)),
    ("a record's after 9", "take_record", panel_behind(9)),
    ("a record's after 18", "take_record", panel_behind(18)),
    ("a record's after the march", "take_record", panel_behind(12)),
    ("17 points refused", "check_traverse", panel_where(lambda n: 17 <= n <= 65)),
    ("18 points accepted", "check_traverse", panel_where(lambda n: 19 <= n <= 65)),
    ("18 points alone refused", "check_traverse", panel_where(lambda n: n == 18)),
    ("65 points accepted", "check_traverse", panel_where(lambda n: 18 <= n <= 64)),
    ("place 17", "check_traverse", panel_where(panels.too_long, place=lambda n: 17)),
    ("place 18", "check_traverse", panel_where(panels.too_long, place=lambda n: 18)),
    ("place 0", "check_traverse", panel_where(panels.too_long, place=lambda n: 0)),
    ("place: segments", "check_traverse", panel_where(panels.too_long, place=lambda n: n - 1)),
    ("place: points too many", "check_traverse", panel_where(panels.too_long, place=lambda n: n - 17)),
    ("5 in place of 19", "check_traverse", panel_where(panels.too_long, number=5)),
    ("in opening alone", "take_record", takes_any),
    ("in taking a record alone", "open_traverse", opens_any),
    ("by our own program too", "check_traverse", program_too),
)


def panel_outcomes(traverses, asked):
    """What both pairs of calls answer."""
    opened = [march.open_traverse(traverse, most) for traverse in traverses for most in LIMITS]
    return opened, [told_and_left(call, most)[0] for call in asked for most in LIMITS]


def test_panel_mistakes_are_noticed():
    given = list(panels.traverses()), list(panels.calls())
    right = panel_outcomes(*given)
    for label, name, mistake in PANEL_MISTAKES:
        with mock.patch.object(march, name, mistake):
            wrong = panel_outcomes(*given)
            by_hand = one_fails(test_panel_counts, test_panel_order)
        noticed = [sum(a != b for a, b in zip(*both)) for both in zip(wrong, right)]
        shown = (label, noticed[0], len(right[0]), noticed[1], len(right[1]))
        print("  %-30s noticed in %3d of %d openings, %4d of %d records" % shown)
        assert by_hand, label
        assert (noticed[0] > 1) == (name != "take_record"), label
        assert (noticed[1] > 1) == (name != "open_traverse"), label


def test_pairs_are_compared():
    """calls.py asks nothing that the pairs would answer differently."""
    asked = calls.panel_openings, calls.panel_calls, calls.panel_lists
    with mock.patch.object(march, "check_traverse", panel_where(lambda n: 17 <= n <= 65)):
        same([one_fails(lambda: list(requests())) for requests in asked], [True] * 3)


# Text, by hand from the readings of document 01.

HEAD = b"latitude friction initial\n300 25 0\ndistance depth\n"
GOOD = HEAD + b"10 500\n0 500\n"
STORM = b"seconds tide wind angle deficit\n"
CALM = b"0 0 0 0 0\n"
NAMES = b"seconds low high\n"

TRAVERSE_TEXTS = (
    (None, b"refused 1 1\n"),
    (b"", b"refused 1 1\n"),
    (b"\n", b"refused 1 1\n"),
    (b"latitude friction initial", b"refused 1 1\n"),
    (b"latitude friction initial\n", b"refused 3 1\n"),
    (b"latitude friction initial\n300 25 0", b"refused 2 2\n"),
    (b"latitude friction initial\n300 25 0\n", b"refused 3 2\n"),
    (HEAD[:-1], b"refused 1 3\n"),
    (HEAD, b"refused 3 3\n"),
    (HEAD + b"\n", b"refused 2 4\n"),
    (HEAD + b"0 500\n", b"refused 5 1\n"),
    (HEAD + b"10 500\n0 500", b"refused 2 5\n"),
    (GOOD + b"\n", b"refused 2 6\n"),
    (GOOD.replace(b"300 25", b"300 -0"), b"refused 2 2\n"),
    (GOOD.replace(b"300 25", b"300 025"), b"refused 2 2\n"),
    (GOOD.replace(b"300 25", b"300 1234567890"), b"refused 2 2\n"),
    (GOOD.replace(b"300 25", b"300 999999999"), b"refused 6 0\n"),
    (GOOD.replace(b"10 500", b"10\t500"), b"refused 2 4\n"),
    (GOOD.replace(b"\n", b"\r\n"), b"refused 1 1\n"),
    (GOOD, NAMES + b"refused 1 1\n"),
)

STORM_TEXTS = (
    (None, b"refused 1 1\n"),
    (STORM[:-1], b"refused 1 1\n"),
    (STORM, b"refused 3 1\n"),
    (STORM + CALM, b"refused 3 2\n"),
    (STORM + CALM[:-1], b"refused 2 2\n"),
    (STORM + CALM * 2, b"0 0 0\n"),
    (STORM + CALM * 3, b"0 0 0\nrefused 3 4\n"),
    (STORM + CALM * 2 + b"\n", b"0 0 0\nrefused 2 4\n"),
    (STORM + CALM + b"1 0 0 0 0\n", b"refused 4 3\n"),
    (STORM + CALM + b"0 -1 0 0 0\n", b"refused 4 3\n"),
    (STORM + CALM + b"1 0 0 0 -0\n", b"refused 2 3\n"),
    (STORM + b"0 0 2001 0 0\n" + b"0 0 0 0 00\n", b"refused 2 3\n"),
    (STORM + b"0 0 2001 0 0\n", b"refused 3 2\n"),
    (STORM + b"0 0 2001 0 0\n" * 2 + b"x\n", b"refused 9 1\n"),
    (STORM + CALM * 2 + b"3600 5 0 0 0\n" * 2, b"0 0 0\n3600 500 500\n"),
    (STORM + CALM * 2 + b"0 0 0 0 0\n" * 2, b"0 0 0\nrefused 9 0\n"),
    (STORM + CALM * 2 + b"60 0 0 0 0 0\n", b"0 0 0\nrefused 2 4\n"),
    (STORM + CALM + STORM, b"refused 2 3\n"),
    (STORM + b"0 -999999999 0 0 0\n" * 2, b"refused 9 0\n"),
    # a calm that has a direction: 2, 3 and 4 of its record come first, 9 too
    (STORM + CALM + b"0 0 0 1 0\n", b"refused 18 2\n"),
    (STORM + b"0 0 0 3599 0\n" * 2, b"refused 18 1\n"),
    (STORM + b"0 0 0 3600 0\n" * 2, b"refused 9 1\n"),
    (STORM + b"0 0 -1 5 0\n" * 2, b"refused 9 1\n"),
    (STORM + b"0 0 1 3599 0\n" * 2, b"0 0 1\n"),
    (STORM + b"0 0 0 5 0\n" + b"0 0 1 5 301\n", b"refused 9 2\n"),
    (STORM + b"0 2001 0 5 0\n" * 2, b"refused 9 0\n"),
    (STORM + b"0 0 0 5 0\n" + b"1 0 0 0 0\n", b"refused 4 3\n"),
    (STORM + b"0 0 0 5 0\n" + b"0 1 0 5 0\n", b"refused 4 3\n"),
    (STORM + b"0 0 0 5 0\n" + b"0 0 0 00 0\n", b"refused 2 3\n"),
    (STORM + b"0 0 0 5 0\n", b"refused 3 2\n"),
    (STORM + b"0 0 0 5 0\n" * 2 + b"x\n", b"refused 18 1\n"),
    (STORM + CALM * 2 + b"60 0 0 0 0\n" + b"60 0 0 5 0\n", b"0 0 0\nrefused 18 2\n"),
)


def test_traverse_texts():
    for text, want in TRAVERSE_TEXTS:
        same((text, program.listing(text, None)), (text, want))


def test_storm_texts():
    for text, want in STORM_TEXTS:
        same((text, program.listing(GOOD, text)), (text, NAMES + want))


def test_read_listing():
    got = refread.listing(GOOD, STORM + CALM * 2 + b"5 -7 1 2 3\n" * 2 + b"0")
    head = b"traverse 300 25 0 2\npoint 10 500\npoint 0 500\n"
    calm = b"record 0 0\npoint 0 0 0\npoint 0 0 0\n"
    same(got, head + calm + b"record 5 -7\npoint 1 2 3\npoint 1 2 3\nrefused 2 6\n")
    same(refread.listing(HEAD + b"1 1\n", None), b"refused 5 1\n")


def value_by_hand(word):
    """The rule of a value, byte by byte, apart from the reader's pattern."""
    digits = word[1:] if word.startswith(b"-") else word
    if not 1 <= len(digits) <= 9 or any(not 48 <= d <= 57 for d in digits):
        return False
    if digits[0] == 48:
        return word == b"0"
    return True


def test_values_by_hand():
    alphabet = [bytes([c]) for c in b"-019+ \r\x00\xff"]
    words = [b"".join(w) for n in range(5) for w in itertools.product(alphabet, repeat=n)]
    words += list(damage.VALUES) + [b"9" * n for n in range(1, 13)]
    for word in words:
        if b" " not in word:
            got = reader.VALUE_LINE[2].fullmatch(b"0 " + word) is not None
            same((word, got), (word, value_by_hand(word)))


# Generators.


def test_share_accepted():
    rng = random.Random(17)
    outcomes = [values.sound(rng).outcome() for _ in range(1000)]
    accepted = outcomes.count(None)
    print("  accepted to the end: %d of 1000 sound runs" % accepted)
    assert 700 <= accepted <= 950


def last_ends(run):
    """Greatest size of an end of flux and of setup after the last record."""
    traverse, state = run.traverse(), march.State(0, False)
    rows, places = march.fresh_rows(traverse), [0] * (2 * len(run.points) - 2)
    for record in run.record_list():
        state = march.take_record(traverse, state, rows, places, record, fast).state
    flux = max(max(abs(row.low), abs(row.high)) for row in rows)
    return flux, max(abs(place) for place in places)


def test_edges_meet_the_limit():
    """The pair is one unit of wind apart; the good one stands at the limit."""
    rng = random.Random(18)
    for make, number, which, least in (
        (edges.flux_edge, 11, 0, 999_990), (edges.setup_edge, 12, 1, 999_990), (edges.held_edge, 11, 0, 999_000),
    ):  # fmt: skip
        reached = []
        for _ in range(6):
            good, bad = make(rng)
            same((good.outcome(), bad.outcome().number), (None, number))
            reached.append(last_ends(good)[which])
        # of the last it is the limiting flux, which grows by some 500 from wind to wind
        full = 0 if make is edges.held_edge else 3
        assert reached.count(1_000_000) >= full and min(reached) > least, reached


class TowardNought:
    """The mistake of dividing toward nought."""

    def held_range(*given):
        corners = ranges.held_corners(*given)
        return math.trunc(min(corners)), math.trunc(max(corners))

    def gain_range(*given):
        corners = ranges.gain_corners(*given)
        return math.trunc(min(corners)), math.trunc(max(corners))


class OneDepth:
    """The deeper end of the depth for both ends of the flux."""

    def held_range(speed, v, force, drag, depth):
        return ranges.held_range(speed, v, force, drag, (depth[1], depth[1]))


class ShallowGain:
    """The shallower end of the depth for both ends of the gain."""

    def gain_range(length, s, v, onshore, depth):
        return ranges.gain_range(length, s, v, onshore, (depth[0], depth[0]))


class WiderForce:
    """A force one unit too wide."""

    def force_range(*given):
        low, high = forcing.force_range(*given)
        return low, high + 1


class HalfForce:
    """This record's two cross stresses twice, the previous record's left out."""

    def force_range(seconds, old, new):
        return forcing.force_range(seconds, new, new)


class NearestDepth:
    """The water depth rounded to one number."""

    def depth_range(*given):
        low, _ = ranges.depth_range(*given)
        return low, low


MISTAKES = (TowardNought, OneDepth, ShallowGain, WiderForce, HalfForce, NearestDepth)
FORMULAS = "depth_range", "force_range", "limiting_speed", "held_range", "gain_range"


def whole(mistake):
    """The formulas with this mistake, all others right."""
    for name in FORMULAS:
        if not hasattr(mistake, name):
            setattr(mistake, name, getattr(march.Fractions, name))
    return mistake


def test_mistakes_are_noticed():
    """Sound storms tell each mistaken formula from the right one."""
    rng = random.Random(19)
    texts = [(r.traverse_text(), r.storm_text()) for r in (values.sound(rng) for _ in range(150))]
    right = [program.listing(*pair) for pair in texts]
    for mistake in MISTAKES:
        wrong = [program.listing(*pair, whole(mistake)) for pair in texts]
        noticed = sum(a != b for a, b in zip(right, wrong))
        print("  %-14s noticed in %d of %d storms" % (mistake.__name__, noticed, len(texts)))
        assert noticed > 5


# The flux limit: that the generated cases show it, and mistakes in it.


def count_steps(asked):
    """Of the segments of these calls: which ends the limit binds, the sign of the sum, small
    limiting speeds, nought inside the range of v, water depths with ends far apart."""
    met = collections.Counter()
    for call in asked:
        for given, total in zip(*held.steps_of(call)):
            met["bound", held.binding(*given)] += 1
            met["sum", (total > 0) - (total < 0)] += 1
            met["speed", min(given[0], 3)] += 1
            met["v = 0", held.at_nought(*given)] += 1
            met["depths far apart"] += 2 * given[4][1] > 3 * given[4][0]
    return met


def test_held_calls_show_the_limit():
    met = count_steps(held.random_calls(240))
    print("  segments of 240 records on lent rows:", dict(met))
    steps = sum(count for key, count in met.items() if key[0] == "bound")
    shares = {key: count / steps for key, count in met.items()}
    assert all(shares["bound", ends] > 0.05 for ends in held.BINDINGS), shares
    assert all(shares["sum", sign] > 0.1 for sign in (-1, 0, 1)), shares
    assert all(met["speed", speed] >= 20 for speed in (0, 1, 2, 3)), met
    assert all(met["v = 0", place] > 50 for place in ("outside", "inside", "extreme")), met
    assert met["depths far apart"] > 50, met


def calls_of_storm(run):
    """The later records of a run as calls."""
    traverse, state = run.traverse(), march.State(0, False)
    rows = march.fresh_rows(traverse)
    for record in run.record_list():
        if state.accepted:
            yield traverse, state, list(rows), [], record
        answer = march.take_record(traverse, state, rows, [], record, fast)
        if isinstance(answer, march.Refusal):
            return
        state = answer.state


def test_storms_show_the_limit():
    """Of storms from fresh rows, whose ranges are narrow."""
    rng = random.Random(47)
    met = collections.Counter()
    for _ in range(150):
        met += count_steps(calls_of_storm(values.turning_cross(rng)))
    print("  segments of 150 storms:", dict(met))
    assert all(met["bound", ends] > 80 for ends in held.BINDINGS), met
    assert all(met["sum", sign] > 500 for sign in (-1, 0, 1)), met


def test_held_choices():
    """Each binding in turn with each place of v = 0."""
    some = itertools.islice(held.choices(random.Random(48)), 1200)
    met = collections.Counter((held.binding(*given), held.at_nought(*given)) for given in some)
    same((len(met), set(met.values())), (12, {100}))


def test_held_thresholds():
    """Sums of two ends that have just reached a speed, and just not: of the 15 reached, and of
    those not, most are the threshold itself and the number below it."""
    exact_ones = 0
    for friction, speed in held.THRESHOLDS:
        least = held.threshold(friction, speed)
        for total, way in ((least, 1), (least - 1, -1)):
            got = sum(forcing.cross(*end) for end in held.ends_near(total, way))
            same((speed, forcing.limiting_speed(friction, got)), (speed, speed if way > 0 else speed - 1))
            assert 0 <= way * (got - total) < 20, (friction, speed, got - total)
            exact_ones += got == total
    assert exact_ones > 20, exact_ones
    for call in held.threshold_calls():
        same(held.accepted(call), True)


def test_held_limit_pairs():
    """Refusal 11 by the limiting flux: one unit of the water depth apart, with a flux that is
    past its limits on both sides before it is held."""
    count = 0
    for good, bad, place in held.limit_pairs():
        same(held.accepted(good), True)
        same(told_and_left(bad)[0], march.Refusal(11, place))
        for call in (good, bad):
            given = held.steps_of(call)[0][place - 1]
            free = fast.flux_range(*given[1:])
            assert max(abs(end) for end in free) > 1_000_000
            same(given[4][0], given[4][1])
        count += 1
    same(count, 196)
    kinds = collections.Counter()
    for call in held.far_held_calls():
        same(held.accepted(call), True)
        (speed, *given) = held.steps_of(call)[0][0]
        free, limit = fast.flux_range(*given), speed * given[3][0] // 1000
        kinds[max(map(abs, free)) > 1_000_000, limit > 1_000_000] += 1
    same(kinds, {(True, False): 12, (False, True): 6})


def test_held_calls_on_the_panel():
    for call in held.calls():
        assert len(call[0].points) <= PANEL
    for call in held.random_calls(40):
        same(*(told_and_left(call, most) for most in LIMITS))


# What each does in place of the step, the speed, or the work on a segment.


def held_by(limit_of, value=ranges.flux_value, choices=ranges.flux_choices):
    """The held range with another limit (of speed, a depth and the depth's range)."""

    def mistake(speed, v, force, drag, depth):
        corners = [
            ranges.held(value(a, f, drag, d), limit_of(speed, d, depth)) for a, f, d in choices(v, force, depth)
        ]
        return ranges.outward(min(corners), max(corners))

    return mistake


def right_limit(speed, d, depth):
    return ranges.limiting_flux(speed, d)


def limit_by(change):
    return held_by(lambda speed, d, depth: change(ranges.limiting_flux(speed, d)))


def limit_in(depth_of):
    return held_by(lambda speed, d, depth: ranges.limiting_flux(speed, depth_of(depth)))


def ends_alone(v, force, depth):
    return itertools.product(set(v), set(force), set(depth))


def to_nearest(fraction):
    return ranges.floor(fraction + Fraction(1, 2))


def force_free_at_nought(speed, v, force, drag, depth):
    """Document 01's corner at v = 0, which is F itself."""
    low, high = held_by(right_limit, choices=ends_alone)(speed, v, force, drag, depth)
    return (min(low, force[0]), max(high, force[1])) if v[0] <= 0 <= v[1] else (low, high)


def upper_end_alone(speed, *given):
    low, high = ranges.flux_range(*given)
    limit = ranges.limiting_flux(speed, given[3][1])
    return min(low, ranges.floor(limit)), min(high, ranges.ceil(limit))


def old_flux_held(speed, v, force, drag, depth):
    """v in place of the new flux."""
    limit = ranges.floor(ranges.limiting_flux(speed, depth[1]))
    return ranges.flux_range(tuple(ranges.held(end, limit) for end in v), force, drag, depth)


def set_to_nought(speed, *given):
    """An end that is past the limit becomes 0."""
    free, right = ranges.flux_range(*given), ranges.held_range(speed, *given)
    return tuple(sorted(end if end == other else 0 for end, other in zip(free, right)))


def free_step(speed, *given):
    return fast.flux_range(*given)


def root_of(friction, total, by=242):
    return Fraction(by * abs(total), 225_000 * friction)


def with_sum(pick):
    """The limit by another sum, the force by the right ones."""

    def mistake(given, setup, formulas, right=march.work_segment):
        old, new = given.old_sum, given.new_sum
        return right(given._replace(new_sum=pick(old, new), old_sum=old + new - pick(old, new)), setup, formulas)

    return mistake


def unheld(formulas):
    return SimpleNamespace(**{**vars(formulas), "held_range": free_step})


def row_alone(given, setup, formulas, right=march.work_segment):
    """Gain and 12 by the flux before the limit."""
    answer, free = right(given, setup, formulas), right(given, setup, unheld(formulas))
    if isinstance(answer, int) or isinstance(free, int):
        return answer if answer in (10, 11) else free if free == 12 else answer
    return answer[0], free[1]


def gain_alone(given, setup, formulas, right=march.work_segment):
    """The row keeps the flux before the limit."""
    answer, free = right(given, setup, formulas), right(given, setup, unheld(formulas))
    if isinstance(answer, int) or isinstance(free, int):
        return answer
    return free[0], answer[1]


def judged_before(given, setup, formulas, right=march.work_segment):
    """11 by the flux before the limit."""
    return 11 if right(given, setup, unheld(formulas)) == 11 else right(given, setup, formulas)


def first_rows_held(traverse, state, rows, record, right=march.segments_of):
    """A first record that holds the fluxes of its rows. To hold the 0 of a fresh row is no
    mistake: it is within every limit."""
    for given in right(traverse, march.State(0, True), rows, record):
        if not state.accepted:
            limit = fast.limiting_speed(given.friction, given.new_sum) * given.depths * 5 // 1000
            flux = tuple(ranges.held(end, limit) for end in given.flux)
            given = given._replace(seconds=1, flux=flux, old_sum=-given.new_sum)
        yield given


def formula(name):
    return lambda mistake: (SimpleNamespace(**{**vars(fast), name: mistake}), {})


def patched(name):
    return lambda mistake: (fast, {name: mistake})


RANGE, ROOT, WORK = formula("held_range"), formula("limiting_speed"), patched("work_segment")
HUGE = 10**9
HELD_MISTAKES = (
    ("no limit", RANGE, free_step),
    ("c of the deep end", RANGE, limit_in(lambda depth: depth[1])),
    ("c of the shallow end", RANGE, limit_in(lambda depth: depth[0])),
    ("c of the middle depth", RANGE, limit_in(lambda depth: Fraction(sum(depth), 2))),
    ("c rounded down", RANGE, limit_by(ranges.floor)),
    ("c rounded up", RANGE, limit_by(ranges.ceil)),
    ("c rounded to the nearest", RANGE, limit_by(to_nearest)),
    ("feet of depth rounded first", RANGE, held_by(lambda b, d, _: b * (d // 1000))),
    ("the ends of v alone", RANGE, held_by(right_limit, choices=ends_alone)),
    ("F itself at v = 0", RANGE, force_free_at_nought),
    ("the nearest flux held", RANGE, held_by(right_limit, value=lambda *g: to_nearest(ranges.flux_value(*g)))),
    ("held from above alone", RANGE, upper_end_alone),
    ("the old flux held", RANGE, old_flux_held),
    ("0 where it is past", RANGE, set_to_nought),
    ("no limit for a sum of 0", ROOT, lambda k, t: fast.limiting_speed(k, t) if t else HUGE),
    ("no limit below 0", ROOT, lambda k, t: fast.limiting_speed(k, t) if t >= 0 else HUGE),
    ("b is 0 below 0", ROOT, lambda k, t: fast.limiting_speed(k, max(0, t))),
    ("b rounded up", ROOT, lambda k, t: math.isqrt(ranges.ceil(root_of(k, t)) - 1) + 1 if t else 0),
    ("b to the nearest", ROOT, lambda k, t: (math.isqrt(ranges.floor(4 * root_of(k, t))) + 1) // 2),
    ("b below, never at", ROOT, lambda k, t: math.isqrt(max(0, ranges.ceil(root_of(k, t)) - 1))),
    ("no friction in b", ROOT, lambda k, t: fast.limiting_speed(1, t)),
    ("a friction of 25 in b", ROOT, lambda k, t: fast.limiting_speed(25, t)),
    ("121 for 242", ROOT, lambda k, t: math.isqrt(ranges.floor(root_of(k, t, 121)))),
    ("Z for the sum", WORK, with_sum(lambda old, new: old + new)),
    ("half of Z", WORK, with_sum(lambda old, new: (old + new) // 2)),
    ("the old sum", WORK, with_sum(lambda old, new: old)),
    ("the row held, not the gain", WORK, row_alone),
    ("the gain held, not the row", WORK, gain_alone),
    ("11 before it is held", WORK, judged_before),
    ("a first record's rows held", patched("segments_of"), first_rows_held),
)  # fmt: skip
# What storms from fresh rows hardly show: sums at which the two products are just equal; and
# what they cannot: a first record on other rows.
CALLS_ALONE = "b below, never at", "a first record's rows held"


def some_held_calls():
    some = [held.random_calls(35), held.first_calls(8), held.threshold_calls(), held.far_held_calls()]
    some += [itertools.islice(held.strongest_calls(), 0, None, 17), itertools.islice(held.limit_calls(), 0, 392, 27)]
    return list(itertools.chain(*some))


def held_outcomes(asked, texts, formulas=fast):
    found = [told_and_left(call, formulas=formulas) for call in asked]
    return found, [program.listing(*pair, formulas) for pair in texts]


def test_held_mistakes_are_noticed():
    rng = random.Random(49)
    styles = values.turning_cross, values.turning_cross, values.ordinary, values.near_nought
    runs = [styles[k % 4](rng, *((1, 8) if k % 4 < 2 else ())) for k in range(100)]
    runs += [edges.inner_extreme(rng) for _ in range(8)] + [edges.held_edge(rng)[0] for _ in range(5)]
    given = some_held_calls(), [(run.traverse_text(), run.storm_text()) for run in runs]
    right = held_outcomes(*given)
    for label, kind, mistake in HELD_MISTAKES:
        formulas, patches = kind(mistake)
        with contextlib.ExitStack() as stack:
            for name, wrong_one in patches.items():
                stack.enter_context(mock.patch.object(march, name, wrong_one))
            wrong = held_outcomes(*given, formulas)
        noticed = [sum(a != b for a, b in zip(*both)) for both in zip(wrong, right)]
        shown = (label, noticed[0], len(right[0]), noticed[1], len(right[1]))
        print("  %-28s noticed in %3d of %d calls, %3d of %d storms" % shown)
        assert noticed[0] > 3 and (noticed[1] > 3 or label in CALLS_ALONE), label


def only_exact(module, **changes):
    """A module of the model as the exact march alone sees it."""
    return mock.patch.object(exact, module.__name__.split(".")[-1], SimpleNamespace(**{**vars(module), **changes}))


# A c that is off by less than one unit, as a rounded one, stays within a flux range.
EXACT_MISTAKES = (
    ("not held", ranges, "held_value", lambda b, *given: ranges.flux_value(*given)),
    ("held from above alone", ranges, "held_value", lambda b, *g: min(ranges.flux_value(*g), b * g[3] / 1000)),
    ("c of half the depth", ranges, "held_value", lambda b, *g: ranges.held(ranges.flux_value(*g), b * g[3] / 2000)),
    ("b is 0 below 0", forcing, "limiting_speed", lambda k, t: forcing.limiting_speed(k, max(0, t))),
    ("no limit for a sum of 0", forcing, "limiting_speed", lambda k, t: forcing.limiting_speed(k, t) if t else HUGE),
    ("no friction in b", forcing, "limiting_speed", lambda k, t: forcing.limiting_speed(1, t)),
    ("b one more", forcing, "limiting_speed", lambda k, t: 1 + forcing.limiting_speed(k, t)),
)


def height_leaves(run):
    """Whether an exact height lies outside of its range, of a run that is accepted."""
    traverse = run.traverse()
    state, rows, unrounded = march.State(0, False), march.fresh_rows(traverse), exact.ExactMarch(traverse)
    for record in run.record_list():
        answer = march.take_record(traverse, state, rows, [], record, fast)
        if not within(unrounded.take(record, True).height, (answer.low, answer.high)):
            return True
        state = answer.state
    return False


def test_exact_mistakes_are_noticed():
    """An exact march that is held otherwise leaves the ranges: a flux, a setup or a height."""
    rng = random.Random(50)
    runs = [values.turning_cross(rng, rng.choice((1, 2)), 4) for _ in range(60)]
    same([run.outcome() for run in runs], [None] * 60)
    for label, module, name, mistake in EXACT_MISTAKES:
        with only_exact(module, **{name: mistake}):
            noticed = sum(one_fails(lambda: march_beside(random.Random(51), run, 4)) for run in runs)
            heights = sum(map(height_leaves, runs))
        print("  %-28s noticed in %2d of 60 storms, by a height in %2d" % (label, noticed, heights))
        assert noticed > 5 and heights > 1, label


def test_inner_extreme():
    """Fractions see v = 0 where the ends alone miss it."""
    rng = random.Random(20)
    for _ in range(5):
        run = edges.inner_extreme(rng)
        texts = run.traverse_text(), run.storm_text()
        assert program.listing(*texts) != program.listing(*texts, edges.EndsOnly)


def test_seeds_repeat():
    streams = [cases.stream("surge", random.Random(3)) for _ in range(2)]
    same(*(list(itertools.islice(stream, 200)) for stream in streams))


def test_driver_answers():
    """The driver in Python agrees, and a changed answer is noticed."""
    here = os.path.dirname(os.path.abspath(__file__))
    driver = "%s %s" % (sys.executable, os.path.join(here, "refdriver.py"))
    only = "--only=limit,room,answer,random"
    decks_only = "--only=answer,fault,random"
    profiles_only = "--only=answer,fault,random"
    for tool, changed in (
        (["calls.py"], ["--only=open", "--only=panel_open"]),
        (["make_calls.py", only], [only]),
        (["deck_calls.py", decks_only], [decks_only]),
        (["profile_calls.py", profiles_only], ["--only=answer", "--only=random"]),
    ):
        command = [sys.executable, os.path.join(here, tool[0]), driver, "300", "2", *tool[1:]]
        same(subprocess.run(command, stdout=subprocess.DEVNULL).returncode, 0)
        command[2] = driver + " | sed s/5/6/"
        for kinds in changed:
            done = subprocess.run([*command, kinds], stdout=subprocess.DEVNULL)
            same(done.returncode, 1)


# The storm maker of document 02, by hand from its readings.


def test_factor_table():
    table = [hurricane.entry(m) for m in range(1001)]
    same((len(table), table[0], table[990], set(table[991:])), (1001, 10_000, 1, {0}))
    by_hand = {1: 9900, 50: 6065, 100: 3679, 200: 1353, 300: 498, 500: 67, 700: 9}
    same({m: table[m] for m in by_hand}, by_hand)
    assert all(a >= b for a, b in zip(table, table[1:]))
    for m, value in enumerate(table):
        exact_value = 10_000 / hurricane.exponential(m)
        assert abs(value - 10_000 * math.exp(-m / 100)) < 0.5001, m
        assert Fraction(1, 2) - abs(exact_value - value) > Fraction(9, 10_000), m


def storm_at(x=0, y=0, drop=300, radius=300):
    return hurricane.Hurricane(2800, 2800 + drop, radius, x, y)


def test_distances():
    for site, r in (((0, 0), 0), ((3, -4), 5), ((3, -5), 5), ((1, 1), 1), ((7, 1), 7)):
        same(hurricane.distance(storm_at(), site), r)
    same(hurricane.distance(storm_at(-10_000, 10_000), (10_000, -10_000)), 28_284)
    same(hurricanes.FARTHEST, 28_284)


def test_deficits():
    ratios = {(2000, 200): 1000, (2000, 201): 995, (2000, 199): 1000, (1, 100): 1, (1, 101): 0}
    ratios.update({(300, 300): 100, (300, 301): 99, (1, 0): 1000, (2000, 1): 1000})
    for (radius, r), m in ratios.items():
        same((radius, r, hurricane.hundredths(radius, r)), (radius, r, m))
    own = hurricane.own_table()
    for r, want in ((0, 300), (30, 300), (300, 189), (301, 188), (150, 259), (30_001, 0)):
        same((r, hurricane.deficit(storm_at(), r, own)), (r, want))
    same([hurricane.deficit(storm_at(drop=d), 300, own) for d in (0, 1, 2, 3)], [0, 0, 1, 1])


def test_list_winds():
    falling = (400, 1000), (701, 700)
    by_hand = {0: 1000, 399: 1000, 400: 1000, 401: 999, 550: 850, 551: 849, 700: 700}
    by_hand.update({701: 700, 702: 700, 28_284: 700})
    same({r: hurricane.wind(falling, r) for r in by_hand}, by_hand)
    rising = (2, 10), (5, 12), (6, 2000)
    same([hurricane.wind(rising, r) for r in range(8)], [10, 10, 10, 10, 11, 12, 2000, 2000])
    same([hurricane.wind(((50, 7),), r) for r in (0, 49, 50, 51)], [7] * 4)


def refusal_in(**changes):
    number, answer, room = make_calls.outcome(hurricanes.SOUND._replace(**changes))
    if number == 0:
        return None
    same(tuple(room), changes.get("room", hurricanes.SOUND.room))
    same(answer[1:], (0, 0))
    return number, answer[0]


def test_storm_refusals():
    same(refusal_in(), None)
    same(refusal_in(centre=3000, edge=2999), (13, 0))
    same(refusal_in(centre=2700, edge=3001), (13, 0))
    same([refusal_in(centre=c, edge=2600) for c in (2499, 2500)], [(13, 0), None])
    same([refusal_in(centre=3000, edge=e) for e in (3200, 3201)], [None, (13, 0)])
    same([refusal_in(radius=r) for r in (0, 1, 2000, 2001)], [(13, 0), None, None, (13, 0)])
    same([refusal_in(y=y) for y in (-10_001, -10_000)], [(13, 0), None])
    same([refusal_in(winds=w) for w in ((), (5,), (5, 6, 7), (5, 6))], [(13, 0)] * 3 + [None])
    sites = hurricanes.SOUND.sites
    same([refusal_in(sites=sites[:n]) for n in (0, 3, 5, 6, 7)], [(13, 0)] * 3 + [None, (13, 0)])
    same([refusal_in(winds=(0, w)) for w in (-1, 0, 2000, 2001)], [(13, 1), None, None, (13, 1)])
    same([refusal_in(winds=(r, 9)) for r in (-1, 30_000, 30_001)], [(13, 1), None, (13, 1)])
    same(refusal_in(sites=sites[:5] + (3600,)), (13, 2))
    same(refusal_in(winds=(5, 9, 5, 9, 4, 2001)), (13, 3))
    same(refusal_in(winds=(5, 9, 5, 9, 4, 2000)), (14, 2))
    same(refusal_in(winds=(5, 9, 6, 9, 4, 2000), room=()), (14, 3))
    same([refusal_in(room=(7,) * n) for n in (0, 11, 12, 13)], [(8, 0), (8, 0), None, None])
    same(refusal_in(seconds=-(2**63), tide=2**63 - 1), None)


def test_storm_fault_pairs():
    """The first of two faults is answered."""
    for call, first in hurricanes.fault_pairs():
        number, place = hurricanes.refusal_of(first)
        same(make_calls.outcome(call), (number, (place, 0, 0), list(call.room)))


def test_made_record():
    """Room, answer and record of one call; spare room stays."""
    sites = ((0, 0, 900), (401, 0, 1800))
    call = hurricanes.call_of(storm_at(radius=401), ((400, 1000), (701, 700)), sites, 2, 5, -6)
    number, answer, room = make_calls.outcome(call)
    same((number, answer), (0, (0, 5, -6)))
    same(tuple(room), (1000, 900, 300, 999, 1800, 189) + call.room[6:])
    same(make_calls.outcome(call._replace(answer=(1, 2)))[:2], (255, (1, 2)))


def made_points(call):
    """The points that a call makes; none where it is refused."""
    number, _, room = make_calls.outcome(call)
    return () if number else make_calls.groups(tuple(room[: len(call.sites)]), 3)


def test_made_records_pass_checks_9_and_18():
    rng = random.Random(21)
    for call in (*hurricanes.random_calls(rng, 400), *hurricanes.calm_calls(rng)):
        record = march.Record(0, 0, made_points(call))
        same(march.check_record(march.State(0, False), record), None)
        same(march.check_calms(record), None)


def made_at(winds, angle, *radii):
    """Wind and angle of what is made at these distances, each point given the angle."""
    call = hurricanes.call_of(storm_at(), winds, [(r, 0, angle) for r in radii])
    return [point[:2] for point in made_points(call)]


def test_made_calms():
    """By hand: a calm of each kind, and the winds next to it."""
    for angle in (0, 1, 3599):
        calm, one = (0, 0), (1, angle)
        # the end rows' wind inside the first radius and beyond the last
        same(made_at(((50, 0),), angle, 0, 49, 50, 51, 9999), [calm] * 5)
        same(made_at(((50, 0), (53, 3)), angle, 0, 49, 50, 51, 54), [calm] * 3 + [one, (3, angle)])
        same(made_at(((50, 3), (53, 0)), angle, 49, 52, 53, 54, 9999), [(3, angle), one] + [calm] * 3)
        # a row of wind 0 between two others
        same(made_at(((4, 1), (5, 0), (6, 1)), angle, 4, 5, 6), [one, calm, one])
        # rounded down: 5/10 rising, 9/10 falling; of 2 to 0 the half way is just 1
        same(made_at(((0, 0), (10, 1)), angle, 5, 9, 10), [calm, calm, one])
        same(made_at(((0, 1), (10, 0)), angle, 0, 1, 9), [one, calm, calm])
        same(made_at(((0, 2), (10, 0)), angle, 5, 6), [one, calm])
    # the given angle is judged, at a calm as at a wind
    for given in (-1, 3600):
        sites = (0, 0, 900, 9, 0, given)
        same([refusal_in(winds=w, sites=sites) for w in ((5, 0), (5, 9))], [(13, 2)] * 2)


def test_calm_calls_have_calms():
    """With each list and each angle; a wind keeps its angle."""
    met = set()
    for call in hurricanes.calm_calls(random.Random(29)):
        for (wind, angle, _), given in zip(made_points(call), call.sites[2::3]):
            met.add((call.winds, wind == 0, given))
            same(angle, given if wind else 0)
    for winds in hurricanes.CALM_LISTS:
        for angle in hurricanes.CALM_ANGLES:
            same((winds, (hurricanes.flat(winds), True, angle) in met), (winds, True))
    same(len({winds for winds, calm, _ in met if not calm}), len(hurricanes.CALM_LISTS) - 2)


def test_storm_calls_reach_all():
    """Every entry of the table and every distance is met. Entries too near to each
    other for any drop to tell them apart are counted."""
    ratios, distances = set(), set()
    for call in hurricanes.table_calls(random.Random(22)):
        r = hurricane.distance(hurricane.Hurricane(*call[:5]), call.sites[:2])
        ratios.add(hurricane.hundredths(call.radius, r))
    for call in hurricanes.root_calls(random.Random(23)):
        storm = hurricane.Hurricane(*call[:5])
        distances.update(hurricane.distance(storm, s) for s in make_calls.groups(call.sites, 3))
    same(sorted(ratios ^ set(range(1001))), [])
    same(sorted(distances ^ set(range(28_285)))[:9], [])
    told = [len(list(hurricanes.telling_drops(hurricane.entry(m)))) for m in range(1001)]
    print("  told from both neighbours: %d entries, from one: %d" % (told.count(2), told.count(1)))


def toward_nought(winds, r):
    """The change of the wind divided toward nought."""
    for (inner, w0), (outer, w1) in zip(winds, winds[1:]):
        if inner <= r <= outer:
            return w0 + math.trunc(Fraction((w1 - w0) * (r - inner), outer - inner))
    return winds[0][1] if r < winds[0][0] else winds[-1][1]


def nothing_beyond(winds, r, right=hurricane.wind):
    return 0 if r > winds[-1][0] else right(winds, r)


def nearest_root(storm, site):
    return round(math.hypot(site[0] - storm.x, site[1] - storm.y))


def nearest_ratio(radius, r):
    return 1000 if r == 0 else min(1000, (200 * radius + r) // (2 * r))


def deficit_up(storm, r, table):
    value = table[hurricane.hundredths(storm.radius, r)]
    return -((storm.centre - storm.edge) * (10_000 - value) // 10_000)


def radii_may_stay(winds):
    pairs = enumerate(zip(winds, winds[1:]), 2)
    return next((march.Refusal(14, i) for i, (a, b) in pairs if b[0] < a[0]), None)


def radii_first(storm, winds, sites, right=hurricane.check_values):
    return hurricane.check_radii(winds) or right(storm, winds, sites)


def angle_kept(speed, given):
    return given


def none_in_faint_winds(speed, given):
    return given if speed > 1 else 0


def judged_as_made(storm, winds, sites, right=hurricane.check_values):
    """A calm's given angle not judged."""
    if not winds:
        return right(storm, winds, sites)
    speeds = [hurricane.wind(winds, hurricane.distance(storm, site)) for site in sites]
    made = [(x, y, angle if speed else 0) for (x, y, angle), speed in zip(sites, speeds)]
    return right(storm, winds, made)


STORM_MISTAKES = (
    ("wind", toward_nought, "wind"),
    ("wind", toward_nought, "calm"),
    ("angle_for", angle_kept, "calm"),
    ("angle_for", none_in_faint_winds, "calm"),
    ("check_values", judged_as_made, "calm"),
    ("wind", nothing_beyond, "wind"),
    ("distance", nearest_root, "wind"),
    ("hundredths", nearest_ratio, "wind"),
    ("deficit", deficit_up, "wind"),
    ("check_radii", radii_may_stay, "limit"),
    ("check_values", radii_first, "pair"),
)


def test_storm_mistakes_are_noticed():
    for name, mistake, kind in STORM_MISTAKES:
        asked = list(hurricanes.FIXED[kind](random.Random(24)))
        right = [make_calls.outcome(call) for call in asked]
        with mock.patch.object(hurricane, name, mistake):
            noticed = sum(make_calls.outcome(call) != want for call, want in zip(asked, right))
        print("  %-18s noticed in %d of %d calls" % (mistake.__name__, noticed, len(asked)))
        assert noticed > 1


def track_of(seconds, **changes):
    """A hurricane that comes ashore along a traverse of two points."""
    sites = ((0, -100, 450), (0, 0, 450))
    places = []
    for i, step in enumerate(seconds):
        storm = storm_at(0, -400 + 100 * i)._replace(**changes)
        places.append(hurricane.Place(storm, step, 10 * i, hurricanes.ROWS, sites))
    return places


def test_hurricane_listing():
    """The lines of a track are those of its records as a storm file."""
    traverse = march.Traverse(300, 25, 0, ((10, 500), (0, 500)))
    text = STORM
    for record in hurricane.records(track_of((0, 1800, 1800, 600))):
        for point in record.points:
            text += b"%d %d %d %d %d\n" % (*record[:2], *point)
    got = hurricane.listing(traverse, track_of((0, 1800, 1800, 600)))
    same(got, program.listing(GOOD, text))
    same([line.split()[0] for line in got.split(b"\n")[:-1]], b"seconds 0 1800 3600 4200".split())
    begun = b"".join(got.splitlines(True)[:2])
    late = track_of((0, 3601))
    same(hurricane.listing(traverse, late), begun + b"refused 9 0\n")
    bad = late[:1] + track_of((1, 1), radius=0)
    same(hurricane.listing(traverse, bad), begun + b"refused 13 0\n")
    same(hurricane.listing(traverse._replace(friction=51), late), b"refused 6 0\n")
    same(hurricane.listing(traverse, []), NAMES)


# The decks of document 02, by hand from its readings.

GIVEN = (300, 25, 0)


def deck_outcome(text, head=GIVEN, room=1000):
    """The points of a deck, or the refusal's number and place."""
    made = deck.convert(head, text, room)
    if isinstance(made, march.Refusal):
        return tuple(made)
    read = reader.read_traverse(made)
    same((read[:3], deck.traverse_text(head, read.points)), (head, made))
    return list(read.points)


# Number: its tenths, or the number of the refusal of its line.
DECK_NUMBERS = {b"1": 10, b"640": 6400, b"0": 0, b"00": 0, b"0.0": 0, b".0": 0, b"0.": 0}
DECK_NUMBERS.update({b".5": 5, b"5.": 50, b"0.5": 5, b"05": 50, b"00012.50": 125, b"20.10": 201})
DECK_NUMBERS.update({b"99999999": 999_999_990, b"99999999.": 999_999_990, b"9999999.9": 99_999_999})
DECK_NUMBERS.update({b"00000000": 0, b".00000000": 0, b"1.0000000": 10, b".50000000": 5})
DECK_PARTS = b".05", b"0.05", b"1.25", b"20.11", b"1.0000001", b".00000001", b"00.99999"
DECK_SHAPES = (
    b"", b".", b"..", b"1.2.3", b"1..2", b".1.", b"123456789", b"000000000", b"12345678.9",
    b"1.00000000", b".123456789", b"-5", b"-0", b"+5", b"1,5", b"5e1", b"5\r", b"\t5", b"5\x00", b"\xb2",
)  # fmt: skip


def test_deck_numbers():
    """Each as a distance and as a depth, alone on its card, first and last."""
    wanted = [(number, tenths) for number, tenths in DECK_NUMBERS.items()]
    for number, tenths in wanted:
        same(deck_outcome(b"DIST 1 %s\nDEPTH 1 2\n" % number), [(tenths, 20)])
        same(deck_outcome(b"DIST 1 2\nDEPTH 1 %s\n" % number), [(20, tenths)])
        text = b"DIST 1 %s 3 %s\nDEPTH 1 4 %s\nDEPTH 2 %s\n" % ((number,) * 4)
        same(deck_outcome(text), [(tenths, 40), (30, tenths), (tenths, tenths)])
    for refusal, numbers in ((2, DECK_SHAPES), (16, DECK_PARTS)):
        for number in numbers:
            same((number, deck_outcome(b"DIST 1 %s\nDEPTH 1 2\n" % number)), (number, (refusal, 1)))
            same(deck_outcome(b"DIST 1 2\nDEPTH 1 %s\n" % number), (refusal, 2))
            same(deck_outcome(b"DIST 1 2 %s 3\nDEPTH 1 2\n" % number), (refusal, 1))
            same(deck_outcome(b"DIST 1 2 3\nDEPTH 1 2\nDEPTH 2 %s\n" % number), (refusal, 3))


SHORE = b"DEPTH 1 2\n"
TWO = b"DIST 1 5\nDIST 2 4\n"
# Deck, and its points or the refusal's number and place.
DECKS = (
    # texts without a card
    (b"", (3, 0)),
    (b"\n", (2, 1)),
    (b" ", (2, 1)),
    (b"DIST", (2, 1)),
    (b"\x00\n", (2, 1)),
    # the last line feed
    (b"DIST 1 5\nDEPTH 1 2", (2, 2)),
    (b"DIST 1 5\n" + SHORE + b"\n", (2, 3)),
    (b"DIST 1 5\r\n" + SHORE, (2, 1)),
    (b"DIST 1 5\r", (2, 1)),
    (b"DIST 1 5\n\nDEPTH 1 2\n", (2, 2)),
    # cards in their order
    (b"DIST 1 5\n" + SHORE, [(50, 20)]),
    (b"DIST 1 5 0\nDEPTH 1 50 40.5\n", [(50, 500), (0, 405)]),
    (TWO + b"DEPTH 1 2 3\n", [(50, 20), (40, 30)]),
    (b"DIST 1 5 4\nDEPTH 1 2\nDEPTH 2 3\n", [(50, 20), (40, 30)]),
    (b"DIST 1 6 5 4 3 2 1\nDIST 2 0\n" + b"DEPTH 1 1\nDEPTH 2 2 3 4 5 6\nDEPTH 3 7\n",
     [(60, 10), (50, 20), (40, 30), (30, 40), (20, 50), (10, 60), (0, 70)]),
    # one point, and more than the ordinary reader takes
    (b"DIST 1 0\nDEPTH 1 0\n", [(0, 0)]),
    (b"".join(b"%s %d 1 1 1 1 1 1\n" % (word, n) for word in (b"DIST", b"DEPTH") for n in range(1, 12)),
     [(10, 10)] * 66),
    # card numbers
    (b"DIST 00000001 5\nDEPTH 01 2\n", [(50, 20)]),
    (b"DIST 000000001 5\n" + SHORE, (2, 1)),
    (b"DIST 0 5\n" + SHORE, (15, 1)),
    (b"DIST 00 5\n" + SHORE, (15, 1)),
    (b"DIST 2 5\n" + SHORE, (15, 1)),
    (b"DIST 1. 5\n" + SHORE, (2, 1)),
    (b"DIST -1 5\n" + SHORE, (2, 1)),
    (b"DIST 1 5\nDIST 1 4\n" + SHORE, (15, 2)),
    (b"DIST 1 5\nDIST 3 4\n" + SHORE, (15, 2)),
    (b"DIST 1 5\nDEPTH 2 2\n", (15, 2)),
    (TWO + b"DEPTH 3 2 3\n", (15, 3)),
    (b"DIST 1 5 4\nDEPTH 1 2\nDEPTH 1 3\n", (15, 3)),
    (b"DIST 99999999 5\n" + SHORE, (15, 1)),
    # words
    (b"DEPTH 1 2\n", (17, 0)),
    (b"DEPTH 2 2\n", (15, 1)),
    (b"DEPTH 1 2\nDIST 1 5\n", (15, 2)),
    (b"DIST 1 5\nDEPTH 1 2\nDIST 2 4\n", (15, 3)),
    (b"DIST 1 5\nDEPTH 1 2\nDIST 1 4\n", (15, 3)),
    (b"DIST 1 5\nDEPTH 1 2\nDIST 2 4\nDEPTH 2 3\n", (15, 3)),
    (b"dist 1 5\n" + SHORE, (15, 1)),
    (b"DISTANCE 1 5\n" + SHORE, (15, 1)),
    (b"DIS 1 5\n" + SHORE, (15, 1)),
    (b"DIST\x00 1 5\n" + SHORE, (15, 1)),
    (b"DIST\t 1 5\n" + SHORE, (15, 1)),
    (b"DIST\r 1 5\n" + SHORE, (15, 1)),
    (b"-DIST 1 5\n" + SHORE, (15, 1)),
    (b"1 1 5\n" + SHORE, (15, 1)),
    (b"DIST 1 5\nDEPTHS 1 2\n", (15, 2)),
    (b"DIST 1 5\nWIND 1 2\n", (15, 2)),
    # lines
    (b" 1 5\n" + SHORE, (2, 1)),
    (b" DIST 1 5\n" + SHORE, (2, 1)),
    (b"DIST  1 5\n" + SHORE, (2, 1)),
    (b"DIST 1  5\n" + SHORE, (2, 1)),
    (b"DIST 1 5 \n" + SHORE, (2, 1)),
    (b"DIST\t1 5\n" + SHORE, (2, 1)),
    (b"DIST 1\t5\n" + SHORE, (2, 1)),
    (b"DIST 1 5\t\n" + SHORE, (2, 1)),
    (b"DIST 1\n" + SHORE, (2, 1)),
    (b"DIST 1 \n" + SHORE, (2, 1)),
    (b"DIST\n" + SHORE, (2, 1)),
    (b"DIST 1 6 5 4 3 2 1\nDEPTH 1 6 5 4 3 2 1\n", [(10 * n, 10 * n) for n in (6, 5, 4, 3, 2, 1)]),
    (b"DIST 1 6 5 4 3 2 1 0\nDEPTH 1 6 5 4 3 2 1\nDEPTH 2 0\n", (2, 1)),
    # two faults: within a line 2, 15, 16; of two lines the earlier one
    (b"DUST 1 5.05 \n" + SHORE, (2, 1)),
    (b"DUST 1 5.05\n" + SHORE, (15, 1)),
    (b"DIST 2 5.05\n" + SHORE, (15, 1)),
    (b"DIST 0 -5\n" + SHORE, (2, 1)),
    (b"DIST 1 5.05 -5\n" + SHORE, (2, 1)),
    (b"DIST 1 5.05\nDUST 2 4\nDIST 3\n", (16, 1)),
    (b"DUST 1 5\nDIST 2\n", (15, 1)),
    (b"DIST 1 5.05\nDEPTH 1 2", (16, 1)),
    (b"DIST 1 5\nDIST 2 4.05\nDEPTH 1 \n", (16, 2)),
    (b"DUST 1 5", (2, 1)),
    # counts, which come last
    (b"DIST 1 5 4 3\n" + SHORE, (17, 3)),
    (b"DIST 1 5\nDEPTH 1 2 3\n", (17, 1)),
    (b"DIST 1 5 4\n", (17, 2)),
    (TWO, (17, 2)),
    (b"DIST 1 5 4\nDEPTH 1 2.05\n", (16, 2)),
    (b"DIST 1 5 4\nDEPTH 1 2 \n", (2, 2)),
    (b"".join(b"DIST %d 5 4 3 2 1 0\n" % n for n in range(1, 12)), (17, 66)),
    (b"".join(b"DIST %d 6 5 4 3 2 1\n" % n for n in range(1, 12)) + SHORE, (17, 66)),
)  # fmt: skip

DECK = b"DIST 1 1 0\nDEPTH 1 50 50.\n"
DECK_TEXT = b"latitude friction initial\n300 25 0\ndistance depth\n10 500\n0 500\n"
# Deck, given values, bytes of room, and what comes of them: the given values come
# first and the room last.
DECK_CALLS = (
    (DECK, GIVEN, 1000, [(10, 500), (0, 500)]),
    (DECK, (0, 10, -1000), 1000, [(10, 500), (0, 500)]),
    (DECK, (900, 50, 1000), 1000, [(10, 500), (0, 500)]),
    (DECK, (-1, 25, 0), 1000, (6, 0)),
    (DECK, (901, 25, 0), 1000, (6, 0)),
    (DECK, (300, 9, 0), 1000, (6, 0)),
    (DECK, (300, 51, 0), 1000, (6, 0)),
    (DECK, (300, 25, -1001), 1000, (6, 0)),
    (DECK, (300, 25, 1001), 1000, (6, 0)),
    (DECK, (-(2**63), 2**63 - 1, 0), 1000, (6, 0)),
    (b"", (901, 25, 0), 0, (6, 0)),
    (b"\n", (901, 25, 0), 0, (6, 0)),
    (b"DIST 1 5\n", (901, 25, 0), 0, (6, 0)),
    (DECK, GIVEN, len(DECK_TEXT), [(10, 500), (0, 500)]),
    (DECK, GIVEN, len(DECK_TEXT) - 1, (8, 0)),
    (DECK, GIVEN, 0, (8, 0)),
    (b"", GIVEN, 0, (3, 0)),
    (DECK + b"\n", GIVEN, 0, (2, 3)),
    (DECK.replace(b"1 0", b"1 .05"), GIVEN, 0, (16, 1)),
    (DECK.replace(b"50.", b"50. 50"), GIVEN, 0, (17, 2)),
)


def test_decks():
    for text, want in DECKS:
        same((text, deck_outcome(text)), (text, want))
    for text, head, room, want in DECK_CALLS:
        same((text, head, room, deck_outcome(text, head, room)), (text, head, room, want))
    same(deck.convert(GIVEN, DECK, 1000), DECK_TEXT)


def test_deck_call():
    """Room and answer: spare bytes stay, a refused call leaves all."""
    call = decks.Call(*GIVEN, len(DECK_TEXT) + 3, (7, 8, 9), DECK)
    lent = deck_calls.room_of(call.room)
    same(len(set(deck_calls.room_of(97)) - set(range(151))), 97)
    same(deck_calls.outcome(call), (0, (0, 63, 0), DECK_TEXT + lent[-3:]))
    same(deck_calls.outcome(call._replace(room=62)), (8, (0, 0, 0), lent[:62]))
    same(deck_calls.outcome(call._replace(deck=DECK[:-1])), (2, (2, 0, 0), lent))
    same(deck_calls.outcome(call._replace(answer=(7, 8))), (255, (7, 8), lent))
    same(deck_calls.outcome(call._replace(room=0, deck=b"")), (3, (0, 0, 0), b""))
    same(deck_calls.read_back(DECK_TEXT), (0, 0, 2, 0, *GIVEN, 10, 500, 0, 500))
    same(deck_calls.asked(call._replace(room=2, deck=b"\n"))[0], "deck 300 25 0 2 3 7 8 9 0a")
    same(deck_calls.asked(call._replace(room=2, deck=b""))[1], "3 3 0 0 0 9798")


def test_deck_points():
    """The points that a deck was made of, in any shapes and on cards of any sizes."""
    rng = random.Random(25)
    shapes = set()
    for tenths in [*range(130), *range(999_999_800, 999_999_991, 10)] * 40:
        number = decks.shaped(rng, tenths)
        same((number, deck.is_number(number), deck.units(number)), (number, True, tenths))
        shapes.add((number.find(b"."), len(number)))
    assert len(shapes) > 50, shapes
    for _ in range(300):
        points = decks.random_points(rng)
        same(deck.read_deck(decks.random_deck(rng, points)), points)
    for count in decks.COUNTS[1:]:
        points = decks.some_points(count)
        text = decks.deck_of(points, ((6,), (1,)))
        same(deck.read_deck(text), points)
        back = deck_calls.read_back(deck.traverse_text(GIVEN, points))
        if 2 <= count <= 65:
            same(back[:7], (0, 0, count, 0, *GIVEN))
            same(list(zip(back[7::2], back[8::2])), points)
            same(march.check_traverse(march.Traverse(*GIVEN, tuple(points))), None)
        else:
            same(back, (5, count, 0, 0))


def test_deck_faults():
    """One fault is answered, and the first of two."""
    for fault in decks.faults_of(range(7)):
        number, answer, _ = deck_calls.outcome(fault.change(decks.SOUND))
        same((number, answer), (fault.number, (fault.place, 0, 0)))
    met = set()
    for call, first in decks.fault_pairs():
        number, answer, _ = deck_calls.outcome(call)
        same((call, number, answer), (call, first.number, (first.place, 0, 0)))
        met.add((first.number, first.line))
    same(met, {(n, line) for n in (2, 15, 16) for line in (1, 4, 7)} | {(15, 2), (15, 3), (15, 5)}
         | {(3, 0), (6, 0), (8, 0), (17, 0)})  # fmt: skip


def test_deck_calls_reach_all():
    """Long decks are read and are refused at their first, middle and last card; of
    each number of refusal there are calls."""
    rng = random.Random(26)
    cards, met = [], []
    for call in decks.long_calls(rng):
        number, answer, _ = deck_calls.outcome(call)
        cards += [call.deck.count(b"\n")] * (number == 0)
        met.append(number if number in (0, 8, 17) else answer[0])
    same(cards, [20_000, 19_999, 77_000])
    last = [[0, 8, 1, n // 2 + n % 2, n, n, 17] for n in cards]
    same(met, [place for places in last for place in places])
    for kind in ("order", "line", "byte"):
        calls_of_it = decks.FIXED[kind](rng)
        numbers = {deck_calls.outcome(call)[0] for call in calls_of_it}
        same((kind, numbers >= {0, 2, 15, 17}), (kind, True))


# Mistakes: what each does in place of a function of the model, most of them by way of
# the right one.


def no_leading_nought(field, right=deck.is_digits):
    return right(field) and (field == b"0" or field[:1] != b"0")


def point_counted(field, right=deck.is_number):
    return right(field) and len(field) <= 8


def digits_on_both_sides(field, right=deck.is_number):
    return right(field) and b"" not in field.split(b".")


def fields_by(change, places):
    """The fields at these places changed before the card is judged."""

    def mistake(line, right=deck.card_of):
        fields = line.split(b" ")
        fields[places] = map(change, fields[places])
        return right(b" ".join(fields))

    return mistake


def of_word(change):
    return fields_by(change, slice(0, 1))


def of_numbers(change):
    return fields_by(change, slice(2, None))


def one_point_kept(field):
    whole, point, part = field.partition(b".")
    return whole + point + part.replace(b".", b"")


def of_line(change):
    return lambda line, right=deck.card_of: right(change(line))


def of_card(good):
    """A card that is not good is another shape."""

    def mistake(line, right=deck.card_of):
        card = right(line)
        return card if card and good(card) else None

    return mistake


def rounded_down(field):
    whole, _, part = field.partition(b".")
    return deck.UNITS * int(whole + part) // 10 ** len(part)


def one_decimal_at_most(field, right=deck.units):
    return right(field) if len(field.partition(b".")[2]) <= 1 else None


def numbers_go_on(card, before, right=deck.follows):
    if card.word == before.word:
        return right(card, before)
    return card.number == before.number + 1 and right(card._replace(number=1), before)


def gaps_taken(card, before, right=deck.follows):
    last = before.number if card.word == before.word else 0
    return card.number > last and right(card._replace(number=last + 1), before)


def from_nought(card, before, right=deck.follows):
    return right(card, before) or card[:2] == (deck.DIST, 0) and before == deck.START


def back_to_distances(card, before, right=deck.follows):
    return right(card, before) or card[:2] == (deck.DIST, 1) and before.word == deck.DEPTH


def distances_needed(card, before, right=deck.follows):
    return right(card, before) and (card.word != deck.DEPTH or before != deck.START)


def word_before_shape(line, ended, before, right=deck.judge):
    return right(line, ended, before) if line.startswith((deck.DIST, deck.DEPTH)) else 15


def part_before_word(line, ended, before, right=deck.judge):
    card = deck.card_of(line) if ended else None
    return 16 if card and None in map(deck.units, card.numbers) else right(line, ended, before)


def end_is_a_feed(line, ended, before, right=deck.judge):
    return right(line, True, before)


def shapes_first(text, right=deck.read_cards):
    lines = reader.Lines(text)
    bad = [n for n, l in enumerate(lines.lines, 1) if not (deck.card_of(l) and lines.ended(n))]
    return march.Refusal(2, bad[0]) if bad else right(text)


def told_of(text, number, place):
    """One text that is refused so."""
    return lambda given, right=deck.read_cards: (
        march.Refusal(number, place) if given == text else right(given)
    )


def last_empty_line_taken(text, right=deck.read_cards):
    return right(text[:-1] if text.endswith(b"\n\n") else text)


def of_columns(change):
    """Points made otherwise of the distances and depths."""

    def mistake(text):
        columns = deck.read_cards(text)
        return columns if isinstance(columns, march.Refusal) else change(*columns)

    return mistake


def paired(distances, depths, place):
    same_count = len(distances) == len(depths)
    return list(zip(distances, depths)) if same_count else march.Refusal(17, place)


def most_points(text, right=deck.read_deck):
    points = right(text)
    return points if len(points) <= 65 else march.Refusal(5, len(points))


def no_distances_first(text, right=deck.read_deck):
    return march.Refusal(17, 0) if text.startswith(deck.DEPTH) else right(text)


def friction_to_51(head, right=deck.check_given):
    return None if head[1] == 51 else right(head)


def level_from_nought(head, right=deck.check_given):
    return right(head) if head[2] >= 0 else march.Refusal(6, 0)


def room_to_spare(head, text, room, right=deck.convert):
    return right(head, text, room - 1)


def room_first(head, text, room, right=deck.convert):
    return right(head, text, room) if room >= 50 else march.Refusal(8, 0)


def deck_before_given(head, text, room, right=deck.convert):
    points = deck.read_deck(text)
    return points if isinstance(points, march.Refusal) else right(head, text, room)


def cut_to_room(head, text, room, right=deck.convert):
    made = right(head, text, 10**9)
    return made if isinstance(made, march.Refusal) else made[:room]


OUR_WORDS = {b"DI": deck.DIST, b"DE": deck.DEPTH}
# The mistake, where it stands, what stands there, and a kind of call that has to
# notice it, as the cases by hand have to.
DECK_MISTAKES = (
    ("seven digits at most", "MOST_DIGITS", 7, "number"),
    ("nine digits", "MOST_DIGITS", 9, "digit"),
    ("five numbers at most", "MOST_NUMBERS", 5, "step"),
    ("seven numbers", "MOST_NUMBERS", 7, "line"),
    ("whole miles and feet", "UNITS", 1, "step"),
    ("hundredths", "UNITS", 100, "number"),
    ("no leading nought", "is_digits", no_leading_nought, "card"),
    ("point counted", "is_number", point_counted, "number"),
    ("digits on both sides of a point", "is_number", digits_on_both_sides, "number"),
    ("a point alone", "card_of", of_numbers(lambda f: b"0" if f == b"." else f), "digit"),
    ("two points", "card_of", of_numbers(one_point_kept), "number"),
    ("a sign", "card_of", of_numbers(lambda f: f.lstrip(b"+-")), "number"),
    ("any white space", "card_of", of_line(lambda line: b" ".join(line.split())), "line"),
    ("a carriage return", "card_of", of_line(lambda line: line.removesuffix(b"\r")), "line"),
    ("spaces at the end", "card_of", of_line(lambda line: line.rstrip(b" ")), "line"),
    ("card number 0 another shape", "card_of", of_card(lambda card: card.number), "card"),
    ("a wrong word another shape", "card_of", of_card(lambda card: card.word in OUR_WORDS.values()), "word"),
    ("capitals or not", "card_of", of_word(bytes.upper), "word"),
    ("a word to its zero byte", "card_of", of_word(lambda f: f.split(b"\x00")[0]), "word"),
    ("a word by its beginning", "card_of", of_word(lambda f: OUR_WORDS.get(f[:2], f)), "word"),
    ("white space in a word", "card_of", of_word(bytes.strip), "word"),
    ("rounded down", "units", rounded_down, "number"),
    ("one decimal at most", "units", one_decimal_at_most, "number"),
    ("card numbers that go on", "follows", numbers_go_on, "step"),
    ("card numbers with gaps", "follows", gaps_taken, "card"),
    ("card numbers from 0", "follows", from_nought, "card"),
    ("distances after depths", "follows", back_to_distances, "order"),
    ("distances needed", "follows", distances_needed, "count"),
    ("15 before 2", "judge", word_before_shape, "pair"),
    ("16 before 15", "judge", part_before_word, "pair"),
    ("no last line feed", "judge", end_is_a_feed, "line"),
    ("2 of all lines first", "read_cards", shapes_first, "pair"),
    ("no byte a line", "read_cards", told_of(b"", 2, 1), "given"),
    ("place 1 for no byte", "read_cards", told_of(b"", 3, 1), "given"),
    ("a lone line feed no line", "read_cards", told_of(b"\n", 3, 0), "given"),
    ("an empty line at the end", "read_cards", last_empty_line_taken, "line"),
    ("17 with the depths", "read_deck", of_columns(lambda a, b: paired(a, b, len(b))), "count"),
    ("17 with 65 at most", "read_deck", of_columns(lambda a, b: paired(a, b, min(65, len(a)))), "count"),
    ("the shorter count", "read_deck", of_columns(lambda a, b: list(zip(a, b))), "count"),
    ("depths before distances", "read_deck", of_columns(lambda a, b: paired(b, a, len(a))), "step"),
    ("shore to sea", "read_deck", of_columns(lambda a, b: paired(a[::-1], b[::-1], len(a))), "step"),
    ("65 points at most", "read_deck", most_points, "step"),
    ("17 before the cards", "read_deck", no_distances_first, "order"),
    ("friction 51", "check_given", friction_to_51, "given"),
    ("no level below 0", "check_given", level_from_nought, "given"),
    ("room to spare", "convert", room_to_spare, "room"),
    ("the room first", "convert", room_first, "pair"),
    ("the deck before the given values", "convert", deck_before_given, "given"),
    ("a text cut to its room", "convert", cut_to_room, "room"),
)


def hand_outcomes():
    """Of all decks by hand."""
    asked = [(GIVEN, text, 1000) for text, _ in DECKS]
    asked += [(head, text, room) for text, head, room, _ in DECK_CALLS]
    numbers = (*DECK_NUMBERS, *DECK_PARTS, *DECK_SHAPES)
    asked += [(GIVEN, b"DIST 1 %s\nDEPTH 1 2\n" % number, 1000) for number in numbers]
    return [deck.convert(*call) for call in asked]


def test_deck_mistakes_are_noticed():
    kinds = sorted({kind for *_, kind in DECK_MISTAKES})
    asked = {kind: list(decks.FIXED[kind](random.Random(27))) for kind in kinds}
    right = {kind: [deck_calls.outcome(call) for call in asked[kind]] for kind in kinds}
    by_hand = hand_outcomes()
    for label, name, mistake, kind in DECK_MISTAKES:
        with mock.patch.object(deck, name, mistake):
            wrong = [deck_calls.outcome(call) for call in asked[kind]]
            hand = sum(a != b for a, b in zip(hand_outcomes(), by_hand))
        noticed = sum(a != b for a, b in zip(wrong, right[kind]))
        shown = (label, noticed, len(wrong), hand, len(by_hand))
        print("  %-32s noticed in %4d of %4d calls, in %d of %d by hand" % shown)
        assert noticed > 1 and hand > 0, label


# The customer's table of document 02, by hand from its readings.

LINEAR = tuple(range(10_000, -1, -10))
FACTOR = b"factor\n"
LINEAR_TEXT = FACTOR + b"".join(b"%d\n" % entry for entry in LINEAR)


def numbered(*lines):
    """The text of a table with some lines another one, by their numbers; one behind the
    last is one more."""
    text = LINEAR_TEXT.split(b"\n")
    for number, line in lines:
        text[number - 1 : number] = [line] if number < len(text) else [line, b""]
    return b"\n".join(text)


def of_entries(*entries):
    return FACTOR + b"".join(b"%d\n" % entry for entry in entries)


# The last lines of 1,500: more entries than there are in a table, the last malformed.
LONG_TABLE = LINEAR_TEXT + b"0\n" * 497

# Text: the refusal's number and place, or None where it is loaded. Line 2 has entry 0.
PROFILE_TEXTS = (
    (LINEAR_TEXT, None),
    (b"", (1, 1)),
    (b"\n", (1, 1)),
    (b"factor", (1, 1)),
    (b"factors\n", (1, 1)),
    (b"Factor\n" + LINEAR_TEXT[7:], (1, 1)),
    (b" " + LINEAR_TEXT, (1, 1)),
    (b"factor \n" + LINEAR_TEXT[7:], (1, 1)),
    (LINEAR_TEXT.replace(b"\n", b"\r\n"), (1, 1)),
    (b"\xef\xbb\xbf" + LINEAR_TEXT, (1, 1)),
    (b"factors\n" + LINEAR_TEXT[7:], (1, 1)),
    (b"factors\n9999\nx\n", (1, 1)),
    (LINEAR_TEXT[7:], (1, 1)),
    # a names line alone; entry 5 missing; one too many; a bad entry 7 in a table of 8
    (FACTOR, (20, 0)),
    (of_entries(*LINEAR[:1]), (20, 1)),
    (of_entries(*LINEAR[:5]), (20, 5)),
    (of_entries(*LINEAR[:1000]), (20, 1000)),
    (of_entries(*LINEAR, 0), (20, 1001)),
    (of_entries(*LINEAR, 0, 0), (20, 1001)),
    (of_entries(10_000, 9, 8, 7, 6, 5, 4, 5), (20, 7)),
    (of_entries(10_000, 9, 8, 7, 6, 5, 4, -1), (20, 7)),
    # of 1,006 entries only entry 1,005 rises, is below 0
    (of_entries(*LINEAR, 0, 0, 0, 0, 1), (20, 1001)),
    (of_entries(*LINEAR, 0, 0, 0, 0, -1), (20, 1001)),
    (of_entries(*LINEAR, 1), (20, 1001)),
    (of_entries(*LINEAR[:1000], 11, 0), (20, 1000)),
    # entry 0
    (numbered((2, b"9999")), (20, 0)),
    (numbered((2, b"10001")), (20, 0)),
    (numbered((2, b"0")), (20, 0)),
    (of_entries(*LINEAR[1:]), (20, 0)),
    # a rise by 1, an equal entry, 0 and below 0
    (numbered((3, b"10001")), (20, 1)),
    (numbered((3, b"10000")), None),
    (numbered((3, b"9979")), (20, 2)),
    (numbered((502, b"5011")), (20, 500)),
    (numbered((502, b"5010")), None),
    (numbered((1002, b"11")), (20, 1000)),
    (numbered((1002, b"10")), None),
    (numbered((1002, b"-1")), (20, 1000)),
    (numbered((1001, b"0")), None),
    (numbered((1001, b"-1")), (20, 999)),
    (numbered((1001, b"-1"), (7, b"9961")), (20, 5)),
    (of_entries(10_000, *[0] * 1000), None),
    (of_entries(*[10_000] * 1001), None),
    (of_entries(10_000, *[0] * 999, 1), (20, 1000)),
    # malformed lines, before any entry: a line 1,500 before a bad entry 0
    (LINEAR_TEXT[:-1], (2, 1002)),
    (LINEAR_TEXT + b"\n", (2, 1003)),
    (LINEAR_TEXT + b"0", (2, 1003)),
    (FACTOR + b"\n", (2, 2)),
    (FACTOR + b"10000", (2, 2)),
    (FACTOR + FACTOR, (2, 2)),
    (of_entries(9999) + b"00\n", (2, 3)),
    (LONG_TABLE, (20, 1001)),
    (LONG_TABLE + b"-0\n", (2, 1500)),
    ((LONG_TABLE + b"-0\n").replace(b"10000", b"9999"), (2, 1500)),
    (numbered((2, b"9999"), (1002, b"0 0")), (2, 1002)),
    (numbered((5, b"9970 "), (900, b"1.0")), (2, 5)),
    (numbered((502, b"999999999")), (20, 500)),
    (numbered((502, b"-999999999")), (20, 500)),
    (numbered((502, b"1000000000")), (2, 502)),
    (numbered((502, b"-1000000000")), (2, 502)),
    (numbered((2, b"10000\r")), (2, 2)),
    (numbered((2, b"+10000")), (2, 2)),
    (numbered((2, b"010000")), (2, 2)),
    (numbered((2, b"\t10000")), (2, 2)),
    (numbered((2, b"10000\x00")), (2, 2)),
    (numbered((2, b"1\xd9\xa3")), (2, 2)),
    (numbered((1002, b"-")), (2, 1002)),
)  # fmt: skip

# Of a text and room for so many numbers.
PROFILE_LOADS = (
    (LINEAR_TEXT, 1001, None),
    (LINEAR_TEXT, 1002, None),
    (LINEAR_TEXT, 5000, None),
    (LINEAR_TEXT, 1000, (8, 0)),
    (LINEAR_TEXT, 0, (8, 0)),
    (numbered((2, b"9999")), 0, (20, 0)),
    (of_entries(*LINEAR[:1000]), 1000, (20, 1000)),
    (LINEAR_TEXT[:-1], 0, (2, 1002)),
    (b"", 0, (1, 1)),
)


def load_outcome(text, room=1001):
    """Number and place of a refusal, or None where the table is loaded, and the room as
    it is left."""
    lent = [-7 - i for i in range(room)]
    told = profile.load(text, lent)
    return tuple(told) if isinstance(told, march.Refusal) else None, lent


def test_profile_texts():
    for text, want in PROFILE_TEXTS:
        same((text, load_outcome(text)[0]), (text, want))
    for text, room, want in PROFILE_LOADS:
        told, left = load_outcome(text, room)
        same((text, room, told), (text, room, want))
        if want:
            same(left, [-7 - i for i in range(room)])
        else:
            same((left[:1001], left[1001:]), (list(LINEAR), [-7 - i for i in range(1001, room)]))


def table_place(*entries):
    """The entry that 20 tells of a table that is lent."""
    refusal = profile.check_table(entries)
    return refusal and (refusal.number, refusal.place)


def test_lent_tables():
    same(table_place(*LINEAR), None)
    same(table_place(*hurricane.own_table()), None)
    same([table_place(*LINEAR[:n]) for n in (0, 1, 5, 1000)], [(20, n) for n in (0, 1, 5, 1000)])
    same([table_place(*LINEAR, *more) for more in ((0,), (1,), (-5,) * 9)], [(20, 1001)] * 3)
    same(table_place(10_000, 9, 8, 7, 6, 5, 4, 5), (20, 7))
    same(table_place(*LINEAR[:1000], 11, 11), (20, 1000))
    ends = -(2**63), 2**63 - 1
    same([table_place(end, *LINEAR[1:]) for end in (*ends, 9_999, 10_001)], [(20, 0)] * 4)
    for place in (1, 500, 1000):
        wrong = [LINEAR[:place] + (end,) + LINEAR[place + 1 :] for end in ends]
        same([table_place(*table) for table in wrong], [(20, place)] * 2)
    same(profile.check_table(range(2**33)), (20, 0))


def test_profile_call():
    """Room, answer and protocol of both calls."""
    call = profiles.Loading(1003, (7, 8, 9), LINEAR_TEXT)
    lent = [-8_000_001 - i for i in range(1003)]
    same(profile_calls.outcome(call), (0, (0, 0, 0), [*LINEAR, *lent[1001:]]))
    same(profile_calls.outcome(call._replace(room=1000)), (8, (0, 0, 0), lent[:1000]))
    same(profile_calls.outcome(call._replace(text=FACTOR)), (20, (0, 0, 0), lent))
    same(profile_calls.outcome(call._replace(text=LINEAR_TEXT[:-1])), (2, (1002, 0, 0), lent))
    same(profile_calls.outcome(call._replace(answer=(7, 8))), (255, (7, 8), lent))
    same(profile_calls.outcome(call._replace(room=2**32))[2][1000:1003], [0, 0, 0])
    same(profile_calls.asked(call._replace(text=b"\n")), ("profile 1003 3 7 8 9 0a", "1 3 1 0 0 0"))
    same(profile_calls.asked(call._replace(text=b"", room=1))[0], "profile 1 3 7 8 9 -")
    want = "0 3 0 0 0 1001 " + " ".join(map(str, LINEAR))
    same(profile_calls.asked(call)[1], want)
    # of blank pages the last entry, 0, is as it was
    same(profile_calls.asked(call._replace(room=2**32))[1], want.replace(" 1001 ", " 1000 ")[:-2])
    making = profiles.Making(LINEAR[:2], hurricanes.SOUND)
    request, answer = profile_calls.asked(making)
    same(request, make_calls.request(hurricanes.SOUND).replace("make ", "make_with 2 10000 9990 "))
    same(answer.split()[:4], ["20", "3", "2", "0"])
    same(profile_calls.asked(profiles.Making(range(2**32), hurricanes.SOUND))[0].split()[:3],
         ["make_with", str(2**32), "2800"])  # fmt: skip


def test_made_with_table():
    """By hand, R 300 and a drop of 300: at m hundredths of R/r the deficit is 3m/10."""
    sites = [(r, 0, 900) for r in (0, 30, 31, 300, 301, 600, 2000, 10_000)]
    call = hurricanes.call_of(storm_at(), ((400, 1000),), sites)
    number, answer, room = profile_calls.outcome(profiles.Making(LINEAR, call))
    same((number, answer), (0, (0, 1800, -35)))
    # m: 1,000 twice, 967, 100, 99, 50, 15, 3
    same(room[2::3], [300, 300, 290, 30, 29, 15, 4, 0])
    for table, want in (((10_000,) * 1001, 0), ((10_000,) + (0,) * 1000, 300)):
        same(set(profile_calls.outcome(profiles.Making(table, call))[2][2::3]), {want})
    tables = LINEAR[:1000], LINEAR + (0,), (9_999,) + LINEAR[1:]
    told = [profile_calls.outcome(profiles.Making(t, call._replace(radius=0)))[:2] for t in tables]
    same(told, [(20, (place, 0, 0)) for place in (1000, 1001, 0)])
    same(profile_calls.outcome(profiles.Making(LINEAR, call._replace(radius=0)))[:2], (13, (0, 0, 0)))
    same(profile_calls.outcome(profiles.Making((), call._replace(answer=(1,))))[:2], (255, (1,)))


def test_made_with_own_table():
    """Our own table lent is the storm maker without one."""
    rng = random.Random(40)
    own = hurricane.own_table()
    for call in (*hurricanes.random_calls(rng, 400), *hurricanes.limit_calls(rng)):
        same(profile_calls.outcome(profiles.Making(own, call)), make_calls.outcome(call))
    traverse = march.Traverse(300, 25, 0, ((10, 500), (0, 500)))
    track = track_of((0, 1800, 600))
    ours = hurricane.listing(traverse, track)
    same(hurricane.listing(traverse, track, table=own), ours)
    same(hurricane.listing(traverse, track, table=LINEAR) != ours, True)
    same(hurricane.listing(traverse, track, table=own[:1000]), NAMES + b"refused 20 1000\n")


def test_profile_faults():
    """One fault is answered, and the first of two; of making, 20."""
    for fault in profiles.faults():
        same(profile_calls.outcome(fault.change(profiles.SOUND))[:2], (fault.number, (fault.told, 0, 0)))
    met = set()
    for call, first in (*profiles.unlike(profiles.fault_pairs()), *profiles.surplus_pairs()):
        number, answer, room = profile_calls.outcome(call)
        same((call, number, answer), (call, first.number, (first.told, 0, 0)))
        same(room, profile_calls.lent_room(call.room))
        met.add((number, answer[0]))
    lines = {(2, line) for line in (2, 3, 502, 1002, 1003, 1004, 1500, 1601)}
    same(met, {(1, 1), (8, 0)} | lines | {(20, place) for place in (*profiles.PLACES, 1001)})
    seconds = collections.Counter()
    for making, place in profiles.making_pairs():
        number, answer, room = profile_calls.outcome(making)
        same((number, answer, tuple(room)), (20, (place, 0, 0), making.call.room))
        own = make_calls.outcome(making.call)
        seconds[own[0], own[1][0] > 0] += 1
    same(sorted(seconds), [(8, False), (13, False), (13, True), (14, True)])


def test_profile_calls_reach_all():
    """Each of the 1,001 entries is told by loading and by making, lies on both edges
    that pass, and is met by storms."""
    told, met, rng = collections.defaultdict(set), set(), random.Random(41)
    for kind in ("badload", "badmake"):
        for call in profiles.FIXED[kind](rng):
            number, answer, _ = profile_calls.outcome(call)
            same(number, 20)
            told[kind].add(answer[0])
    same([told[kind] == set(range(1001)) for kind in ("badload", "badmake")], [True, True])
    for call in itertools.islice(profiles.makings(rng, LINEAR, 300), 100):
        storm = hurricane.Hurricane(*call.call[:5])
        places = make_calls.groups(call.call.sites, 3)
        met.update(hurricane.hundredths(storm.radius, hurricane.distance(storm, site)) for site in places)
    same(met, set(range(1001)))
    for table in profiles.TABLES:
        same(profile.check_table(table), None)
    same(len(set(profiles.TABLES)), len(profiles.TABLES))
    same({profile.check_table(profiles.random_table(rng)) for _ in range(200)}, {None})


# Mistakes: what each does in place of a function of the model, most of them by way of
# the right one.


def entry_where(bad):
    """An entry of which `bad` says that it is bad."""
    return lambda table, place, right=profile.is_bad: bad(table, place, right(table, place))


def entry_0_at_most(table, place, wrong):
    return table[0] > profile.WHOLE if place == 0 else wrong


def above_alone(table, place, wrong):
    return wrong if place == 0 else table[place] > table[place - 1]


def below_alone(table, place, wrong):
    return wrong if place == 0 else table[place] < 0


def must_fall(table, place, wrong):
    return wrong or place > 0 and table[place] == table[place - 1]


def rises_by_two(table, place, wrong):
    return wrong and not (place and table[place] == table[place - 1] + 1 >= 0)


def nought_bad(table, place, wrong):
    return wrong or table[place] == 0


def below_minus_one(table, place, wrong):
    return wrong and not (place and table[place] == -1 < table[place - 1])


def last_free(table, place, wrong):
    return wrong and place < 1000


def below_entry_0(table, place, wrong):
    """Each entry held against entry 0 instead of the one before it."""
    return wrong if place == 0 else not 0 <= table[place] <= table[0]


def in_32_bits(table, right=profile.check_table):
    return right(tuple((entry + 2**31) % 2**32 - 2**31 for entry in table[:2000]) if len(table) < 2001 else table)


def place_by(change):
    """Another place where a table is refused."""

    def mistake(table, right=profile.check_table):
        refusal = right(table)
        return refusal and refusal._replace(place=change(refusal.place, len(table)))

    return mistake


def surplus_after(place, count):
    return count if place == 1001 else place


def surplus_last(place, count):
    return count - 1 if place == 1001 else place


def missing_after(place, count):
    return place + 1 if place == count < 1001 else place


def missing_before(place, count):
    return max(0, place - 1) if place == count < 1001 else place


def counts_first(table, right=profile.check_table):
    if len(table) != 1001:
        return march.Refusal(20, min(len(table), 1001))
    return right(table)


def surplus_judged(table, right=profile.check_table):
    """A bad entry behind the 1,001st told before the surplus."""
    if len(table) > 10_000:
        return right(table)
    return next((march.Refusal(20, p) for p in range(len(table)) if profile.is_bad(table, p)), right(table))


def surplus_taken(table, right=profile.check_table):
    return right(table[:1001])


def text_by(change):
    """The text changed before it is read."""
    return lambda text, right=profile.read_table: right(change(text))


def missing_noughts(text, right=profile.read_table):
    told = right(text)
    return told if isinstance(told, march.Refusal) else told + [0] * (1001 - len(told))


def one_feed(text):
    return text[:-1] if text.endswith(b"\n\n") else text


def first_lines(text, right=profile.read_table):
    """Lines behind those of 1,001 entries not judged by 2."""
    told = right(text)
    if isinstance(told, march.Refusal) and told.place > 1002:
        return right(b"".join(text.splitlines(True)[:1003])) if told.place > 1003 else [*LINEAR, 0]
    return told


def lines_of_entries(text, right=profile.read_table):
    told = right(text)
    return told._replace(place=told.place - 1) if told == (2, getattr(told, "place", 0)) else told


def entries_first(text, right=profile.read_table):
    """20 before 2: the entries before the malformed line judged first."""
    told = right(text)
    if told != (2, getattr(told, "place", 0)):
        return told
    before = right(b"".join(text.splitlines(True)[: told.place - 1]))
    if any(profile.is_bad(before, place) for place in range(min(len(before), 1001))):
        return before
    return told


def ended(text, right=profile.read_table):
    """3 where the text ends before its 1,001st entry."""
    told = right(text)
    if isinstance(told, march.Refusal) or len(told) >= 1001:
        return told
    return march.Refusal(3, 1 + len(told))


def no_values(text, right=profile.read_table):
    return march.Refusal(3, 1) if text == FACTOR else right(text)


def no_text(text, right=profile.read_table):
    return march.Refusal(1, 0) if text == b"" else right(text)


def room_first(text, room, right=profile.load):
    return profile.check_room(room) or right(text, room)


def room_after_lines(text, room, right=profile.load):
    told = right(text, room)
    return profile.check_room(room) or told if told == (20, getattr(told, "place", 0)) else told


def exact_room(room):
    return march.Refusal(8, 0) if len(room) != 1001 else None


def room_of_1000(room):
    return march.Refusal(8, 0) if len(room) < 1000 else None


def written_on_refusal(text, room, right=profile.load):
    """The good entries written though a later one is bad."""
    told = right(text, room)
    if told == (20, getattr(told, "place", 0)) and len(room) >= 1001:
        table = profile.read_table(text)
        room[: told.place] = table[: told.place]
    return told


def spare_written(text, room, right=profile.load):
    told = right(text, room)
    if not isinstance(told, march.Refusal):
        room[1001:] = [0] * len(room[1001:])
    return told


def ours_loaded(text, room, right=profile.load):
    told = right(text, room)
    if not isinstance(told, march.Refusal):
        room[:1001] = hurricane.own_table()
    return told


def made_by(judge):
    """A storm maker that judges its table otherwise."""

    def mistake(storm, seconds, tide, winds, sites, room, table, right=hurricane.make_record):
        return judge(lambda given: right(storm, seconds, tide, winds, sites, room, given), table, room)

    return mistake


def storm_first(make, table, room):
    told = make(list(hurricane.own_table()))
    return told if isinstance(told, march.Refusal) else make(table)


def own_for_good(make, table, room):
    return profile.check_table(table) or make(None)


def own_for_bad(make, table, room):
    return make(table if profile.check_table(table) is None else None)


def next_entry(storm, r, table, right=hurricane.deficit):
    return right(storm, r, table[1:] + table[-1:])


def entry_for_far(storm, r, table, right=hurricane.deficit):
    """The part that is left taken for the part that is gone."""
    drop = storm.edge - storm.centre
    return drop * table[hurricane.hundredths(storm.radius, r)] // 10_000


# The mistake, the module and the name that it stands for, what stands there, and a kind
# of call that has to notice it, as the cases by hand have to.
PROFILE_MISTAKES = (
    ("entry 0 not judged", profile, "is_bad", entry_where(lambda t, p, w: w and p > 0), "badmake"),
    ("entry 0 at most 10,000", profile, "is_bad", entry_where(entry_0_at_most), "badmake"),
    ("a rise accepted", profile, "is_bad", entry_where(below_alone), "badload"),
    ("a rise by 1 accepted", profile, "is_bad", entry_where(rises_by_two), "badmake"),
    ("below 0 accepted", profile, "is_bad", entry_where(above_alone), "badload"),
    ("-1 accepted", profile, "is_bad", entry_where(below_minus_one), "badmake"),
    ("0 refused", profile, "is_bad", entry_where(nought_bad), "edge"),
    ("equal entries refused", profile, "is_bad", entry_where(must_fall), "edge"),
    ("the last entry not judged", profile, "is_bad", entry_where(last_free), "badmake"),
    ("entries held against entry 0", profile, "is_bad", entry_where(below_entry_0), "badmake"),
    ("counted from 1", profile, "check_table", place_by(lambda place, count: place + 1), "badload"),
    ("surplus with the count", profile, "check_table", place_by(surplus_after), "count"),
    ("surplus with the last", profile, "check_table", place_by(surplus_last), "count"),
    ("missing with the one behind", profile, "check_table", place_by(missing_after), "count"),
    ("missing with the last", profile, "check_table", place_by(missing_before), "count"),
    ("missing and surplus first", profile, "check_table", counts_first, "count"),
    ("bad ones behind before surplus", profile, "check_table", surplus_judged, "count"),
    ("surplus accepted", profile, "check_table", surplus_taken, "count"),
    ("missing entries 0", profile, "read_table", missing_noughts, "count"),
    ("names line `factors`", profile, "read_table", text_by(lambda t: t.replace(b"factors\n", FACTOR, 1)), "names"),
    ("names line by capitals", profile, "read_table", text_by(bytes.lower), "names"),
    ("names line with spaces", profile, "read_table", text_by(lambda t: t.replace(b"factor \n", FACTOR, 1)), "names"),
    ("a byte-order mark", profile, "read_table", text_by(lambda t: t.removeprefix(b"\xef\xbb\xbf")), "names"),
    ("carriage returns", profile, "read_table", text_by(lambda t: t.replace(b"\r\n", b"\n")), "line"),
    ("no last line feed", profile, "read_table", text_by(lambda t: t.removesuffix(b"\n") + b"\n"), "whole"),
    ("an empty line at the end", profile, "read_table", text_by(one_feed), "whole"),
    ("place 0 for an empty text", profile, "read_table", no_text, "names"),
    ("2 in the first 1,002 lines alone", profile, "read_table", first_lines, "pair"),
    ("2 with the entry", profile, "read_table", lines_of_entries, "line"),
    ("20 before 2", profile, "read_table", entries_first, "pair"),
    ("3 for a short table", profile, "read_table", ended, "count"),
    ("3 for a names line alone", profile, "read_table", no_values, "names"),
    ("8 first of all", profile, "load", room_first, "pair"),
    ("8 before 20", profile, "load", room_after_lines, "pair"),
    ("just so much room", profile, "check_room", exact_room, "room"),
    ("room for 1,000", profile, "check_room", room_of_1000, "room"),
    ("room written on refusal", profile, "load", written_on_refusal, "badload"),
    ("spare room written", profile, "load", spare_written, "room"),
    ("our table loaded", profile, "load", ours_loaded, "chain"),
    ("13 before 20", hurricane, "make_record", made_by(storm_first), "pair"),
    ("20 not judged in making", hurricane, "make_record", made_by(own_for_bad), "badmake"),
    ("our own table used", hurricane, "make_record", made_by(own_for_good), "chain"),
    ("the entry behind", hurricane, "deficit", next_entry, "step"),
    ("the part that is gone", hurricane, "deficit", entry_for_far, "chain"),
)  # fmt: skip


def profile_outcomes():
    """Of all tables by hand: texts, loads, and storms made with them."""
    told = [load_outcome(text) for text, _ in PROFILE_TEXTS]
    told += [load_outcome(text, room) for text, room, _ in PROFILE_LOADS]
    sites = [(r, 0, 900) for r in (300, 301, 2000)]
    call = hurricanes.call_of(storm_at(), ((400, 1000),), sites)
    tables = LINEAR, LINEAR[:1000], (*LINEAR, 0), (*LINEAR, 1), LINEAR[:999] + (10, 11)
    for table in (*tables, (9_999,) + LINEAR[1:], (10_000, *[0] * 999, -1)):
        told += [profile_calls.outcome(profiles.Making(table, c)) for c in (call, call._replace(radius=0))]
    return told


def test_profile_mistakes_are_noticed():
    kinds = sorted({kind for *_, kind in PROFILE_MISTAKES})
    # a part of the long lists
    steps = {"badload": 9, "edge": 9, "pair": 6, "line": 2, "chain": 3, "count": 3, "room": 2}
    asked = {kind: list(profiles.FIXED[kind](random.Random(42)))[:: steps.get(kind, 1)] for kind in kinds}
    right = {kind: [profile_calls.outcome(call) for call in asked[kind]] for kind in kinds}
    by_hand = profile_outcomes()
    for label, module, name, mistake, kind in PROFILE_MISTAKES:
        with mock.patch.object(module, name, mistake):
            wrong = [profile_calls.outcome(call) for call in asked[kind]]
            hand = sum(a != b for a, b in zip(profile_outcomes(), by_hand))
        noticed = sum(a != b for a, b in zip(wrong, right[kind]))
        shown = (label, noticed, len(wrong), hand, len(by_hand))
        print("  %-32s noticed in %4d of %4d calls, in %d of %d by hand" % shown)
        assert noticed > 1 and hand > 0, label


def main():
    passed = failed = 0
    for name, test in list(globals().items()):
        if not name.startswith("test_"):
            continue
        started = time.time()
        try:
            test()
            passed += 1
            print("%-32s %.1f s" % (name, time.time() - started))
        except Exception:
            failed += 1
            print(name, "FAILED")
            traceback.print_exc(file=sys.stdout)
    print("%d passed, %d failed" % (passed, failed))
    return 1 if failed else 0


if __name__ == "__main__":
    sys.exit(main())
