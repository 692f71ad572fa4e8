# Compares the calls of the product's library with the model, through a driver:
# a program that reads one request a line from standard input, makes the call,
# and writes one answer a line to standard output, in the same order.
#
#   python3 calls.py DRIVER CASES SEED [--only KIND,KIND..]
#
# Before the random records come those of gen/calms.py and of gen/held.py, whatever the
# seed, and before the random calls of the harbour panel those of gen/panels.py, each
# asked of our own program's calls too, and those of gen/held.py, which it takes.
#
# THE PROTOCOL. A request is a word and whole decimal numbers, an answer whole
# decimal numbers, all separated by one space, each line ended by a line feed.
# Numbers fit 64 bits with sign. A driver that does not offer a call, or whose
# product has a type that cannot hold a number of the request, answers `skip`.
#
# Request                                              Answer
# sine A                                               N
# cosine A                                             N
# coefficient W                                        NUMERATOR SQUARE
#     W from 1: k of equation 9a in 10^-7, a whole number over W squared
# stress W                                             Q
# force SECONDS OLD NEW                                LOW HIGH
#     OLD, NEW: previous and present sum of two cross stresses
# flux VLOW VHIGH FLOW FHIGH C DLOW DHIGH              LOW HIGH
#     the step before the limit; C: kappa times seconds; D: water depth
# speed FRICTION SUM                                   B
#     the limiting speed of a sum of two cross stresses
# held B VLOW VHIGH FLOW FHIGH C DLOW DHIGH            LOW HIGH
#     the new flux over all choices, held by the limit that B gives in each depth
# gain X S VLOW VHIGH Y DLOW DHIGH                     LOW HIGH
#     S: sine of the latitude; Y: sum of two onshore stresses
# segment FRICTION SINE X DEPTHS LEVEL DEFICITS SECONDS FIRST VLOW VHIGH OLD NEW
#         Y SLOW SHIGH                                 0 VLOW VHIGH SLOW SHIGH
#     DEPTHS, DEFICITS: sums over the two ends;        or NUMBER (10, 11 or 12)
#     LEVEL: initial plus tide; FIRST: 1 in a first record (SECONDS, V and OLD
#     are then 0), else 0; SLOW SHIGH: setup before, in the answer after
# open TRAVERSE                                        0 ELAPSED ACCEPTED
#                                                      or NUMBER PLACE
# record TRAVERSE ELAPSED ACCEPTED ROWS PLACES SECONDS TIDE POINTS
#                           NUMBER PLACE LOW HIGH ELAPSED ACCEPTED ROWS PLACES
#     NUMBER and PLACE are 0 for an accepted record, LOW and HIGH are 0 for a
#     refused one; the state, all rows and all places are given as the call left
#     them, refused or not.
# panel_open, panel_record: as open and as record, of the harbour panel's calls, whose
#     traverse has 17 points at most. A storm may go from one pair of calls to the other.
#
# TRAVERSE: LATITUDE FRICTION INITIAL COUNT, then COUNT times DISTANCE DEPTH
# ACCEPTED: 1 where a first record was accepted, else 0
# ROWS:     COUNT, then COUNT times FLUXLOW FLUXHIGH SUM; lend exactly these
# PLACES:   the length of the setup buffer, then its numbers; lend exactly these
# POINTS:   COUNT, then COUNT times WIND ANGLE DEFICIT
# Where a COUNT is above 100, nothing follows it, in the answer neither: the call
# is given so many points or rows, all their numbers 0.
#
# force, flux, gain and segment are asked within the limits of document 01 alone, and so
# are speed and held, with B from 0 to 16,634; the opening of a traverse and a record
# with anything.

import argparse
import collections
import copy
import itertools
import random
import subprocess
import sys
import tempfile
import time

from gen import calms, edges, held, panels, values
from gen.run import Run
from model import forcing, march, ranges
from model.sine import cosine, sine

KINDS = (
    "sine", "cosine", "coefficient", "stress", "force", "flux", "speed", "held", "gain", "segment",
    "open", "record", "panel_open", "panel_record",
)
# A pair of calls: the words of a request, and the most points of a traverse.
Pair = collections.namedtuple("Pair", "open record most")
OWN = Pair("open", "record", march.MOST_POINTS)
PANEL = Pair("panel_open", "panel_record", march.PANEL_MOST_POINTS)
SHOWN = 5
LARGE = (2**31 - 1, 2**31, 2**32, -(2**31) - 1, 2**62, 2**63 - 1, -(2**63))
SUM = march.CROSS_SUM[1]
# A limiting speed, up to that of the greatest sum at the least friction.
SPEED = 0, held.greatest(march.FRICTION[0])


def line(*numbers):
    return " ".join(str(n) for n in numbers)


# Small numbers within limits, for the inner calls.


def number_in(rng, limits):
    low, high = limits
    kind = rng.random()
    if kind < 0.15:
        return rng.choice(limits)
    if kind < 0.35:
        return max(low, min(high, rng.randint(-20, 20)))
    if kind < 0.5:
        return max(low, min(high, low + rng.randint(0, 20)))
    size = max(abs(low), abs(high)) ** rng.random()
    return max(low, min(high, int(rng.choice((-1, 1)) * size)))


def range_in(rng, limits):
    """One number, two neighbours, or any two numbers."""
    first = number_in(rng, limits)
    kind = rng.random()
    if kind < 0.3:
        return first, first
    if kind < 0.5:
        return first, min(limits[1], first + rng.randint(1, 3))
    return tuple(sorted((first, number_in(rng, limits))))


def ask_force(rng):
    seconds = number_in(rng, march.LATER_SECONDS)
    old, new = (rng.choice((rng.randint(-SUM, SUM), number_in(rng, (-SUM, SUM)))) for _ in "ab")
    return line("force", seconds, old, new), line(*forcing.force_range(seconds, old, new))


def ask_flux(rng):
    v = range_in(rng, march.FLUX)
    force = range_in(rng, held.FORCE)
    drag = rng.randint(10, 50) * number_in(rng, march.LATER_SECONDS)
    depth = range_in(rng, march.WATER_DEPTH)
    return line("flux", *v, *force, drag, *depth), line(*ranges.flux_range(v, force, drag, depth))


def ask_one_speed(friction, total):
    return line("speed", friction, total), line(forcing.limiting_speed(friction, total))


def ask_speed(rng):
    total = rng.choice((rng.randint(-SUM, SUM), number_in(rng, march.CROSS_SUM)))
    return ask_one_speed(rng.randint(*march.FRICTION), total)


def ask_one_held(speed, v, force, drag, depth):
    answer = ranges.held_range(speed, v, force, drag, depth)
    return line("held", speed, *v, *force, drag, *depth), line(*answer)


def held_requests(rng):
    """In turn a binding that is wanted, numbers near the limit, and any numbers."""
    for given in held.choices(rng):
        yield ask_one_held(*given)
        yield ask_one_held(*held.any_choice(rng))
        drag = rng.randint(*march.FRICTION) * number_in(rng, march.LATER_SECONDS)
        v, force = range_in(rng, march.FLUX), range_in(rng, held.FORCE)
        depth = range_in(rng, march.WATER_DEPTH)
        yield ask_one_held(number_in(rng, SPEED), v, force, drag, depth)


def ask_gain(rng):
    length = rng.randint(1, 100)
    latitude = sine(rng.randint(0, 900))
    v = range_in(rng, march.FLUX)
    onshore = number_in(rng, march.CROSS_SUM)
    depth = range_in(rng, march.WATER_DEPTH)
    answer = ranges.gain_range(length, latitude, v, onshore, depth)
    return line("gain", length, latitude, *v, onshore, *depth), line(*answer)


def segment_answer(given, setup):
    answer = march.work_segment(given, setup, march.Fractions)
    if isinstance(answer, int):
        return line(answer)
    return line(0, *answer[0], *answer[1])


def ask_segment(rng):
    first = rng.random() < 0.15
    depths = rng.choice((number_in(rng, (0, 20_000)), rng.randint(20, 60)))
    given = march.Segment(
        friction=rng.randint(10, 50),
        sine=sine(rng.randint(0, 900)),
        length=rng.randint(1, 100),
        depths=rng.choice((depths, rng.randint(100, 20_000), rng.randint(17_000, 20_000))),
        level=rng.choice((0, rng.randint(-300, 300), rng.randint(-3000, 3000))),
        deficits=rng.choice((0, rng.randint(0, 600))),
        seconds=0 if first else number_in(rng, march.LATER_SECONDS),
        first=first,
        flux=(0, 0) if first else range_in(rng, march.FLUX),
        old_sum=0 if first else number_in(rng, march.CROSS_SUM),
        new_sum=number_in(rng, march.CROSS_SUM),
        onshore=number_in(rng, march.CROSS_SUM),
    )
    setup = rng.choice(((0, 0), range_in(rng, (-5000, 5000)), range_in(rng, march.SETUP)))
    if rng.random() < 0.3:
        given = near_flux_limit(rng, given)
    if rng.random() < 0.4:
        setup = aimed_setup(rng, given, setup)
    numbers = given._replace(first=int(first), flux="%d %d" % given.flux)
    return line("segment", *numbers, *setup), segment_answer(given, setup)


def near_flux_limit(rng, given):
    """Deep water and a flux by its limit, where drag and force are small, under a wind that
    lets a flux be as large, or hardly."""
    if given.first:
        return given
    end = rng.choice((-1, 1)) * (1_000_000 - rng.randint(0, 30))
    flux = tuple(sorted((end, rng.choice((end, end // 2)))))
    seconds = rng.randint(1, 5)
    depths = rng.randint(15_000, 19_900)
    total = rng.choice((-1, 1)) * rng.randint(SUM // 3, SUM)
    return given._replace(
        flux=flux, seconds=seconds, depths=depths, level=0, deficits=0,
        friction=rng.randint(10, 12), new_sum=total,
    )  # fmt: skip


def aimed_setup(rng, given, setup):
    """Setup before, such that setup after stands at a limit or one off it."""
    answer = march.work_segment(given, setup, march.Fractions)
    if isinstance(answer, int):
        return setup
    end = rng.randrange(2)
    wanted = rng.choice(march.SETUP) + rng.randint(-2, 2)
    moved = setup[end] + wanted - answer[1][end]
    moved = max(march.SETUP[0], min(march.SETUP[1], moved))
    return (moved, max(moved, setup[1])) if end == 0 else (min(moved, setup[0]), moved)


# Opening a traverse.


def groups_text(groups):
    """Count and points or rows; above 100 the count alone."""
    flat = [len(groups)]
    if len(groups) <= 100:
        for group in groups:
            flat.extend(group)
    return flat


def traverse_numbers(traverse):
    return [*traverse[:3], *groups_text(traverse.points)]


def broken_traverse(rng, run):
    """A traverse with one or two faults, or a count of points past any use."""
    if rng.random() < 0.1:
        count = rng.choice((101, 256, 258, 65_538, 2**32 + 2, 2**31))
        return march.Traverse(*run.head, range(count))
    run = run.copy()
    for fault in rng.choices(values.TRAVERSE_FAULTS, k=rng.choice((1, 1, 2))):
        fault(rng, run)
    if rng.random() < 0.15:
        rng.choice((run.head, rng.choice(run.points)))[rng.randrange(2)] = rng.choice(LARGE)
    if rng.random() < 0.05:
        run.points = []
    return run.traverse()


def ask_one_opening(traverse, pair):
    answer = march.open_traverse(traverse, pair.most)
    if not isinstance(answer, march.Refusal):
        answer = 0, answer.elapsed, int(answer.accepted)
    return line(pair.open, *traverse_numbers(traverse)), line(*answer)


def ask_open(rng, pair=OWN):
    run = values.ordinary(rng, panels.segments(rng) if pair is PANEL else None, 1)
    traverse = run.traverse()
    if rng.random() < 0.6:
        traverse = broken_traverse(rng, run)
    return ask_one_opening(traverse, pair)


# Taking a record.


def lent_numbers(rows, places):
    return [*groups_text(rows), len(places), *places]


def ask_one_record(traverse, state, rows, places, record, pair=OWN):
    """Request, answer and state after it; rows and places are changed as the call
    leaves them."""
    request = line(
        pair.record,
        *traverse_numbers(traverse),
        state.elapsed,
        int(state.accepted),
        *lent_numbers(rows, places),
        record.seconds,
        record.tide,
        *groups_text(record.points),
    )
    answer = march.take_record(traverse, state, rows, places, record, most=pair.most)
    if isinstance(answer, march.Refusal):
        head = [answer.number, answer.place, 0, 0]
    else:
        head = [0, 0, answer.low, answer.high]
        state = answer.state
    left = [state.elapsed, int(state.accepted), *lent_numbers(rows, places)]
    return request, line(*head, *left), state


def marked_places(rng, count):
    return [rng.randint(-9, 9) * 1_111_111 for _ in range(count)]


def spoiled_record(rng, run, record):
    """A record that check 9 or 18 refuses."""
    values_of_it = list(record[:2]) + [list(p) for p in record.points]
    other = Run(*run.head, run.points, [values_of_it])
    faults = values.fault_seconds, values.fault_tide, values.fault_field
    rng.choice((*faults, values.fault_calm_angle))(rng, other)
    if rng.random() < 0.15:
        rng.choice(other.records[0][2:])[rng.randrange(3)] = rng.choice(LARGE)
    if rng.random() < 0.1:
        other.records[0][rng.randrange(2)] = rng.choice(LARGE)
    spoiled = other.record_list()[0]
    return spoiled._replace(seconds=rng.choice((spoiled.seconds, record.seconds)))


def wrong_counts(rng, rows, places, record):
    """One of the three counts is off."""
    segments = len(rows)
    kind = rng.randrange(3)
    if kind == 0:
        count = rng.choice(
            (0, segments - 1, segments + 1, 2 * segments, 63, 65, 200, 2**31, 2**32 + segments)
        )
        rows = [march.FRESH] * count if count <= 100 else range(count)
    elif kind == 1:
        count = rng.choice((1, segments - 1, segments, 2 * segments - 1, 2 * segments + 1, 130))
        places = marked_places(rng, max(0, count))
    else:
        points = record.points
        wrong = (points[:-1], points + points[:1], (), points * 2, range(2**31), range(101))
        record = record._replace(points=rng.choice(wrong))
    return rows, places, record


def row_near_limits(rng):
    """A row at its limits, or one off them, or upside down."""
    kind = rng.randrange(6)
    edge = rng.choice((-1, 1))
    if kind == 0:
        return march.Row(-1_000_000 - rng.randint(0, 1), 0, 0)
    if kind == 1:
        return march.Row(0, 1_000_000 + rng.randint(0, 1), 0)
    if kind == 2:
        return march.Row(0, 0, edge * (SUM + rng.randint(0, 1)))
    if kind == 3:
        low = rng.randint(-5, 5)
        return march.Row(low, low - rng.randint(0, 1), 0)
    if kind == 4:
        return march.Row(rng.choice(LARGE), rng.choice(LARGE), 0)
    return march.Row(0, 0, rng.choice(LARGE))


def made_up_rows(rng, segments):
    rows = []
    for _ in range(segments):
        low, high = range_in(rng, march.FLUX)
        rows.append(march.Row(low, high, rng.choice((0, rng.randint(-SUM, SUM)))))
    return rows


def odd_state(rng, state, record):
    limit = march.ELAPSED[1]
    elapsed = rng.choice(
        (limit - record.seconds, limit - record.seconds + 1, limit, limit + 1, 5, -1,
         -record.seconds, 2**31, 2**63 - 1, -(2**63), rng.randint(0, limit))
    )
    return march.State(elapsed, state.accepted)


def odd_requests(rng, run, state, rows, places, record, pair):
    """Calls beside the list: each changes copies only."""
    for _ in range(rng.randint(0, 3)):
        traverse = run.traverse()
        now, mine, room, taken = state, list(rows), list(places), record
        if rng.random() < 0.12:
            traverse = broken_traverse(rng, run)
        if rng.random() < 0.25:
            mine = made_up_rows(rng, len(rows))
        if rng.random() < 0.25:
            mine[rng.randrange(len(mine))] = row_near_limits(rng)
        if rng.random() < 0.2:
            now = odd_state(rng, now, taken)
        if rng.random() < 0.15:
            now = march.State(now.elapsed, not now.accepted)
        if rng.random() < 0.2:
            taken = spoiled_record(rng, run, taken)
        if rng.random() < 0.2:
            mine, room, taken = wrong_counts(rng, mine, room, taken)
        yield ask_one_record(traverse, now, mine, room, taken, pair)[:2]


def edge_flux_requests(rng, pair):
    """Flux at its limit or next to it, from made-up rows, under winds that let it be so large."""
    sign = rng.choice((-1, 1))
    traverse = march.Traverse(rng.choice((0, 900)), 10, 0, ((5, 9900), (0, 9900)))
    end = sign * (1_000_000 - rng.randint(0, 40))
    other = end - sign * rng.choice((0, 1, 1000))
    field = ((rng.randint(1250, 2000), 900 if sign > 0 else 2700, 0),) * 2
    rows = [march.Row(min(end, other), max(end, other), sign * rng.choice((0, SUM)))]
    record = march.Record(rng.randint(1, 4), 0, field)
    state = march.State(rng.randint(0, 10_000), True)
    return ask_one_record(traverse, state, rows, marked_places(rng, 2), record, pair)[:2]


def storm_runs(rng):
    """Mostly sound runs; some by a limit, some that end in refusal 10 to 12."""
    kind = rng.random()
    if kind < 0.6:
        return [values.sound(rng)]
    if kind < 0.8:
        return values.neighbours(rng, values.sound(rng))
    if kind < 0.82:
        return edges.setup_edge(rng)
    run = values.ordinary(rng, rng.choice((1, 2, 3, 5)), rng.choice((1, 2, 3)))
    rng.choice((values.fault_setup, values.fault_shallow, values.fault_deep))(rng, run)
    return [run]


def ask_storm(rng, run, pairs=(OWN,)):
    """One list of records, refused ones among them, with odd calls beside; record by
    record of one pair of calls after the other."""
    traverse = run.traverse()
    state = march.State(0, False)
    rows = march.fresh_rows(traverse)
    yield edge_flux_requests(rng, pairs[0])
    for record, pair in zip(run.record_list(), itertools.cycle(pairs)):
        room = rng.choice((0, 2 * len(rows)))
        places = marked_places(rng, room)
        yield from odd_requests(rng, run, state, rows, places, record, pair)
        if rng.random() < 0.1:
            bad = spoiled_record(rng, run, record)
            request, answer, state = ask_one_record(traverse, state, rows, places, bad, pair)
            yield request, answer
        request, answer, state = ask_one_record(traverse, state, rows, places, record, pair)
        yield request, answer


# The harbour panel beside our own program.


def beside(traverse, ask):
    """The same asked of both pairs of calls. Where the panel takes the traverse, and
    where both refuse the count of its points, they answer the same."""
    own, panel = ask(OWN), ask(PANEL)
    if not panels.too_long(len(traverse.points)) and own[1] != panel[1]:
        raise AssertionError("the panel is to answer %s: %s %s" % (own[1], *panel))
    return own, panel


def panel_openings():
    for traverse in panels.traverses():
        yield from beside(traverse, lambda pair: ask_one_opening(traverse, pair))


def panel_calls():
    for call in panels.calls():
        yield from beside(call[0], lambda pair: ask_one_record(*map(copy.copy, call), pair)[:2])


def panel_lists():
    """Lists of records, each asked of either pair and of both in turn, with the same
    answers."""
    for seed, run in enumerate(panels.list_runs()):
        asked = []
        for pairs in ((OWN,), (PANEL,), (OWN, PANEL), (PANEL, OWN)):
            asked.append(list(ask_storm(random.Random(seed), run, pairs)))
        for once in zip(*asked, strict=True):
            if len({answer for _, answer in once}) != 1:
                raise AssertionError("the pairs of calls are to answer the same: %s" % once[0][0])
        yield from itertools.chain(*asked)


# All requests.


def forever(ask, rng):
    while True:
        yield ask(rng)


def record_requests():
    """A calm that has a direction, alone and beside every other fault; the flux limit."""
    return (ask_one_record(*call)[:2] for call in itertools.chain(calms.calls(), held.calls()))


def storms(rng):
    while True:
        for run in storm_runs(rng):
            yield from ask_storm(rng, run)


def panel_storms(rng):
    """Half of them with as many points as a limit, or one off it; some go from one
    pair to the other."""
    while True:
        runs = [panels.storm_run(rng)] if rng.random() < 0.5 else storm_runs(rng)
        pairs = (PANEL, OWN) if rng.random() < 0.1 else (PANEL,)
        for run in runs:
            yield from ask_storm(rng, run, pairs)


def requests(kind, count, rng):
    if kind == "sine":
        return ((line("sine", a), line(sine(a))) for a in range(3600))
    if kind == "cosine":
        return ((line("cosine", a), line(cosine(a))) for a in range(3600))
    if kind == "coefficient":
        return ((line("coefficient", w), line(*forcing.over_square(w))) for w in range(1, 2001))
    if kind == "stress":
        return ((line("stress", w), line(forcing.stress(w))) for w in range(2001))
    if kind == "record":
        return itertools.chain(record_requests(), itertools.islice(storms(rng), count))
    if kind == "speed":
        fixed = (ask_one_speed(*given) for given in held.sums())
        return itertools.chain(fixed, itertools.islice(forever(ask_speed, rng), count))
    if kind == "held":
        return itertools.islice(held_requests(rng), count)
    if kind == "panel_open":
        opened = forever(lambda rng: ask_open(rng, PANEL), rng)
        return itertools.chain(panel_openings(), itertools.islice(opened, count))
    if kind == "panel_record":
        taken = itertools.islice(panel_storms(rng), count)
        limited = (ask_one_record(*call, PANEL)[:2] for call in held.calls())
        return itertools.chain(panel_calls(), panel_lists(), limited, taken)
    asks = {"force": ask_force, "flux": ask_flux, "gain": ask_gain}
    asks.update({"segment": ask_segment, "open": ask_open})
    return itertools.islice(forever(asks[kind], rng), count)


def judge(wanted, answers, tally):
    """Counts passed, failed and skipped; prints the first few failures."""
    for (request, want), got in zip(wanted, answers):
        if got == "skip":
            tally["skipped"] += 1
        elif got == want:
            tally["passed"] += 1
        else:
            tally["failed"] += 1
            if tally["failed"] <= SHOWN:
                print("request  ", request[:1500])
                print("expected ", want[:1500])
                print("got      ", got[:1500])


def numbers_of(kind, wanted):
    """How often each refusal number is expected of this word; 0 is accepted."""
    answers = (want for request, want in wanted if request.startswith(kind + " "))
    return collections.Counter(int(want.split()[0]) for want in answers)


NEEDED = {"segment": (0, 10, 11, 12), "open": (0, 5, 6, 7), "record": (0, *range(5, 13), 18)}
NEEDED["panel_open"] = *NEEDED["open"], 19
NEEDED["panel_record"] = *NEEDED["record"], 19


def run_driver(driver, wanted):
    with tempfile.TemporaryFile() as file:
        file.write("".join(request + "\n" for request, _ in wanted).encode())
        file.seek(0)
        done = subprocess.run(driver, stdin=file, stdout=subprocess.PIPE, shell=True)
    answers = done.stdout.decode("latin-1").split("\n")[:-1]
    lack = len(wanted) - len(answers)
    return answers[: len(wanted)] + ["(no answer)"] * lack


def main(arguments):
    parser = argparse.ArgumentParser()
    parser.add_argument("driver")
    parser.add_argument("cases", type=int)
    parser.add_argument("seed", type=int)
    parser.add_argument("--only", default=",".join(KINDS))
    arguments = parser.parse_args(arguments)
    total = collections.Counter()
    covered = True
    for kind in arguments.only.split(","):
        started = time.time()
        rng = random.Random("%s %d" % (kind, arguments.seed))
        wanted = list(requests(kind, arguments.cases, rng))
        tally = collections.Counter()
        judge(wanted, run_driver(arguments.driver, wanted), tally)
        shown = (kind, len(wanted), tally["skipped"], time.time() - started)
        print("%-12s %6d requests, %d skipped, %.1f seconds" % shown)
        if kind in NEEDED:
            numbers = numbers_of(kind, wanted)
            print("             outcomes", " ".join("%d:%d" % pair for pair in sorted(numbers.items())))
            lacking = [n for n in NEEDED[kind] if not numbers[n]]
            if lacking:
                print("          no case has outcome", *lacking)
                covered = False
        total.update(tally)
    print("%d passed, %d failed" % (total["passed"], total["failed"]))
    return 0 if total["failed"] == 0 and covered else 1


if __name__ == "__main__":
    sys.exit(main(sys.argv[1:]))
