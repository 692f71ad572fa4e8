# The cases that compare_files.py runs: a fixed list that visits every kind of
# fault at every kind of place, and a random stream for a seed.

from collections import namedtuple

from . import calms, damage, edges, values
from .run import Run

# traverse, storm: bytes, or one of the words below for what stands there.
Case = namedtuple("Case", "label traverse storm")

MISSING = "missing"
DANGLING = "link to nothing"
LOOP = "link to itself"
LOCKED = "no right to read"
UNOPENED = (MISSING, DANGLING, LOOP, LOCKED)
# Opens, but every read fails: a folder of that name.
FOLDER = "folder"


class Piped(bytes):
    """Text that comes through a named pipe, a few bytes at a time."""


def reference_run():
    calm = [[1000, 0, 0], [1000, 0, 0]]
    records = [[0, 0] + calm, [1600, 50] + calm]
    return Run(300, 25, 0, [[10, 500], [0, 500]], records)


def small_run():
    """Three points and three records with numbers of several lengths."""
    fields = [[0, 0, 0], [450, 3599, 12], [1000, 900, 300]]
    records = [[s, t] + fields for s, t in ((0, -5), (1800, 10), (3600, -100))]
    return Run(305, 25, -20, [[150, 1200], [60, 700], [0, 400]], records)


def of_run(label, run):
    return Case(label, run.traverse_text(), run.storm_text())


def count_cases():
    """Traverses of 1, 2, 65, 66 and many points, with a storm that fits 2."""
    storm = reference_run().storm_text()
    for count in (1, 2, 3, 64, 65, 66, 67, 128, 256, 258, 65_535, 65_536, 65_538, 70_000):
        points = [[i, 500] for i in range(count)][::-1]
        run = Run(300, 25, 0, points, [])
        yield Case("count", run.traverse_text(), storm)
        bad = Run(300, 25, 1001, points, [])
        yield Case("count", bad.traverse_text(), storm)
        yield Case("count", run.traverse_text()[:-1], storm)
        if 2 <= count <= 65:
            full = Run(300, 25, 0, points, [[0, 0] + [[500, 100, 5]] * count] * 1)
            yield of_run("count", full)


def file_cases():
    """Files that are not there or cannot be opened, and empty ones."""
    run = reference_run()
    good = run.traverse_text(), run.storm_text()
    odd = UNOPENED + (b"",)
    for thing in odd:
        yield Case("files", thing, good[1])
        yield Case("files", good[0], thing)
        yield Case("files", thing, thing)


def piped_cases():
    """Reads that answer fewer bytes than asked are no end of text."""
    run = small_run()
    traverse, storm = run.traverse_text(), run.storm_text()
    for text in (storm, storm[:-1], storm + b"\n", storm[:60], b"", storm.replace(b"450", b"45x")):
        yield Case("pipe", Piped(traverse), Piped(text))
        yield Case("pipe", traverse, Piped(text))
    for text in (traverse[:-1], traverse[:40], b"", traverse + b" "):
        yield Case("pipe", Piped(text), storm)


def failing_reads():
    """A read that fails is no end of text: what was printed before it stands,
    and `failed` is the last line."""
    run = reference_run()
    yield Case("failing read", FOLDER, run.storm_text())
    yield Case("failing read", run.traverse_text(), FOLDER)


def damage_cases(text, value_lines, name_lines):
    """Every damage of a line, a value, a names line and the whole text."""
    for index in name_lines + value_lines:
        for kind in damage.LINE_LIST:
            yield damage.at_line(text, index, kind)
    for index in value_lines:
        places = len(damage.split_lines(text)[index].split(b" "))
        for place in range(places):
            for value in damage.VALUES:
                yield damage.at_line(text, index, damage.value_damage(value, place))
    for index in name_lines:
        yield from damage.one_byte_names(text, index)
    yield from damage.whole_text(text)
    yield from damage.truncations(text)


def large_cases(run):
    traverse, storm = run.traverse_text(), run.storm_text()
    for index in (0, 1, 2, 3, 5):
        for text in damage.large_lines(traverse, index):
            yield Case("large line", text, storm)
    for index in (0, 1, 2, 9):
        for text in damage.large_lines(storm, index):
            yield Case("large line", traverse, text)


def calm_turned(line):
    """A line of a storm as a calm that has a direction."""
    return damage.replaced(damage.replaced(line, 2, b"0"), 3, b"5")


def pair_cases(run):
    """Two faulty lines and two faults on one line of a storm, in both orders."""
    traverse, storm = run.traverse_text(), run.storm_text()
    rows = damage.split_lines(storm)

    def change(line, place, value):
        return damage.replaced(line, place, value)

    faults = (
        lambda line: change(line, 4, b"05"),
        lambda line: change(line, 0, b"77"),
        lambda line: change(line, 1, b"2001"),
        lambda line: change(line, 2, b"2001"),
        lambda line: change(line, 3, b"-1"),
        calm_turned,
        lambda line: line + b" 1",
        lambda line: b"",
    )
    for first in range(1, 7):
        for second in range(first, 7):
            for one in faults:
                for other in faults:
                    lines = list(rows)
                    lines[first] = one(lines[first])
                    lines[second] = other(lines[second])
                    yield Case("two faults", traverse, b"\n".join(lines) + b"\n")


def cut_after_fault(run):
    """A faulty line in a record that the text does not end: the line decides, and
    the text's end where the fault is a calm that has a direction."""
    traverse, storm = run.traverse_text(), run.storm_text()
    calm = lambda line: calm_turned(line) + b"\n"
    for index in range(1, 9):
        for kind in (damage.value_damage(b"05", 2), damage.value_damage(b"77", 0), calm):
            lines = damage.split_lines(damage.at_line(storm, index, kind))
            for size in range(index, len(lines) + 1):
                yield Case("cut", traverse, b"".join(l + b"\n" for l in lines[:size]))


def text_cases():
    run = small_run()
    traverse, storm = run.traverse_text(), run.storm_text()
    for text in damage_cases(traverse, [1, 3, 4, 5], [0, 2]):
        yield Case("traverse text", text, storm)
    for text in damage_cases(storm, [1, 2, 3, 4, 6, 9], [0]):
        yield Case("storm text", traverse, text)
    yield from pair_cases(run)
    yield from cut_after_fault(run)
    yield from file_cases()
    yield from piped_cases()
    yield from count_cases()
    yield from large_cases(run)


def value_cases(rng):
    """Limits from both sides, a calm's direction beside each other fault, the edges of
    flux and setup, and the flux limit."""
    for label, run in calms.file_runs(rng):
        yield of_run(label, run)
    for run in values.limit_runs(rng):
        yield of_run("limits", run)
    for run in values.step_runs(rng):
        yield of_run("limits", run)
    for _ in range(6):
        for run in edges.setup_edge(rng) + edges.flux_edge(rng) + edges.held_edge(rng):
            yield of_run("edges", run)
    for _ in range(12):
        yield of_run("edges", values.calm_edge(rng))
        yield of_run("inner extreme", edges.inner_extreme(rng))
    for _ in range(60):
        yield of_run("flux limit", values.turning_cross(rng))


def wind_runs():
    """Every wind from 0 to 2,000 at a point, strong and weak ones side by side
    (787 and 2,003 have no common factor); the last points of the last run are calm."""
    points = [[100 * (64 - i), 5000] for i in range(65)]
    winds = sorted(range(2001), key=lambda wind: wind * 787 % 2003)
    for start in range(0, len(winds), 4 * 65):
        some = winds[start : start + 4 * 65]
        some += [0] * (4 * 65 - len(some))
        fields = [[wind, 47 * wind % 3600, wind % 301] for wind in some]
        records = [[900 if k else 0, 0] + fields[65 * k : 65 * k + 65] for k in range(4)]
        yield Run(400, 25, 0, points, records)


def fixed(kind, rng):
    """The list that every comparison runs, whatever its seed."""
    yield of_run("reference", reference_run())
    yield of_run("reference", small_run())
    yield from text_cases()
    if kind == "surge":
        yield from value_cases(rng)
        yield from (of_run("winds", run) for run in wind_runs())


def any_number(rng):
    return rng.choice((0, 1, -1, rng.randint(-99, 99), rng.randint(-999999999, 999999999)))


def wild_run(rng):
    """Sound text with any numbers at all: for reading alone."""
    count = rng.choice((1, 2, 2, 3, 4, 5, 9, 65))
    records = [
        [any_number(rng), any_number(rng)]
        + [[any_number(rng) for _ in range(3)] for _ in range(count)]
        for _ in range(rng.randint(1, 5))
    ]
    points = [[any_number(rng), any_number(rng)] for _ in range(count)]
    return Run(any_number(rng), any_number(rng), any_number(rng), points, records)


def damaged(rng, run):
    traverse, storm = run.traverse_text(), run.storm_text()
    for _ in range(rng.choice((1, 1, 1, 2, 2, 3))):
        way = rng.random()
        if way < 0.3:
            traverse = damage.random_damage(rng, traverse)
        elif way < 0.85:
            storm = damage.random_damage(rng, storm)
        else:
            storm = damage.unequal(rng, storm)
    return Case("damaged", traverse, storm)


def stray_texts(rng):
    """Texts of a few symbols that look like ours: noise over the grammar."""
    symbols = (b"0", b"1", b"9", b"-", b" ", b"\n", b"0 0 0 0 0\n", b"1 2\n", b"5 5\n")
    noise = b"".join(rng.choice(symbols) for _ in range(rng.randint(0, 12)))
    run = reference_run()
    if rng.random() < 0.5:
        return Case("noise", run.traverse_text(), b"seconds tide wind angle deficit\n" + noise)
    head = rng.choice((b"latitude friction initial\n", run.traverse_text()[:51], b""))
    return Case("noise", head + noise, run.storm_text())


def window_case(rng):
    """A storm of some ten kilobytes with a fault or its end anywhere in it."""
    run = values.ordinary(rng, rng.choice((1, 2, 4)), 1)
    count = len(run.points)
    lines = [b"seconds tide wind angle deficit\n"]
    # every 200th record is calm; in some storms it keeps its direction
    angles = values.angle_for if rng.random() < 0.8 else lambda wind, angle: angle
    for k in range(rng.randint(50, 2500 // count)):
        wind, deficit = k % 200, rng.randint(0, 300)
        angle = angles(wind, k % 900)
        line = b"%d %d %d %d %d\n" % (60 if k else 0, k % 90, wind, angle, deficit)
        lines.append(line * count)
    storm = b"".join(lines)
    kind = rng.random()
    if kind < 0.5:
        place = rng.randrange(len(storm))
        storm = storm[:place] + rng.choice((b"", b"\n", b"x")) + storm[place + 1 :]
    elif kind < 0.7:
        storm = storm[: rng.randrange(len(storm))]
    return Case("window", run.traverse_text(), storm)


def random_surge(rng):
    """An endless stream; the labels say what each case is for."""
    while True:
        kind = rng.random()
        if kind < 0.35:
            yield of_run("sound", values.sound(rng))
        elif kind < 0.50:
            for run in values.neighbours(rng, values.sound(rng)):
                yield of_run("neighbours", run)
        elif kind < 0.70:
            yield of_run("value faults", values.faulty(rng, rng.choice((1, 1, 2, 2, 3))))
        elif kind < 0.90:
            run = values.faulty(rng, rng.choice((0, 0, 0, 1)))
            yield damaged(rng, run)
        elif kind < 0.98:
            yield stray_texts(rng)
        else:
            yield window_case(rng)


def random_read(rng):
    while True:
        kind = rng.random()
        if kind < 0.2:
            yield of_run("sound", values.sound(rng))
        elif kind < 0.3:
            yield of_run("wild", wild_run(rng))
        elif kind < 0.7:
            run = values.faulty(rng, 0) if rng.random() < 0.5 else wild_run(rng)
            yield damaged(rng, run)
        elif kind < 0.95:
            yield stray_texts(rng)
        else:
            yield window_case(rng)


def stream(kind, rng):
    return random_surge(rng) if kind == "surge" else random_read(rng)
