# Runs tools/plot and judges what it draws, writes and says.
#
#   python3 plots.py [PLOT]
#
# PLOT is another copy of tools/plot, with its `setup` beside it. What a picture
# has to show is computed here from the listing; the svg is read back through the
# numbers at its axes. What is asked of every run:
# - Standard output is empty; standard error is empty where a picture was drawn.
# - Nothing is left in the temporary folder.
# - A run that fails says why, has status 1 (2 for wrong usage) and leaves no
#   picture.
# The last line is `N passed, M failed`; the exit status is 0 only where M is 0.

import os
import random
import re
import resource
import shlex
import shutil
import signal
import subprocess
import sys
import tempfile
import xml.etree.ElementTree as ElementTree
from pathlib import Path

ROOT = Path(__file__).resolve().parent.parent
EXAMPLE = ROOT / "examples" / "hampton-beach"
HURRICANE = ROOT / "examples" / "hurricane"
PROFILE = ROOT / "examples" / "profile"
TITLE = "Water level at the shore"
USAGE = b"usage: tools/plot LISTING PICTURE.svg|PICTURE.png [GAUGE.csv|OTHER]\n"
SIZE = 900, 600
FONT = 14
# A letter is less wide than this, in fonts' sizes, on the average of a label.
LETTER = 0.62
# In pixels; the svg has two decimals.
NEAR = 0.1
TIME_LIMIT = 60
GAUGE = b"hours,feet\n0,1.5\n0.5,2.25\n1,1.75\n"
NAMES = [
    "it's", "''", 'say "this"', '"', "two  words", "back\\slash\\n\\", "$HOME",
    "$(touch hit)", "`touch hit`", "'; system('touch hit'); '", "-dash", "--help",
    "100% %d %s", "a_b^c{d}", "a=b", "@term", "#note", "a&b<c>d;e", "Größe ≈ 水",
    "*", "two\nlines\ttab", "~", "!touch hit",
]


class Failure(Exception):
    pass


def need(held, said):
    if not held:
        raise Failure(said)


class Svg:
    """What stands in an svg of gnuplot's: two panels, upper and lower, each with
    a frame, the numbers at its axes, and what is drawn in it."""

    def __init__(self, data):
        self.texts, self.ticks, frames = [], [], []
        self.drawn = {"a": [], "b": []}
        root = ElementTree.fromstring(data)
        size = root.get("width"), root.get("height")
        need(size == tuple(map(str, SIZE)), f"the size is {size}")
        for group in root.iterfind(".//{*}g"):
            if re.fullmatch(r"gnuplot_plot_\d+[ab]", group.get("id", "")):
                self.drawn[group.get("id")[-1]].append(group)
            for text in group.findall("{*}text"):
                x, y = pair(group.get("transform"))
                anchor, turned = group.get("text-anchor"), "rotate" in group.get("transform")
                self.texts.append((text.text or "", x, y, anchor, turned))
            marks = [path.get("d") for path in group.findall("{*}path")]
            frames += [points_of(mark) for mark in marks if mark.rstrip().endswith("Z")]
            number = group.find("{*}g/{*}text")
            if marks and number is not None and number.text:
                self.ticks.append((number.text, *points_of(marks[0])[:2]))
        # the boxes of the legend are closed lines too, and less wide
        sides = {tuple(sorted(map(tuple, frame))) for frame in frames if len(frame) >= 4}
        frames = {(box[0][0], box[0][1], box[-1][0], box[-1][1]) for box in sides}
        frames = sorted((f for f in frames if f[2] - f[0] > SIZE[0] / 2), key=lambda f: f[1])
        need(len(frames) == 2, f"{len(frames)} panels")
        self.upper, self.lower = frames

    def along(self):
        """Hours to pixels."""
        return scale([(float(number), start[0]) for number, start, end in self.ticks
                      if start[0] == end[0] and abs(start[1] - self.lower[3]) < NEAR])

    def up(self, frame):
        """The numbers at a panel's left side to pixels."""
        return scale([(float(number), start[1]) for number, start, end in self.ticks
                      if start[1] == end[1] and frame[1] <= start[1] <= frame[3]])

    def lines(self, panel, colour):
        """The corners of the lines of a colour in a panel, the legend's left out."""
        top = self.upper[1] if panel == "a" else self.lower[1]
        paths = [path for group in self.drawn[panel] for path in group.iterfind(".//{*}path")
                 if re.sub(r"\s", "", path.get("stroke", "")) == colour]
        return [p for path in paths for p in points_of(path.get("d")) if p[1] >= top - NEAR]

    def areas(self, panel):
        top = self.upper[1] if panel == "a" else self.lower[1]
        found = [p for group in self.drawn[panel] for area in group.iterfind(".//{*}polygon")
                 for p in points_of(area.get("points"))]
        return [p for p in found if p[1] >= top - NEAR]

    def marks(self, shape):
        """Where points of a shape stand in the upper panel, the legend's left out."""
        uses = [use for group in self.drawn["a"] for use in group.iterfind(".//{*}use")]
        places = [pair(use.get("transform")) for use in uses
                  if use.get("{http://www.w3.org/1999/xlink}href") == "#" + shape]
        return [place for place in places if place[1] >= self.upper[1] - NEAR]


def pair(transform):
    return tuple(map(float, re.match(r"translate\(([^,]+),([^)]+)\)", transform).groups()))


def points_of(text):
    return [(float(x), float(y)) for x, y in re.findall(r"(-?[\d.]+),(-?[\d.]+)", text)]


def scale(ticks):
    """The straight line through the ticks, as a function; every tick lies on it."""
    need(len(ticks) >= 2, f"numbers at an axis: {ticks}")
    (low, here), (high, there) = min(ticks), max(ticks)
    need(low < high, f"numbers at an axis: {ticks}")

    def pixel(value):
        return here + (value - low) * (there - here) / (high - low)
    for value, place in ticks:
        need(abs(pixel(value) - place) < NEAR, f"no even axis: {ticks}")
    return pixel


def same_places(found, expected, what):
    """Every place found is one that is expected, and every expected one is found."""
    for some, others, word in (found, expected, "too many"), (expected, found, "lacking"):
        cells = {}
        for x, y in others:
            cells.setdefault(round(x), []).append((x, y))
        for x, y in some:
            near = (p for cell in range(round(x) - 1, round(x) + 2) for p in cells.get(cell, ()))
            need(any(abs(x - a) <= NEAR and abs(y - b) <= NEAR for a, b in near),
                 f"{what}, {word}: {x:.2f},{y:.2f}")


def records_of(listing):
    lines = [line.split() for line in listing.decode().splitlines()]
    return [tuple(map(int, line)) for line in lines if line and line[0].isdigit()]


def crest_of(records):
    high = max(record[2] for record in records)
    return next(record for record in records if record[2] == high)


def crest_label(records):
    seconds, _, high = crest_of(records)
    feet = f"{'-' if high < 0 else ''}{abs(high) // 10000}.{abs(high) % 10000:04}"
    hours, minutes, rest = seconds // 3600, seconds // 60 % 60, seconds % 60
    return f"crest {feet} ft at {hours} h {minutes} min" + (f" {rest} s" if rest else "")


def judge_frame(svg, words):
    """The two panels, and words that are there once each."""
    said = [text[0] for text in svg.texts]
    for word in ["feet", "hours since the first record", *words]:
        need(said.count(word) == 1, f"not there once: {word!r} in {said}")
    need(abs(svg.upper[0] - svg.lower[0]) < NEAR and abs(svg.upper[2] - svg.lower[2]) < NEAR,
         "the panels are not aligned")
    need(svg.upper[3] < svg.lower[1] and 0.15 < (svg.lower[3] - svg.lower[1]) / SIZE[1] < 0.3,
         f"the panels: {svg.upper} {svg.lower}")


def judge_side(svg, said):
    """What the strip says at its side."""
    sides = [text for text in svg.texts if text[0] == said]
    need(len(sides) == 1 and sides[0][4] and svg.lower[1] < sides[0][2] < svg.lower[3],
         f"what the strip shows: {sides}")


def reach_of(text):
    """From where to where a text reaches, at the most; no letter is wider."""
    said, x, _, anchor, _ = text
    reach = LETTER * FONT * len(said)
    left = x - {"start": 0, "middle": reach / 2, "end": reach}[anchor]
    return left, left + reach


def judge_curves(svg, hydrographs):
    """Band and high end of each listing, by its colours; what is drawn of them all as
    areas."""
    hours, feet = svg.along(), svg.up(svg.upper)
    bands = []
    for records, band, line in hydrographs:
        high_ends = [(hours(s / 3600), feet(h / 10000)) for s, _, h in records]
        low_ends = [(hours(s / 3600), feet(l / 10000)) for s, l, _ in records]
        if len(records) > 1:
            same_places(svg.lines("a", line), high_ends, "the high end")
            bands += high_ends + low_ends
        elif high_ends != low_ends:
            same_places(svg.lines("a", band), high_ends + low_ends, "the band")
    if bands:
        same_places(svg.areas("a"), bands, "the band")


def judge(data, listing, gauge=(), called=None):
    """An svg against the listing, the gauge's readings and what the gauge is called."""
    svg = Svg(data)
    records = records_of(listing)
    title = TITLE + ended(listing)
    legend = ["low to high", "high end"] + ([called] if called is not None else [])
    judge_frame(svg, [title, *legend])
    hours, feet, width = svg.along(), svg.up(svg.upper), svg.up(svg.lower)

    label = [text for text in svg.texts if text[0].startswith("crest")]
    need([text[0] for text in label] == [crest_label(records)],
         f"{label} instead of {crest_label(records)!r}")
    left, right = reach_of(label[0])
    need(not label[0][4] and svg.upper[0] <= left and right <= svg.upper[2],
         f"the label reaches from {left} to {right}")
    seconds, _, high = crest_of(records)
    crest = hours(seconds / 3600), feet(high / 10000)
    same_places(svg.marks("gpPt5"), [crest], "the crest's mark")
    dots = [(hours(x), feet(y)) for x, y in gauge]
    same_places(svg.marks("gpPt6"), dots, "the gauge's dots")
    above = label[0][2]
    need(svg.upper[1] < above - FONT and all(above < place[1] for place in [crest, *dots]),
         "the label is not above what is drawn")

    judge_curves(svg, [(records, "rgb(127,168,208)", "rgb(31,78,121)")])
    tops = [(hours(s / 3600), width((h - l) / 10)) for s, l, h in records]
    floor = [(hours(s / 3600), width(0)) for s, _, _ in records]
    if len(records) > 1:
        same_places(svg.areas("b"), tops + floor, "the strip")
    lines = svg.lines("b", "rgb(31,78,121)")
    same_places(lines, tops + floor[:1], "the strip's line")
    need(abs(floor[0][1] - svg.lower[3]) < NEAR, "the strip does not begin at 0")
    need(any(max(h - l for _, l, h in records) == 0 or y < svg.lower[1] + 0.4 * (
        svg.lower[3] - svg.lower[1]) for _, y in lines), "the strip is hardly used")
    judge_side(svg, "width, 0.001 ft")


def ended(listing):
    """What is said of a listing whose last line is no record."""
    last = listing.decode().splitlines()[-1]
    return "" if last[0].isdigit() else f" ({last})"


def differences_of(first, second):
    """By the times that both have: feet from the first's middle to the second's."""
    middles = {s: l + h for s, l, h in first}
    return [(s, (l + h - middles[s]) / 20000) for s, l, h in second if s in middles]


def judge_two(data, listings, names):
    """An svg against two listings and what they are called."""
    svg = Svg(data)
    first, second = map(records_of, listings)
    legend = [f"{name}: high end, {crest_label(records_of(listing))}{ended(listing)}"
              for name, listing in zip(names, listings)]
    less = f"{names[1]} less {names[0]}"
    judge_frame(svg, [TITLE, *legend, less])
    said = [text[0] for text in svg.texts]
    need(said.count("low to high") == 2, f"the bands are told in {said}")
    title, = (text for text in svg.texts if text[0] == TITLE)
    for word in [*legend, less, "low to high"]:
        for text in (text for text in svg.texts if text[0] == word):
            left, right = reach_of(text)
            need(0 <= left and right <= SIZE[0], f"{word!r} reaches from {left} to {right}")
            inside = svg.upper[1] < text[2] < svg.upper[3]
            need(title[2] + FONT / 2 < text[2] < svg.lower[1] and not inside,
                 f"{word!r} stands at {text[2]}")

    hours, feet, difference = svg.along(), svg.up(svg.upper), svg.up(svg.lower)
    crests = [crest_of(records) for records in (first, second)]
    crests = [(hours(seconds / 3600), feet(high / 10000)) for seconds, _, high in crests]
    same_places(svg.marks("gpPt5"), crests, "the crests' marks")
    judge_curves(svg, [(first, "rgb(127,168,208)", "rgb(31,78,121)"),
                       (second, "rgb(224,144,47)", "rgb(179,89,0)")])

    both = differences_of(first, second)
    curve = [(hours(s / 3600), difference(d)) for s, d in both]
    nought = [(x, difference(0)) for x, _ in curve]
    same_places(svg.lines("b", "rgb(64,64,64)"), curve + nought[:1], "the strip's line")
    need(all(svg.lower[1] < y < svg.lower[3] for _, y in curve + nought), "the strip is left")
    heights = [y for _, y in curve + nought]
    used = (max(heights) - min(heights)) / (svg.lower[3] - svg.lower[1])
    need(used > 0.6 or all(abs(d) < 0.001 for _, d in both), "the strip is hardly used")
    judge_side(svg, "difference, ft")


def listing_of(records, end=""):
    lines = ["seconds low high", *(" ".join(map(str, record)) for record in records)]
    return "".join(line + "\n" for line in lines + [end] * (end != "")).encode()


def hump(count, at):
    """A listing of one high record among low ones."""
    return listing_of([(1234 * k, 9000 * (k == at), 70 + 9000 * (k == at)) for k in range(count)])


def listings():
    """Made-up listings, by what is particular about them."""
    chance = random.Random(1)
    arch = [(900 * k, h := 100000 - 700 * (k - 8) ** 2, h + 41 + k) for k in range(17)]
    yield "crest in the middle", listing_of(arch)
    yield "crest first", listing_of([(0, 54321, 54399), (600, 40000, 40070), (1200, 100, 150)])
    yield "crest last", listing_of([(0, 100, 150), (600, 40000, 40070), (7199, 54321, 54399)])
    for at in 1, 3, 4, 5, 10, 15, 16, 17, 19:
        yield f"crest at {at} of 20", hump(21, at)
    yield "equal crests", listing_of(
        [(0, 5, 9), (1800, 70000, 70020), (3600, 6, 9), (5400, 69000, 70020)])
    yield "low end greater elsewhere", listing_of(
        [(0, 5, 9), (1800, 60000, 80000), (3600, 79990, 79999)])
    yield "negative heights", listing_of(
        [(0, -20500, -20000), (61, -9, -5), (3599, -123457, -123456)])
    yield "negative crest below a foot", listing_of([(0, -20500, -20000), (3661, -700, -650)])
    yield "crest 0", listing_of([(0, -30, 0), (3661, -700, -650)])
    yield "one record", listing_of([(0, 122626, 122674)])
    yield "one record, no width", listing_of([(0, 5, 5)])
    yield "two records", listing_of([(0, 122626, 122674), (1, 122600, 122680)])
    yield "one height", listing_of([(1800 * k, 77777, 77777) for k in range(5)])
    yield "one range", listing_of([(1800 * k, 77700, 77777) for k in range(5)])
    yield "wide ranges", listing_of([(1800 * k, -900000 + k, 999999 - 1000 * k) for k in range(9)])
    yield "the widest times", listing_of([(0, 1, 2), (999996400, 4, 6), (1000000000, 3, 9)])
    yield "many digits", listing_of([(0, 12345678, 12345698), (9, 12345670, 12345679)])
    yield "refused", listing_of(arch[:9], "refused 12 63")
    yield "refused after one record", listing_of(arch[:1], "refused 9 0")
    yield "failed", listing_of(arch[:4], "failed")
    heights = [chance.randrange(-99999, 99999) for _ in range(200)]
    yield "any heights", listing_of(
        [(3600 * k, h, h + chance.randrange(90)) for k, h in enumerate(heights)])
    heights = [90000 - abs(k - 13000) * 5 + chance.randrange(900) for k in range(20000)]
    yield "20,000 records", listing_of(
        [(60 * k, h, h + chance.randrange(20, 90)) for k, h in enumerate(heights)])


class Bench:
    """Runs tools/plot in a folder of its own and counts what passed."""

    def __init__(self, plot, root):
        self.plot, self.root = plot, Path(root)
        self.passed = self.failed = 0

    def folder(self, **files):
        """A new folder with `listing` and `gauge.csv` in it, and what else is given."""
        folder = Path(tempfile.mkdtemp(dir=self.root))
        listing = listing_of([(0, 12000, 12050), (1800, 25000, 25060), (3600, 18000, 18055)])
        for name, data in {"listing": listing, "gauge.csv": GAUGE, **files}.items():
            (folder / name).write_bytes(data)
        return folder

    def run(self, folder, *args, status=0, temporary=None, stdin=b"", before=None, **env):
        """What it wrote to standard error. The temporary folder is emptied again."""
        spare = Path(tempfile.mkdtemp(dir=self.root))
        if temporary is not None:
            os.mkdir(folder / temporary)
        surroundings = {**os.environ, "TMPDIR": temporary or str(spare), **env}
        done = subprocess.run([self.plot, *args], cwd=folder, env=surroundings, input=stdin,
                              capture_output=True, timeout=TIME_LIMIT, preexec_fn=before)
        need(done.returncode == status, f"status {done.returncode}, {done.stderr}")
        need(done.stdout == b"", f"standard output: {done.stdout[:80]}")
        need((done.stderr == b"") == (status == 0), f"standard error: {done.stderr}")
        left = os.listdir(spare if temporary is None else folder / temporary)
        need(left == [], f"left in the temporary folder: {left}")
        if temporary is not None:
            os.rmdir(folder / temporary)
        need(not (folder / "hit").exists(), "a name was run as a command")
        return done.stderr

    def refuse(self, folder, *args, status=1, **more):
        """A run that fails, and leaves the folder as it was."""
        before = contents(folder)
        told = self.run(folder, *args, status=status, **more)
        need(contents(folder) == before, f"the folder has {sorted(contents(folder))}")
        return told

    def test(self, name, case, *args):
        try:
            case(self, *args)
            self.passed += 1
        # a picture that cannot be read back has failed too, in whatever way
        except Exception as problem:
            self.failed += 1
            print(f"FAILED {name}: {type(problem).__name__}, {problem}")


def contents(folder):
    return {path.name: path.read_bytes() if path.is_file() else None for path in folder.iterdir()}


def program(folder, name, text):
    """A command that comes before the system's own where PATH begins with this folder."""
    folder.mkdir(exist_ok=True)
    (folder / name).write_text("#!/bin/sh\n" + text)
    (folder / name).chmod(0o755)
    return f"{folder}:{os.environ['PATH']}"


# Pictures

def draws_svg(bench, listing):
    folder = bench.folder(listing=listing)
    bench.run(folder, "listing", "x.svg")
    judge((folder / "x.svg").read_bytes(), listing)


def draws_png(bench, listing):
    folder = bench.folder(listing=listing)
    bench.run(folder, "listing", "x.png")
    data = (folder / "x.png").read_bytes()
    size = b"".join(side.to_bytes(4, "big") for side in SIZE)
    need(data[:8] == b"\x89PNG\r\n\x1a\n" and data[16:24] == size, f"no such png: {data[:24]}")
    need(data[-8:-4] == b"IEND" and len(data) > 5000, f"a png of {len(data)} bytes")


def draws_the_same(bench):
    folder = bench.folder(other=listing_of([(0, 1, 2), (9, 3, 5)]))
    for kind in "svg", "png":
        for name, listing in ("a", "listing"), ("b", "listing"), ("c", "other"):
            bench.run(folder, listing, f"{name}.{kind}", "gauge.csv")
        first, again, other = ((folder / f"{name}.{kind}").read_bytes() for name in "abc")
        need(first == again, f"two drawings differ: {kind}")
        need(first != other, f"two listings have one picture: {kind}")


def draws_gauge(bench, data, readings):
    folder = bench.folder(**{"gauge.csv": data})
    bench.run(folder, "listing", "x.svg", "gauge.csv")
    judge((folder / "x.svg").read_bytes(), (folder / "listing").read_bytes(), readings, "gauge")


def reads_standard_input(bench):
    folder = bench.folder()
    listing = (folder / "listing").read_bytes()
    (folder / "listing").unlink()
    bench.run(folder, "-", "x.svg", stdin=listing)
    judge((folder / "x.svg").read_bytes(), listing)


def draws_anywhere(bench, env):
    """Neither the language nor settings of the user's change the picture."""
    folder = bench.folder()
    (folder / "home").mkdir()
    (folder / "home" / ".gnuplot").write_text("set title 'mine'\nset decimalsign ','\n")
    (folder / "elsewhere").mkdir()
    bench.run(folder, "listing", "plain.svg", "gauge.csv")
    bench.run(folder, "listing", "x.svg", "gauge.csv", temporary="spare",
              HOME=str(folder / "home"), **env)
    need((folder / "x.svg").read_bytes() == (folder / "plain.svg").read_bytes(), "another picture")


# Two listings

def draws_two(bench, first, second):
    folder = bench.folder(**{"one.txt": first, "two.txt": second})
    bench.run(folder, "one.txt", "x.svg", "two.txt")
    judge_two((folder / "x.svg").read_bytes(), (first, second), ("one", "two"))


def draws_two_png(bench):
    folder = bench.folder(other=hump(5, 3))
    bench.run(folder, "listing", "x.png", "other")
    data = (folder / "x.png").read_bytes()
    need(data[:8] == b"\x89PNG\r\n\x1a\n" and data[-8:-4] == b"IEND", f"no png: {data[:8]}")


def names_two(bench, first, second, called):
    """What two files are called, where one may be standard input."""
    listings = {"first": hump(5, 3), "second": hump(5, 2)}
    folder = bench.folder()
    for name, listing in zip((first, second), listings.values()):
        if name != b"-":
            path = folder / os.fsdecode(name)
            path.parent.mkdir(exist_ok=True)
            path.write_bytes(listing)
    given = listings["first"] if first == b"-" else listings["second"]
    bench.run(folder, first, "x.svg", second, stdin=given)
    judge_two((folder / "x.svg").read_bytes(), tuple(listings.values()), called)


def takes_for_gauge(bench, line):
    """What does not begin with a listing's names line, and nothing beside it, is none."""
    folder = bench.folder(**{"gauge.csv": line + GAUGE})
    bench.run(folder, "listing", "x.svg", "gauge.csv")
    judge((folder / "x.svg").read_bytes(), (folder / "listing").read_bytes(),
          [(0, 1.5), (0.5, 2.25), (1, 1.75)], "gauge")


def two_lists():
    """Pairs of listings, by what is particular about them. All others begin at 0, and are
    laid over one of them and under it."""
    arch = [(900 * k, h := 100000 - 700 * (k - 8) ** 2, h + 41 + k) for k in range(17)]
    for name, listing in listings():
        yield f"{name}, over an arch", listing_of(arch), listing
        yield f"{name}, under an arch", listing, listing_of(arch)
    yield "one listing twice", listing_of(arch), listing_of(arch)
    yield "next to nothing apart", listing_of(arch), listing_of(
        [(s, l + 1, h) for s, l, h in arch])
    yield "above", listing_of(arch), listing_of([(s, l + 300, h + 400) for s, l, h in arch])
    yield "below", listing_of(arch), listing_of([(s, l - 300, h - 300) for s, l, h in arch])
    yield "the second shorter", listing_of(arch), listing_of(arch[:9])
    yield "the first shorter", listing_of(arch[:9]), listing_of(arch)
    yield "every other time", listing_of(arch), listing_of(arch[::2])
    yield "one time of both", listing_of(arch), listing_of(
        [(s + 450 * (s != 1800), l + 9, h + 9) for s, l, h in arch])
    yield "the last time of one, the first of the other", listing_of(arch[:9]), listing_of(
        [(s, h - 5, h) for s, _, h in arch[8:]])
    yield "one record each", listing_of([(0, 5, 90)]), listing_of([(0, 70, 70)])
    yield "both refused", listing_of(arch[:9], "refused 12 63"), listing_of(
        arch[:7], "refused 9 0")
    yield "one failed", listing_of(arch[:3], "failed"), listing_of(arch)


# Names

def takes_name(bench, place, name):
    folder = bench.folder()
    bench.run(folder, "listing", "plain.svg", "gauge.csv")
    args, more, called = ["listing", "x.svg", "gauge.csv"], {}, "gauge"
    if place == "listing":
        args[0] = name
        (folder / "listing").rename(folder / name)
    elif place == "picture":
        args[1] = name + ".svg"
    elif place == "gauge":
        args[2], called = name + ".csv", re.sub(r"[\x00-\x1f\x7f]", "?", name)
        (folder / "gauge.csv").rename(folder / args[2])
    else:
        more["temporary"] = name
    expected = {"plain.svg", *args}
    bench.run(folder, *args, **more)
    found = contents(folder)
    need(set(found) == expected, f"the folder has {sorted(found)}")
    if place == "gauge":
        judge(found[args[1]], found[args[0]], [(0, 1.5), (0.5, 2.25), (1, 1.75)], called)
    else:
        need(found[args[1]] == found["plain.svg"], "another picture than with plain names")


def takes_gauge(bench, name, called):
    folder = bench.folder()
    (folder / "gauge.csv").rename(folder / os.fsdecode(name))
    bench.run(folder, "listing", "x.svg", name)
    judge((folder / "x.svg").read_bytes(), (folder / "listing").read_bytes(),
          [(0, 1.5), (0.5, 2.25), (1, 1.75)], called)


# Runs that fail

def has_usage(bench, *args):
    told = bench.refuse(bench.folder(), *args, status=2)
    need(told == USAGE, f"standard error: {told}")


def has_help(bench):
    done = subprocess.run([bench.plot, "--help"], capture_output=True, timeout=TIME_LIMIT)
    need((done.returncode, done.stdout, done.stderr) == (0, USAGE, b""), f"{done}")


def refuses_input(bench, args, said, files=()):
    told = bench.refuse(bench.folder(**dict(files)), *args)
    need(said in told, f"standard error: {told}")


def refuses_folder_as_input(bench, place):
    folder = bench.folder()
    (folder / "folder").mkdir()
    args = ["listing", "x.svg", "gauge.csv"]
    args[place] = "folder"
    need(b"folder" in bench.refuse(folder, *args), "the folder is not named")


def no_such_folder(bench, kind):
    folder = bench.folder()
    told = bench.refuse(folder, "listing", f"lacking/x.{kind}")
    need(f"cannot write lacking/x.{kind}".encode() in told, f"standard error: {told}")


def folder_as_picture(bench):
    folder = bench.folder()
    (folder / "x.svg").mkdir()
    told = bench.refuse(folder, "listing", "x.svg")
    need(b"cannot write x.svg" in told, f"standard error: {told}")
    need(os.listdir(folder / "x.svg") == [], "drawn into the folder")


def full_device(bench, kind):
    folder = bench.folder()
    (folder / f"x.{kind}").symlink_to("/dev/full")
    told = bench.run(folder, "listing", f"x.{kind}", status=1)
    need(b"No space left" in told, f"standard error: {told}")
    need((folder / f"x.{kind}").is_symlink() and os.path.exists("/dev/full"), "the device is gone")


def picture_in_use(bench):
    """What cannot be opened for writing, not even by root, stays as it is."""
    folder = bench.folder()
    shutil.copy("/bin/sleep", folder / "x.svg")
    holder = subprocess.Popen([folder / "x.svg", "60"])
    try:
        told = bench.refuse(folder, "listing", "x.svg")
    finally:
        holder.kill()
        holder.wait()
    need(b"cannot write x.svg" in told, f"standard error: {told}")


def half_a_picture(bench, linked):
    """The disk is full after half the picture: a `cat` that writes no more."""
    folder = bench.folder()
    path = program(folder / "bin", "cat", """
[ $# -gt 0 ] && [ "$(head -c 5 "$2")" = "<?xml" ] || exec /bin/cat "$@"
head -c 4000 "$2"
echo "cat: write error" >&2
exit 1
""")
    if linked:
        (folder / "x.svg").symlink_to("there.svg")
    told = bench.run(folder, "listing", "x.svg", status=1, PATH=path)
    need(b"cat: write error" in told and b"cannot write x.svg" in told, f"standard error: {told}")
    for name in "x.svg", "there.svg":
        need(not (folder / name).exists(), "half a picture is left")


def full_temporary_folder(bench, kind, room, said):
    """No file may be longer than so many bytes: the picture is not drawn whole."""
    def limit():
        signal.signal(signal.SIGXFSZ, signal.SIG_IGN)
        resource.setrlimit(resource.RLIMIT_FSIZE, (room, room))
    told = bench.refuse(bench.folder(), "listing", f"x.{kind}", before=limit)
    need(said in told, f"standard error: {told}")


def gnuplot_fails(bench, text, said):
    folder = bench.folder()
    path = program(folder / "bin", "gnuplot", text)
    told = bench.refuse(folder, "listing", "x.svg", PATH=path)
    need(said in told, f"standard error: {told}")


def no_temporary_folder(bench):
    folder = bench.folder()
    spare = str(folder / "lacking")
    bench.refuse(folder, "listing", "x.svg", TMPDIR=spare)


# The READMEs

def commands(page):
    """The two commands of a page that draw the picture, one after the other."""
    two = r"^ *(\S.* > listing\.txt)\n *(tools/plot listing\.txt .*)$"
    found = re.findall(two, page.read_text(), re.M)
    need(len(found) == 1, f"{page.relative_to(ROOT)} has {len(found)} times a line `.. > "
         "listing.txt` and below it one that begins `tools/plot listing.txt`")
    return found[0]


def example_listing():
    done = subprocess.run([ROOT / "target" / "bin" / "surge"], cwd=EXAMPLE, capture_output=True,
                          timeout=TIME_LIMIT)
    return done.stdout


def hurricane_listing():
    """What target/hurricane prints: run_examples compares them."""
    return (HURRICANE / "expected.txt").read_bytes()


def version_of(svg):
    return re.search(rb"<desc>.*?</desc>", svg).group()


def page_draws_picture(bench, page, example, command, listing):
    """A page shows the picture named after an example, and has the commands that draw it."""
    run, plot = commands(page)
    name, here = f"docs/{example.name}.svg", page.relative_to(ROOT)
    need(run == f"{command} > listing.txt", f"{here} runs {run!r}")
    shown = os.path.relpath(ROOT / name, page.parent)
    need(f"]({shown})" in page.read_text(), f"{here} does not show {shown}")
    words = shlex.split(plot)
    need(len(words) == 4 and words[2] == name, f"{here} draws {plot!r}")
    folder = bench.folder(listing=listing())
    bench.run(folder, "listing", "x.svg", str(ROOT / words[3]))
    drawn, kept = (folder / "x.svg").read_bytes(), (ROOT / name).read_bytes()
    # another gnuplot may set the same picture otherwise
    if version_of(drawn) == version_of(kept):
        need(drawn == kept, f"{name} is another picture")
    for data in drawn, kept:
        judge(data, listing(), published(example), "published")


def two_commands(page):
    """The three commands of a page that draw two hydrographs: a run for each, and the plot."""
    three = r"^ *(\S.*) > (\S+)\n *(\S.*) > (\S+)\n *(tools/plot (\S+) (\S+) (\S+))$"
    found = re.findall(three, page.read_text(), re.M)
    need(len(found) == 1, f"{page.relative_to(ROOT)} has {len(found)} times two lines `.. > FILE` "
         "and below them one that begins `tools/plot`")
    return found[0]


def page_draws_two(bench, page, examples, runs):
    """A page shows the picture named after its folder, and has the commands that draw it.
    What the runs print, run_examples compares with the examples' expected.txt."""
    run, one, other_run, two, plot, first, picture, second = two_commands(page)
    name, here = f"docs/{page.parent.name}.svg", page.relative_to(ROOT)
    need((run, other_run) == runs, f"{here} runs {run!r} and {other_run!r}")
    need((one, two) == (first, second) and picture == name, f"{here} draws {plot!r}")
    shown = os.path.relpath(ROOT / name, page.parent)
    need(f"]({shown})" in page.read_text(), f"{here} does not show {shown}")
    listings = tuple((example / "expected.txt").read_bytes() for example in examples)
    files = [os.path.basename(file) for file in (first, second)]
    folder = bench.folder(**dict(zip(files, listings)))
    bench.run(folder, files[0], "x.svg", files[1])
    drawn, kept = (folder / "x.svg").read_bytes(), (ROOT / name).read_bytes()
    # another gnuplot may set the same picture otherwise
    if version_of(drawn) == version_of(kept):
        need(drawn == kept, f"{name} is another picture")
    for data in drawn, kept:
        judge_two(data, listings, [file.removesuffix(".txt") for file in files])


def published(example):
    lines = (example / "published.csv").read_text().splitlines()[1:]
    return [tuple(map(float, line.split(","))) for line in lines]


def pages_agree(bench):
    need(commands(ROOT / "README.md") == commands(EXAMPLE / "README.md"), "they differ")


GAUGES = {
    "plain": (GAUGE, [(0, 1.5), (0.5, 2.25), (1, 1.75)]),
    "above the crest": (b"0,1\n0.5,99.5\n1,2\n", [(0, 1), (0.5, 99.5), (1, 2)]),
    "before and after": (b"-2,1\n5.25,-3.125\n", [(-2, 1), (5.25, -3.125)]),
    "lines passed over": (
        b"\xef\xbb\xbfhours,feet\r\n\r\n0,1\r\n0.5,\r\n0.7,calm\r\n1,2,good\r\n-\n12:30,4\n",
        [(0, 1), (1, 2)]),
    "ways to write a number": (
        b"+0.25, 1.5\n.5,+2\n 75e-2,-.5\n1.,1.23456789E0\n",
        [(0.25, 1.5), (0.5, 2), (0.75, -0.5), (1, 1.23456789)]),
}
SURROUNDINGS = [
    {"LC_ALL": "C"}, {"LC_ALL": "C.UTF-8"}, {"LANG": "de_DE.UTF-8", "LC_NUMERIC": "de_DE.UTF-8"},
    {"CDPATH": "elsewhere:."},
]
# What a gauge's file is named, and what the legend calls it.
CALLED = [
    (b".csv", ".csv"), (b"trace.txt", "trace.txt"), (b"./-.csv", "-"), (b"x\xff\xfe.csv", "x??"),
    (b"W" * 60 + b".csv", "W" * 60), (b"i" * 251 + b".csv", "i" * 57 + "..."),
    (("ü" * 120).encode() + b".csv", "ü" * 57 + "..."),
]
# What two listings' files are named, and what the legend calls them.
CALLED_TWO = [
    (b"a.txt", b"b.txt", ("a", "b")), (b"a", b"b.csv", ("a", "b.csv")),
    (b".txt", b"x.txt.txt", (".txt", "x.txt")),
    (b"-", b"b", ("standard input", "b")), (b"a.txt", b"-", ("a", "-")),
    (b"base/listing.txt", b"new/listing.txt", ("listing (first)", "listing (second)")),
    (b"i" * 29, b"x" * 28 + b".txt", ("i" * 25 + "...", "x" * 28)),
    (b"i" * 28, b"x" * 29 + b".txt", ("i" * 28, "x" * 25 + "...")),
    (("ü" * 120).encode(), b"x\xff\xfe.txt", ("ü" * 25 + "...", "x??")),
    (b"it's\n", b"system('touch hit').txt", ("it's?", "system('touch hit')")),
    (b"$(touch hit)", b"`touch hit`%d\\n", ("$(touch hit)", "`touch hit`%d\\n")),
]
# Beginnings of a file that make it no listing.
NO_LISTING = [
    b"seconds low high \n", b" seconds low high\n", b"\nseconds low high\n",
    b"seconds low high\r\n", b"seconds,low,high\n",
]
WRONG_USAGE = [
    (), ("listing",), ("listing", "x.svg", "gauge.csv", "more"), ("listing", "x.gif"),
    ("listing", "svg"), ("listing", ""), ("listing", "x.svg.gz", "gauge.csv"), ("--help", "me"),
    ("-h",),
]
NO_RECORD = [
    b"", b"seconds low high\n", b"refused 1 1\n", b"seconds low high\nrefused 9 1\n",
    b"seconds low high\nfailed\n", b"0,1,2\n1 2\nx 1 2\n",
]


def test_pictures(bench):
    for name, listing in listings():
        bench.test(f"svg, {name}", draws_svg, listing)
        bench.test(f"png, {name}", draws_png, listing)
    bench.test("the same picture twice", draws_the_same)
    bench.test("standard input", reads_standard_input)
    for name, (data, readings) in GAUGES.items():
        bench.test(f"gauge, {name}", draws_gauge, data, readings)
    for env in SURROUNDINGS:
        bench.test(f"surroundings {env}", draws_anywhere, env)


def test_two(bench):
    for name, first, second in two_lists():
        bench.test(f"two, {name}", draws_two, first, second)
    bench.test("two, png", draws_two_png)
    for first, second, called in CALLED_TWO:
        bench.test(f"two, named {first[:20]} and {second[:20]}", names_two, first, second, called)
    for line in NO_LISTING:
        bench.test(f"no listing, {line}", takes_for_gauge, line)
    args = "listing", "x.svg", "other"
    for end in b"", b"refused 9 0\n", b"failed\n":
        bench.test(f"no record in the second, {end}", refuses_input, args,
                   b"no record in other", {"other": b"seconds low high\n" + end})
    bench.test("a second refused at once", refuses_input, args, b"no reading in other",
               {"other": b"refused 1 1\n"})
    bench.test("no time of both", refuses_input, args, b"no time that listing and other both have",
               {"other": listing_of([(1, 2, 3), (1801, 2, 3)])})


def test_names(bench):
    for place in "listing", "picture", "gauge", "temporary folder":
        for name in NAMES:
            bench.test(f"{place} named {name!r}", takes_name, place, name)
    for name, called in CALLED:
        bench.test(f"gauge named {name[:20]}", takes_gauge, name, called)


def test_inputs(bench):
    for args in WRONG_USAGE:
        bench.test(f"usage {args}", has_usage, *args)
    bench.test("--help", has_help)
    for text in NO_RECORD:
        for kind in "svg", "png":
            bench.test(f"no record in {text}, {kind}", refuses_input, ("listing", f"x.{kind}"),
                       b"no record in listing", {"listing": text})
    for args, said in [(("lacking", "x.svg"), b"lacking: No such file"),
                       (("", "x.svg"), b"No such file"),
                       (("listing", "x.svg", "lacking.csv"), b"lacking.csv: No such file"),
                       (("listing", "x.svg", ""), b"No such file")]:
        bench.test(f"no file, {args}", refuses_input, args, said)
    bench.test("no reading", refuses_input, ("listing", "x.svg", "gauge.csv"),
               b"no reading in gauge.csv", {"gauge.csv": b"hours,feet\n"})
    bench.test("folder as listing", refuses_folder_as_input, 0)
    bench.test("folder as gauge", refuses_folder_as_input, 2)


def test_outputs(bench):
    for kind in "svg", "png":
        bench.test(f"picture in no folder, {kind}", no_such_folder, kind)
        bench.test(f"full device, {kind}", full_device, kind)
        bench.test(f"full temporary folder, {kind}", full_temporary_folder, kind, 8192,
                   b"could not be drawn")
    bench.test("full temporary folder, listing", full_temporary_folder, "svg", 40,
               b"File too large")
    bench.test("no temporary folder", no_temporary_folder)
    bench.test("folder as picture", folder_as_picture)
    bench.test("picture in use", picture_in_use)
    bench.test("half a picture", half_a_picture, False)
    bench.test("half a picture behind a link", half_a_picture, True)
    bench.test("gnuplot fails", gnuplot_fails, "echo noise\necho broken >&2\nexit 3\n", b"broken")
    bench.test("gnuplot draws nothing", gnuplot_fails, ": > picture\n", b"could not be drawn")


def test_readmes(bench):
    bench.test("README's commands draw README's picture", page_draws_picture,
               ROOT / "README.md", EXAMPLE, f"./run {EXAMPLE.relative_to(ROOT)}", example_listing)
    bench.test("the example's README has the same commands", pages_agree)
    bench.test("the hurricane's commands draw its picture", page_draws_picture,
               HURRICANE / "README.md", HURRICANE, "target/hurricane", hurricane_listing)
    bench.test("the profile's commands draw its picture", page_draws_two, PROFILE / "README.md",
               (HURRICANE, PROFILE),
               ("target/hurricane", "target/hurricane examples/profile/holland.txt"))


def main():
    plot = Path(sys.argv[1]).resolve() if len(sys.argv) > 1 else ROOT / "tools" / "plot"
    # gnuplot is installed before the runs are judged: that is not silent
    subprocess.run([plot.parent / "setup", "plot"], stdout=sys.stderr, check=True)
    with tempfile.TemporaryDirectory() as root:
        bench = Bench(plot, root)
        for some in test_pictures, test_two, test_names, test_inputs, test_outputs, test_readmes:
            some(bench)
    print(f"{bench.passed} passed, {bench.failed} failed")
    return 0 if bench.failed == 0 else 1


if __name__ == "__main__":
    sys.exit(main())
