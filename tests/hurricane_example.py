#!/usr/bin/env python3
# The hurricane of examples/hurricane, worked out from TM-35's cards by the second
# implementation: expected.txt is its listing, the tables of examples/c/hurricane.c
# and of the example's README are what the cards give. published.csv has the heights
# that TM-35 prints, as far as the rows they stand in bear them out. The two files of
# examples/panel and the tables of examples/c/panel.c are the same storm's. The table,
# the listing and the README of examples/profile are the same storm's by Holland's
# pressure profile.
#
#   python3 hurricane_example.py              compares; ends with `N passed, M failed`
#   python3 hurricane_example.py --listing    prints the listing, for expected.txt
#   python3 hurricane_example.py --profile    the same for examples/profile
#   python3 hurricane_example.py --traverse   prints examples/panel/traverse.txt
#   python3 hurricane_example.py --storm      prints examples/panel/storm.txt
#
# It needs model/hurricane.py: Hurricane, Place, records, listing and what a deficit is
# made of; and of model/profile.py load.

import os
import re
import subprocess
import sys
from fractions import Fraction
from math import ceil, isqrt

from model import hurricane, march, profile
from model.forcing import stress
from model.ranges import floor

HOME = os.path.dirname(os.path.dirname(os.path.abspath(__file__)))

# TM-35, page 52, by the numbers of the cards.
NM, DELT = 62, "0.5"
DIST = "62 60 55 50 45 40 35 30 25 20 15 10 5 3.5 2 1 0"
D = "600 350 240 178 154 130 115 102 84 71 64 56 44 40 36 33 30"
PHI, R, PO, PN, VF, SE, WKCOR, BFF, SA = "37", "35", "27.57", "29.92", "22", "0.5", "1.1", "0.0025", "2.5"
XR = "0 252 290 320 333 345 355 365 370 375 378 380 385 390 400 410 420 433 450 510 765"
XW = "0 90 140 180 210 252 270 290 300 310 320 340 345 360 369 380 390 402 410 420 433 450 472 490 540 598 669 765"
XT = "0 190 230 260 280 300 310 320 330 340 350 370 380 390 395 400 405 410 430 450 470 490 510 560 640 765"
VR = "377 129 92.5 65.5 54 45 39 34 32.5 32 31.5 32 32.5 35 40 46 53 64 80 137 389"
VW = "0 10 17 24 30 40 46 53 57.5 63 70 86.5 90 97 100 102 102 100 97 90 80 70 60 54 41 30 20 10"
VT = "125 123 121 118 115.5 111 107 102 95.5 87 77 50 35 15 0 338 330.5 326.5 316.5 308 301 296 293 288.8 285 280"
# The rows of page 55, label 0.5 hours and on, as the scan's text has them, misread ones
# too: setup x and y, total wind setup, pressure setup, total water level.
SX = (
    "0 0 0 -.01 -.01 -.01 -.01 -.02 -.03 -.04 -.05 -.06 -.06 -.10 -.13 -.16 -.20 -.24 -.29 -.35 -.41 -.49 -.56 -.64 -.72 -.74 -.67 "
    "-.42 -.11 1.00 2.26 3.73 5.11 6.09 6.48 6.19 5.20 4.15 3.19 2.42 1.85 1.43 1.11 .88 .71 .56 .47 .35 .32 .20 .22 .18 .15 .12 .10 "
    ".08 .07 .05 .04 .04 .03 .02"
)
SY = (
    "0 0 0 0 .01 .01 .02 .02 .02 .03 .04 .05 .07 .09 .12 .15 .19 .24 .31 .38 .46 .59 .72 .86 1.00 1.32 1.61 1.96 2.37 2.81 3.21 3.34 "
    "3.08 2.62 1.99 1.34 .82 .20 -.20 -.72 -1.07 -1.30 -1.44 -1.51 -1.52 -1.48 -1.42 -1.35 -1.27 -1.21 -1.14 -1.06 -.99 -.92 -.85 "
    "-.79 -.72 -.66 -.61 -.56 -.51 -.47"
)
SW = (
    "0 0 0 0 .01 .01 .01 .01 .01 .01 .01 .01 .01 .01 .01 .01 0 0 .02 .04 .06 .10 .16 .24 .36 .57 .94 1.34 2.49 3.01 5.47 7.08 8.19 "
    "8.71 8.47 7.52 6.07 4.62 2.98 1.71 .79 .15 -.33 -.85 -1.31 -1.70 -2.05 -2.36 -2.65 -2.94 -3.22 -3.48 -3.74 -3.99 -4.25 -4.50 "
    "-4.75 -5.01 -5.26 -5.52 -5.78 -6.03"
)
SPRES = (
    ".24 .24 .25 .26 .27 .28 .28 .29 .30 .32 .33 .34 .35 .37 .39 .40 .42 .45 .47 .50 .53 .56 .60 .64 .69 .75 .82 .90 .99 1.10 1.24 "
    "1.39 1.55 1.70 1.78 1.76 1.61 1.46 1.31 1.17 1.04 .94 .85 .78 .71 .66 .62 .58 .54 .51 .48 .46 .43 .41 .39 .38 .36 .35 .33 .32 "
    ".31 .30"
)
STOT = (
    "3.24 3.24 3.25 3.25 3.26 3.27 3.28 3.29 3.30 3.31 3.33 3.33 3.35 3.36 3.38 3.40 3.42 3.45 3.49 3.53 3.59 3.66 3.76 3.88 4.06 "
    "4.32 4.76 5.44 6.08 7.01 9.71 11.47 12.74 13.41 13.25 12.28 10.68 8.87 7.25 5.68 4.83 4.06 3.52 3.15 2.90 2.76 2.67 2.58 2.50 "
    "2.57 2.56 2.58 2.59 2.62 2.64 2.67 2.70 2.74 2.77 2.80 2.83 2.85"
)
# What the example's README chooses: where the centre starts, how far to the left of
# the traverse it passes, from where on the list of winds is read, and the mile.
START, LEFT, BEHIND, STATUTE = 377, 35, 390, Fraction("1.1508")
# The hours at which it shows the heights that TM-35 prints beside those here.
SHOWN = "0 4 7 10 13 15 16.5 17.5 20 22.5 25.5 28 30.5"
# Those at which the README of examples/profile shows two profiles side by side.
SIDE_BY_SIDE = "0 4 8 12.5 15 16 16.5 17 17.5 18.5 20 22 25.5 30.5"


def numbers(text):
    return [Fraction(word) for word in text.split()]


def nearest(value):
    """Halves away from nought."""
    return floor(value + Fraction(1, 2)) if value >= 0 else -nearest(-value)


def tenths(value):
    assert value * 10 == int(value * 10)
    return int(value * 10)


def on_curve(xs, values, x):
    """Straight between two numbers of the curve."""
    for i in range(len(xs) - 1):
        if xs[i] <= x <= xs[i + 1]:
            return values[i] + (values[i + 1] - values[i]) * (x - xs[i]) / (xs[i + 1] - xs[i])
    raise ValueError(x)


def statute(nautical):
    """Tenths of a statute mile."""
    return nearest(10 * STATUTE * nautical)


def directions():
    """The curve of the angle, falling throughout: below 0 past the place where it is 0."""
    xs, values = numbers(XT), numbers(VT)
    return xs, [value - 360 if i > values.index(0) else value for i, value in enumerate(values)]


def raised(wind):
    """Tenths of a mile per hour: the wind whose stress is nearest to WKCOR times this one's."""
    wanted = Fraction(WKCOR) * stress(10 * wind)
    return min(range(2001), key=lambda w: abs(stress(w) - wanted))


def winds():
    """Rows of the list behind the centre: x, radius and wind as on the cards, then in our units."""
    rows = []
    for x in sorted({*numbers(XR), *numbers(XW)}):
        if x >= BEHIND:
            radius = on_curve(numbers(XR), numbers(VR), x)
            wind = on_curve(numbers(XW), numbers(VW), x)
            rows.append((x, radius, wind, statute(radius), raised(wind)))
    return rows


def traverse():
    points = [(tenths(d), tenths(depth)) for d, depth in zip(numbers(DIST), numbers(D))]
    return march.Traverse(tenths(Fraction(PHI)), int(10_000 * Fraction(BFF)), int(100 * Fraction(SE)), points)


def place(record, rows):
    """The place of the track that a record, counted from 0, is made for."""
    gone = record * Fraction(DELT) * Fraction(VF)
    sites = []
    for d in numbers(DIST):
        angle = ceil(10 * on_curve(*directions(), d + gone)) % 3600
        sites.append((-statute(d), 0, angle))
    storm = hurricane.Hurricane(
        int(100 * Fraction(PO)), int(100 * Fraction(PN)), statute(Fraction(R)), statute(gone - START), statute(LEFT)
    )
    seconds = int(3600 * Fraction(DELT)) if record else 0
    return hurricane.Place(storm, seconds, int(100 * Fraction(SA)), rows, sites)


def track():
    rows = [row[3:] for row in winds()]
    return [place(record, rows) for record in range(NM)]


def listing(table=None):
    return hurricane.listing(traverse(), track(), table=table)


def lines(names, rows):
    return "".join("%s\n" % " ".join(map(str, row)) for row in [names.split(), *rows])


def traverse_text():
    *head, points = traverse()
    return lines("latitude friction initial", [head]) + lines("distance depth", points)


def storm_text():
    made = hurricane.records(track())
    rows = [(record.seconds, record.tide, *point) for record in made for point in record.points]
    return lines("seconds tide wind angle deficit", rows)


def printed():
    """By the time here, half an hour before the label: each total water level of page 55
    that is the sum of its row, by the two wind setups or by their total."""
    heights = {}
    for row, (x, y, wind, pressure, total) in enumerate(zip(*map(numbers, (SX, SY, SW, SPRES, STOT)))):
        setup = total - pressure - Fraction(SA) - Fraction(SE)
        # as far as numbers rounded to 0.01 ft can be apart
        if abs(setup - x - y) <= Fraction("0.02") or abs(setup - wind) <= Fraction("0.01"):
            heights[row * Fraction(DELT)] = total
    return heights


# Holland's profile, B = 1.5


def holland_entry(m):
    """The whole number nearest to 10,000 e^(-(m/100)^1.5), and how far from the middle
    between two: in whole numbers, to some 50 digits, by the series of e^x."""
    unit = 10**60
    # (m/100)^1.5 is the root of m^3, over 1,000
    x = isqrt(m**3 * unit**2) // 1000
    term = total = unit
    for k in range(1, 200):
        term = term * x // (k * unit)
        total += term
    value = Fraction(10_000 * unit, total)
    return nearest(value), Fraction(1, 2) - abs(value - nearest(value))


def holland():
    """The table in examples/profile/holland.txt, by the second implementation's reader."""
    return profile.load(text_of("examples", "profile", "holland.txt").encode(), [0] * profile.FACTORS)


def made_table(exponent):
    """What the example's script prints."""
    script = os.path.join(HOME, "examples", "profile", "make_table.py")
    return subprocess.run([sys.executable, script, exponent], stdout=subprocess.PIPE, check=True, text=True).stdout


def table_text(entries):
    return "".join("%s\n" % line for line in ["factor", *entries])


# What stands in the example


def text_of(*path):
    with open(os.path.join(HOME, *path)) as file:
        return file.read()


def table(source, name):
    """The numbers of an array of the C program."""
    body = re.search(r"%s\[.*?\] = \{(.*?)\n\};" % name, source, re.S).group(1)
    return [int(word) for word in re.findall(r"-?\d+", body)]


def constants(source):
    return {name: int(value) for name, value in re.findall(r"\b([A-Z_]+) = (\d+)\b", source)}


def flat(rows):
    return [number for row in rows for number in row]


def panel_tables(source):
    """The traverse of the panel's program beside what the cards give."""
    given, said = traverse(), constants(source)
    yield "points", table(source, "points"), flat(given.points)
    for name, value in (
        ("LATITUDE", given.latitude), ("FRICTION", given.friction), ("INITIAL", given.initial), ("POINTS", len(given.points)),
    ):
        yield name, said.get(name), value


def c_tables(source):
    """Each array and constant of the C program beside what the cards give."""
    yield from panel_tables(source)
    xs, angles = directions()
    places = track()
    storm = places[0].hurricane
    said = constants(source)
    yield "winds", table(source, "winds"), flat(row[3:] for row in winds())
    yield "directions", table(source, "directions"), flat((tenths(x), tenths(a)) for x, a in zip(xs, angles))
    for name, value in (
        ("CENTRAL_PRESSURE", storm.centre), ("EDGE_PRESSURE", storm.edge), ("RADIUS", tenths(Fraction(R))), ("START", 10 * START),
        ("LEFT", 10 * LEFT), ("GOES", tenths(Fraction(VF) * Fraction(DELT))), ("RECORDS", NM), ("SECONDS", places[1].seconds),
        ("TIDE", places[0].tide),
    ):
        yield name, said.get(name), value


def shown(value):
    """A number as the README shows it: to a tenth, a whole one without."""
    rounded = Fraction(nearest(10 * value), 10)
    return "%d" % value if value == int(value) else "%.1f" % rounded


def readme_rows():
    """The README's table of winds, row by row."""
    for name, column, form in (
        ("From the shore, nautical miles", 0, shown), ("radius, nautical miles", 1, shown), ("wind, miles per hour", 2, shown),
        ("radius, 0.1 statute mile", 3, str), ("wind, 0.1 mile per hour", 4, str),
    ):
        yield "| %s | %s |" % (name, " | ".join(form(row[column]) for row in winds()))


def records(made):
    return [[int(word) for word in line.split()] for line in made.decode().splitlines()[1:]]


def when(seconds):
    return "%d h %d min (%d s)" % (seconds // 3600, seconds % 3600 // 60, seconds)


def crest(made):
    """The crest in the README's words."""
    record, (seconds, low, high) = max(enumerate(records(made), 1), key=lambda line: line[1][2])
    return "%.4f to %.4f ft at %s, record %d" % (low / 10_000, high / 10_000, when(seconds), record)


def published(made):
    """published.csv, and the README's table of it, beside page 55 and the listing."""
    heights = printed()
    lines = ["%.1f,%.2f\n" % height for height in heights.items()]
    yield "published.csv", text_of("examples", "hurricane", "published.csv"), "hours,feet\n" + "".join(lines)
    yield "printed crest", max((feet, 3600 * hours) for hours, feet in heights.items()), (Fraction("13.41"), 59400)
    here = {Fraction(seconds, 3600): Fraction(nearest(Fraction(low + high, 200)), 100) for seconds, low, high in records(made)}
    yield "times that are none of the listing's", heights.keys() - here.keys(), set()
    # behind the crest the list's winds are the cards', and the limiting flux of the errata tells
    far = [hours for hours in heights if hours >= 17 and abs(here[hours] - heights[hours]) > Fraction("0.06")]
    yield "hours from 17 on with a printed height past 0.06 ft", far, []
    readme = text_of("examples", "hurricane", "README.md").splitlines()
    for name, form, values in (
        ("hours", "%g", {hours: hours for hours in here}), ("printed, ft", "%.2f", heights), ("here, ft", "%.2f", here),
        ("here less printed", "%+.2f", {hours: here[hours] - heights[hours] for hours in heights}),
    ):
        row = "| %s | %s |" % (name, " | ".join(form % values[hours] for hours in numbers(SHOWN)))
        yield "README: " + row, row.replace("-", "−") in readme, True


def tables():
    """The table of the example: each entry, how the script makes it, and ours by it."""
    entries, middles = zip(*map(holland_entry, range(1001)))
    yield "holland.txt", text_of("examples", "profile", "holland.txt"), table_text(entries)
    yield "a middle nearer than the README says", min(middles) >= Fraction("0.0003"), True
    yield "make_table.py 1.5", made_table("1.5"), table_text(entries)
    yield "make_table.py 1", made_table("1"), table_text(hurricane.entry(m) for m in range(1001))
    yield "holland.txt as it is read", holland(), list(entries)


def middle(line):
    return Fraction(line[1] + line[2], 20_000)


def feet(value, places):
    return ("%+.*f" % (places, value)).replace("-", "−")


def at_shore(places, table):
    """Record by record: R/r at the shore in hundredths, and the deficit there."""
    for place in places:
        r = hurricane.distance(place.hurricane, place.sites[-1])
        yield hurricane.hundredths(place.hurricane.radius, r), hurricane.deficit(place.hurricane, r, table)


def side_by_side(myers, other):
    """What the README of examples/profile says of both listings."""
    readme = text_of("examples", "profile", "README.md")
    places = track()
    ours, theirs = list(at_shore(places, hurricane.own_table())), list(at_shore(places, holland()))
    moved = [middle(b) - middle(a) for a, b in zip(records(myers), records(other))]
    # by the pressure setup at the shore, 1.14 ft an inch
    rest = max(abs(m - Fraction("0.0114") * (b[1] - a[1])) for m, a, b in zip(moved, ours, theirs))
    yield "what moves beside the pressure setup", feet(rest, 3), "+0.011"
    number, most = max(enumerate(moved, 1), key=lambda one: abs(one[1]))
    yield "README: largest difference", "difference is %s ft, at %s, record %d" % (
        feet(most, 4), when(records(myers)[number - 1][0]), number) in readme, True
    for name, made in ("Myers' profile the crest is", myers), ("Holland's it is", other):
        yield "README: crest, " + name, "%s %s" % (name, crest(made)) in readme, True
    # at the start, and where the centre passes in distance R
    yield "README: at the start", (feet(moved[0], 2), ours[34], theirs[34]), ("−0.16", (99, 147), (99, 147))
    yield "entries at r = R", (hurricane.entry(100), holland()[100]), (3679, 3679)
    yield "README: then apart", feet(moved[34], 3), "+0.004"
    yield "records with the shore inside R", [m for m, _ in ours if m > 100], []
    yield from side_by_side_rows(readme.splitlines(), ours, theirs, records(myers), records(other))


def side_by_side_rows(readme, ours, theirs, myers, other):
    """The rows of its table."""
    shown = [int(2 * hours) for hours in numbers(SIDE_BY_SIDE)]

    def to_thousandths(lines):
        return [Fraction(nearest(1000 * middle(line)), 1000) for line in lines]

    first, second = to_thousandths(myers), to_thousandths(other)
    for name, form, values in (
        ("hours", "%g", [Fraction(record, 2) for record in range(NM)]),
        ("R/r at the shore", "%.2f", [Fraction(m, 100) for m, _ in ours]),
        ("deficit there by Myers, inches", "%.2f", [Fraction(d, 100) for _, d in ours]),
        ("deficit there by Holland, inches", "%.2f", [Fraction(d, 100) for _, d in theirs]),
        ("Myers, ft", "%.3f", first), ("Holland, ft", "%.3f", second),
        ("Holland less Myers, ft", "%+.3f", [b - a for a, b in zip(first, second)]),
    ):
        row = "| %s | %s |" % (name, " | ".join(form % values[record] for record in shown))
        yield "README: " + row, row.replace("-", "−") in readme, True


def main():
    if sys.argv[1:] in (["--traverse"], ["--storm"]):
        sys.stdout.write(traverse_text() if sys.argv[1] == "--traverse" else storm_text())
        return 0
    if sys.argv[1:] == ["--profile"]:
        sys.stdout.buffer.write(listing(holland()))
        return 0
    made = listing()
    if sys.argv[1:] == ["--listing"]:
        sys.stdout.buffer.write(made)
        return 0
    readme = text_of("examples", "hurricane", "README.md")
    checks = [("expected.txt", text_of("examples", "hurricane", "expected.txt").encode(), made)]
    checks += c_tables(text_of("examples", "c", "hurricane.c"))
    checks += panel_tables(text_of("examples", "c", "panel.c"))
    checks.append(("panel/traverse.txt", text_of("examples", "panel", "traverse.txt"), traverse_text()))
    checks.append(("panel/storm.txt", text_of("examples", "panel", "storm.txt"), storm_text()))
    checks += [("README: " + row, row in readme.splitlines(), True) for row in readme_rows()]
    checks += published(made)
    checks.append(("README: crest " + crest(made), "crest is %s." % crest(made) in readme, True))
    by_holland = listing(holland())
    checks.append(("profile/expected.txt", text_of("examples", "profile", "expected.txt").encode(), by_holland))
    checks += tables()
    checks += side_by_side(made, by_holland)
    wrong = [check for check in checks if check[1] != check[2]]
    for what, found, wanted in wrong:
        print("%s: found %s, not %s" % (what, found, wanted))
    print("%d passed, %d failed" % (len(checks) - len(wrong), len(wrong)))
    return 1 if wrong else 0


if __name__ == "__main__":
    sys.exit(main())
