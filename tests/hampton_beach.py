#!/usr/bin/env python3
# TM-50's printed curve at Hampton Beach: examples/hampton-beach/published.csv beside the
# listing of that folder, by the model and, where a program is given, by the program.
#
#   python3 hampton_beach.py [PROGRAM]     the last line is `N passed, M failed`
#
# A printed height may lie outside the range of its hour by 0.03 ft, as document 02's
# readings say of the whole curve; the farthest, at 9 hours, is 0.028 ft above it. The
# crest has to stand in the printed hour, 10. TM-50 prints to 0.01 ft. `--table` prints
# hour by hour.

import os
import subprocess
import sys
from fractions import Fraction

from model import program

HOME = os.path.dirname(os.path.dirname(os.path.abspath(__file__)))
FOLDER = os.path.join(HOME, "examples", "hampton-beach")
APART = Fraction("0.03")


def published():
    """Feet by hours."""
    with open(os.path.join(FOLDER, "published.csv")) as file:
        names, *lines = file.read().splitlines()
    assert names == "hours,feet"
    return {Fraction(hours): Fraction(feet) for hours, feet in (line.split(",") for line in lines)}


def bands(listing):
    """Low and high in feet, by hours."""
    names, *lines = listing.decode().splitlines()
    assert names == "seconds low high"
    rows = (map(int, line.split()) for line in lines)
    return {Fraction(seconds, 3600): (Fraction(low, 10_000), Fraction(high, 10_000)) for seconds, low, high in rows}


def outside(feet, band):
    """How far a height lies above its band, or below it as a negative number."""
    low, high = band
    return max(feet - high, Fraction(0)) or min(feet - low, Fraction(0))


def listings(arguments):
    texts = [program.load(os.path.join(FOLDER, name)) for name in ("traverse.txt", "storm.txt")]
    yield "the model", program.listing(*texts)
    for path in arguments:
        done = subprocess.run([os.path.abspath(path)], cwd=FOLDER, stdin=subprocess.DEVNULL, stdout=subprocess.PIPE)
        yield path, done.stdout


def checks(name, listing):
    """What is compared, and whether it is as printed."""
    printed, here = published(), bands(listing)
    yield "%s: the printed hours" % name, list(here) == list(printed)
    for hours in here.keys() & printed.keys():
        by = outside(printed[hours], here[hours])
        yield "%s: %s ft at %s h, %+.4f ft off" % (name, float(printed[hours]), float(hours), by), abs(by) <= APART
    crests = [max(heights, key=lambda hours: heights[hours]) for heights in (printed, {h: b[1] for h, b in here.items()})]
    yield "%s: crest at %s h, printed at %s h" % (name, *map(float, reversed(crests))), crests == [10, 10]


def table(listing):
    """Hours, printed, low, high, printed less the middle, printed outside by so much."""
    here = bands(listing)
    for hours, feet in published().items():
        low, high = here[hours]
        shown = hours, feet, low, high, feet - (low + high) / 2, outside(feet, here[hours])
        print("%4.1f  %5.2f  %7.4f  %7.4f  %+.4f  %+.4f" % tuple(map(float, shown)))


def main(arguments):
    if arguments == ["--table"]:
        table(next(listings([]))[1])
        return 0
    made = [check for name, listing in listings(arguments) for check in checks(name, listing)]
    wrong = [what for what, good in made if not good]
    for what in wrong:
        print(what)
    print("%d passed, %d failed" % (len(made) - len(wrong), len(wrong)))
    return 1 if wrong else 0


if __name__ == "__main__":
    sys.exit(main(sys.argv[1:]))
