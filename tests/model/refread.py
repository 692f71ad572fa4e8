# The expected output of the little program that only reads: what it took from
# traverse.txt and storm.txt, one line each. Of the checks after 1 to 4 it makes
# the count of points alone (2 to 65, else `refused 5 COUNT`).
#
#   traverse LATITUDE FRICTION INITIAL COUNT, then point DISTANCE DEPTH for each
#   record SECONDS TIDE, then point WIND ANGLE DEFICIT for each; record by record
#   refused NUMBER PLACE as the last line of a refused text
#
#   python3 -m model.refread DIR     prints it for the files in DIR

import os
import sys

from . import march
from .program import load, refused
from .reader import read_storm, read_traverse


def read_lines(traverse_text, storm_text):
    traverse = read_traverse(traverse_text)
    if isinstance(traverse, march.Refusal):
        yield refused(traverse)
        return
    count = len(traverse.points)
    if not march.within(count, march.POINTS):
        yield refused(march.Refusal(5, count))
        return
    yield "traverse %d %d %d %d\n" % (*traverse[:3], count)
    for point in traverse.points:
        yield "point %d %d\n" % point
    for record in read_storm(storm_text, count):
        if isinstance(record, march.Refusal):
            yield refused(record)
            return
        yield "record %d %d\n" % record[:2]
        for point in record.points:
            yield "point %d %d %d\n" % point


def listing(traverse_text, storm_text):
    return "".join(read_lines(traverse_text, storm_text)).encode()


def main(arguments):
    folder = arguments[0] if arguments else "."
    texts = [load(os.path.join(folder, n)) for n in ("traverse.txt", "storm.txt")]
    sys.stdout.buffer.write(listing(*texts))


if __name__ == "__main__":
    main(sys.argv[1:])
