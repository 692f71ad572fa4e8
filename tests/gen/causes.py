# Two texts for every cause of a refusal that tools/explain tells apart, with the mark
# that it has to make and words that it has to say.
#
# A cause is (label, traverse, storm, mark, words). mark: first column and the one
# behind the last, in the line as it is shown; None where explain.py's own rule
# judges it, or several lines are shown.

import random

from . import cases, edges
from .run import Run

GOOD = cases.small_run().traverse_text(), cases.small_run().storm_text()


def with_line(text, number, line):
    lines = text.split(b"\n")
    lines[number - 1] = line
    return b"\n".join(lines)


def names_causes():
    """Refusal 1, in each file."""
    def both(label, change, mark, *words):
        yield (label, change(GOOD[0]), GOOD[1], mark, words)
        yield (label, GOOD[0], change(GOOD[1]), mark, words)

    yield from both("carriage returns", lambda t: t.replace(b"\n", b"\r\n"), None, "a carriage return", "line ends of Windows")
    yield from both("carriage returns alone", lambda t: t.replace(b"\n", b"\r"), None, "a carriage return")
    yield from both("byte-order mark", lambda t: b"\xef\xbb\xbf" + t, (0, 12), "a byte-order mark", "saved as UTF-8 with a mark")
    yield from both("UTF-16", lambda t: t.decode().encode("utf-16"), (0, 8), "a byte-order mark of UTF-16", "saved as UTF-16")
    yield from both("UTF-16, the other way", lambda t: b"\xfe\xff" + t.decode().encode("utf-16-be"), (0, 8), "a byte-order mark of UTF-16")
    yield from both("UTF-16 without a mark", lambda t: t.decode().encode("utf-16-le"), (1, 3), "a zero byte", "saved as UTF-16")
    yield from both("semicolons", lambda t: t.replace(b" ", b";"), None, "a comma or semicolon")
    yield from both("quotes", lambda t: b'"' + t, (0, 1), "a quotation mark")
    yield from both("apostrophes", lambda t: b"'" + t, (0, 1), "a quotation mark")
    yield from both("a comment", lambda t: b"#" + t, (0, 1), "a number sign", "comment")
    yield from both("tabs", lambda t: t.replace(b" ", b"\t"), None, "a tab", "one space between two values")
    yield from both("commas", lambda t: t.replace(b" ", b","), None, "a comma or semicolon")
    yield from both("two spaces", lambda t: t.replace(b" ", b"  ", 1), None, "two spaces")
    yield from both("space at the end", lambda t: t.replace(b"\n", b" \n", 1), None, "a space at the end of the line")
    yield from both("space at the start", lambda t: b" " + t, (0, 1), "a space at the start of the line")
    yield from both("capitals", lambda t: t[:1].upper() + t[1:], (0, 1), "a capital letter", "small letters")
    yield from both("no names", lambda t: t.split(b"\n", 1)[1], None, "values where the names should be")
    yield from both("no line feed", lambda t: t.split(b"\n", 1)[0], None, "no line feed: the text ends here")
    yield from both("a name left out", lambda t: t.replace(b"\n", b"", 1).split(b" ", 1)[0] + b"\n", None, "the line ends here")
    yield from both("a name more", lambda t: t.replace(b"\n", b" datum\n", 1), None, "more than the names")
    yield from both("blank line", lambda t: b"\n" + t, (0, 1), "an empty line")
    yield from both("another name", lambda t: t[:3] + b"x" + t[4:], (3, 4), "another character than the name has")
    yield from both("no bytes", lambda t: b"", None, "is empty", "not one byte")
    yield ("exchanged", GOOD[1], GOOD[0], (0, 31), ("traverse.txt and storm.txt exchanged",))
    yield ("no head", GOOD[0].split(b"\n", 2)[2], GOOD[1], (0, 14), ("the names line of another place", "a line left out before it"))
    yield ("head twice", with_line(GOOD[0], 3, b"latitude friction initial"), GOOD[1], (0, 25), ("the names line of another place", "expected: distance depth"))
    yield ("two value lines", with_line(GOOD[0], 3, b"305 25 -20"), GOOD[1], (0, 10), ("expected: distance depth", "a line of values too many"))


# The second point of a traverse stands in line 5; its mark, and what is said.
POINT_LINES = (
    (b"60.5 700", (2, 3), "a decimal point", "12.5 nautical miles are 125"),
    (b"60 700 ", (6, 7), "a space at the end of the line"),
    (b"060 700", (0, 1), "a leading zero", "write 5 and not 05"),
    (b"60 0700", (3, 4), "a leading zero"),
    (b"-060 700", (1, 2), "a leading zero"),
    (b"60 700\r", (6, 8), "a carriage return", "line ends of Windows"),
    (b"60\t700", (2, 4), "a tab"),
    (b"60,700", (2, 3), "a comma or semicolon", "thousands separator"),
    (b"60  700", (3, 4), "two spaces"),
    (b" 60 700", (0, 1), "a space at the start of the line"),
    (b"60", (2, 3), "the line ends after 1 of 2 values"),
    (b"60 ", (3, 4), "the line ends after 1 of 2 values"),
    (b"", (0, 1), "an empty line"),
    (b"60 700 5", (7, 8), "more than 2 values"),
    (b"+60 700", (0, 1), "a plus sign"),
    (b"-0 700", (0, 2), "a minus before nought"),
    (b"- 60 700", (1, 2), "a minus with no digit behind it"),
    (b"6e1 700", (1, 2), "an exponent"),
    (b"12345678901 700", (9, 11), "more than nine digits"),
    (b"-1234567890 700", (10, 11), "more than nine digits"),
    (b"sixty 700", (0, 1), "a letter"),
    (b"60 \xe2\x88\x92700", (3, 7), "a byte, E2, that is no plain character", "word processor"),
    (b'"60" 700', (0, 1), "a quotation mark"),
    (b"#60 700", (0, 1), "a number sign", "comment"),
    (b"60\x00 700", (2, 4), "a zero byte"),
    (b"60\x7f700", (2, 6), "a byte, 7F, that is no plain character"),
    (b"60\x0b700", (2, 6), "a byte, 0B, that is no plain character"),
    (b"60Z 700", (2, 3), "a letter"),
    (b"60z 700", (2, 3), "a letter"),
    (b"60_ 700", (2, 3), "a character that no value has"),
    (b"60@ 700", (2, 3), "a character that no value has"),
    (b"60{ 700", (2, 3), "a character that no value has"),
    (b"60~700", (2, 3), "a character that no value has"),
    (b"60 700*", (6, 7), "a character that no value has"),
)


def value_causes():
    for line, mark, *words in POINT_LINES:
        yield (repr(line), with_line(GOOD[0], 5, line), GOOD[1], mark, words)
        # the same in the middle of the storm: record 2, point 2
        yield ("storm " + repr(line), GOOD[0], with_line(GOOD[1], 6, line + b" 0 0 0"), None, ())
    yield ("no last line feed", GOOD[0][:-1], GOOD[1], (5, 6), ("no line feed: the text ends here", "end the file with one"))
    yield ("no last line feed", GOOD[0], GOOD[1][:-1], (22, 23), ("no line feed: the text ends here",))
    words = "the line ends after 2 of 3 values", "limits: 3 values (latitude friction initial)"
    yield ("head of two", with_line(GOOD[0], 2, b"305 25"), GOOD[1], (6, 7), words)
    yield ("a long line", with_line(GOOD[0], 5, b"60 " + b"7" * 100_000), GOOD[1], None, ("more than nine digits",))


def text_causes():
    for count in (1, 2, 3):
        yield ("cut", b"".join(GOOD[0].splitlines(True)[:count]), GOOD[1], None, ("a file that was cut short",))
    for count in (1, 2, 3, 5, 9):
        yield ("cut", GOOD[0], b"".join(GOOD[1].splitlines(True)[:count]), None, ("a file that was cut short",) if count > 1 else ())
    words = "record 3 has 2 of 3 lines", "the same seconds and tide, from line 8 on: 2\n"
    yield ("a record short", GOOD[0], b"".join(GOOD[1].splitlines(True)[:9]), None, words)
    words = "seconds 1801, not 1800", "line 5, the first of the record:", "from line 5 on: 1\n"
    yield ("seconds differ", GOOD[0], with_line(GOOD[1], 6, b"1801 10 1 1 1"), (0, 4), words)
    yield ("tide differs", GOOD[0], with_line(GOOD[1], 7, b"1800 11 1 1 1"), (5, 7), ("tide 11, not 10", "from line 5 on: 2\n"))
    more = GOOD[0].replace(b"0 400\n", b"20 450\n0 400\n")
    yield ("a point too many", more, GOOD[1], (0, 4), ("each point of the traverse, 4 here", "the same seconds and tide, from line 2 on: 3\n"))


def limit_causes():
    head = lambda line: with_line(GOOD[0], 2, line)
    point = lambda number, line: with_line(GOOD[0], 3 + number, line)
    yield ("latitude", head(b"901 25 0"), GOOD[1], (0, 3), ("43 degrees are 430",))
    yield ("friction", head(b"900 9 0"), GOOD[1], (4, 5), ("0.0025 is 25",))
    yield ("initial", head(b"0 50 -1001"), GOOD[1], (5, 10), ("1 ft is 100",))
    yield ("distance", point(1, b"6401 9"), GOOD[1], (0, 4), ("5 nautical miles are 50",))
    yield ("depth", point(3, b"0 -1"), GOOD[1], (2, 4), ("heights of land",))
    yield ("one point", b"".join(GOOD[0].splitlines(True)[:4]), GOOD[1], (0, 8), ("there is no second point", "limits: 2 to 65 points"))
    points = b"".join(b"%d 500\n" % i for i in range(69, -1, -1))
    yield ("70 points", b"".join(GOOD[0].splitlines(True)[:3]) + points, GOOD[1], (0, 5), ("there are 70 points", "^^^^^ point 66\n", "limits: 2 to 65 points"))
    yield ("from shore to sea", point(2, b"151 9"), GOOD[1], (0, 3), ("distance 151, not less than 150", "from sea to shore"))
    yield ("a gap", point(2, b"49 9"), GOOD[1], (0, 2), ("distance 49, 101 less than 150", "more than 10 nautical miles"))
    rule = "limits: each distance from 1 to 100 less than the one before (0.1 nautical mile), the last 0\n"
    yield ("no shore", point(3, b"5 9"), GOOD[1], (0, 1), ("distance 5 at the last point, not 0", rule))
    yield ("almost the shore", point(3, b"1 9"), GOOD[1], (0, 1), ("distance 1 at the last point, not 0", rule))


def record_causes():
    storm = GOOD[1]
    yield ("first seconds", GOOD[0], storm.replace(b"\n0 -5", b"\n5 -5"), (0, 1), ("the first record closes no interval",))
    yield ("seconds", GOOD[0], storm.replace(b"\n3600 ", b"\n5400 "), (0, 4), ("seconds since the storm's start", "ended at 1800 s"))
    yield ("tide", GOOD[0], storm.replace(b"\n1800 10 ", b"\n1800 -2001 "), (5, 10), ("0.01 ft",))
    yield ("wind", GOOD[0], with_line(storm, 7, b"1800 10 2001 0 0"), (8, 12), ("100 miles per hour are 1000",))
    yield ("angle", GOOD[0], with_line(storm, 8, b"3600 -100 0 3600 0"), (12, 16), ("360 degrees are 0",))
    yield ("deficit", GOOD[0], with_line(storm, 2, b"0 -5 0 0 2992"), (9, 13), ("the pressure itself (2992)",))
    yield ("dry", GOOD[0].replace(b"400", b"0").replace(b" 700", b" 4"), storm, None, ("without setup: 0.7784 ft", "from 1 ft to 1000 ft", "falls dry"))
    deep = GOOD[0].replace(b"-20", b"6").replace(b"150 1200", b"150 10000").replace(b" 700", b" 10000")
    yield ("deep", deep, storm, None, ("without setup: 1000.0784 ft\n", "from 1 ft to 1000 ft"))
    points = [[i, 500] for i in range(64, -1, -1)]
    run = Run(300, 25, 0, points, [[s, 0] + [[500, 300, 5]] * 65 for s in (0, 600)])
    run.records[1][-1] = [2001, 300, 5]
    yield ("65 points", run.traverse_text(), run.storm_text(), (6, 10), ("in storm.txt, line 131, record 2, point 65\n",))
    rng = random.Random(3)
    run = edges.flux_edge(rng)[1]
    yield ("flux", run.traverse_text(), run.storm_text(), None, ("from -10000 to 10000 ft2/s", "friction too small"))
    run = edges.setup_edge(rng)[1]
    yield ("setup", run.traverse_text(), run.storm_text(), None, ("from -100 ft to 100 ft", "shallow"))


def calm_causes():
    """Refusal 18: in a first record, a later one and the last, at the first point, one between and the last; and what comes before it."""
    rule = "limits: a wind of 0 carries angle 0\n"
    for record, start in enumerate((b"0 -5 ", b"1800 10 ", b"3600 -100 "), 1):
        ended = ("the record before it ended at %d s\n" % (0, 1800)[record - 2],) if record > 1 else ()
        for point, fields in enumerate((b"0 1 300", b"0 2700 0", b"0 3599 12"), 1):
            line = 3 * record - 2 + point
            where = "in storm.txt, line %d, record %d, point %d\n" % (line, record, point)
            yield ("calm", GOOD[0], with_line(GOOD[1], line, start + fields), None, (where, rule, "left out or not read") + ended)
    storm = with_line(with_line(GOOD[1], 9, b"3600 -100 0 5 0"), 10, b"3600 -100 0 6 0")
    yield ("two calms", GOOD[0], storm, None, ("refused 18 2", "wind 0, angle 5\n"))
    storm = with_line(with_line(GOOD[1], 8, b"3600 -100 0 5 0"), 10, b"3600 -100 2001 5 0")
    yield ("9 behind a calm", GOOD[0], storm, (10, 14), ("refused 9 3", "wind 2001\n"))
    yield ("a calm past the limits", GOOD[0], with_line(GOOD[1], 8, b"3600 -100 0 3600 0"), (12, 16), ("refused 9 1", "angle 3600\n"))
    points = [[i, 500] for i in range(64, -1, -1)]
    run = Run(300, 25, 0, points, [[s, 0] + [[500, 300, 5]] * 65 for s in (0, 600)])
    run.records[1][-1] = [0, 300, 5]
    yield ("65 points", run.traverse_text(), run.storm_text(), None, ("in storm.txt, line 131, record 2, point 65\n",))


def every():
    yield from names_causes()
    yield from value_causes()
    yield from text_causes()
    yield from limit_causes()
    yield from record_causes()
    yield from calm_causes()
