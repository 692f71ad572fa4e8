#!/usr/bin/env python3
# Runs tools/deck and the example in C that it is made of on decks, and judges what they print, say and return.
#
#   python3 decks.py DECK
#
# DECK is examples/c/deck.c, built. What a deck has to give is worked out here. First the decks under examples/, then a table with every refusal of a
# deck and every cause that tools/deck tells apart, files that cannot be read, output that cannot be written, long decks, names, usage, and when the
# tool compiles. The table is run by a copy of the tool whose library is there already, so that it need not ask each time.
# The last line is `N passed, M failed`; the exit status is 0 only where M is 0.

import os
import re
import shutil
import subprocess
import sys
import tempfile

from explain import shown

HOME = os.path.dirname(os.path.dirname(os.path.abspath(__file__)))
TOOL = os.path.join(HOME, "tools", "deck")
EXAMPLES = os.path.join(HOME, "examples", "decks")
VALUES = ("428", "25", "60")
SHOWN = 10
# No bash complains of our own scripts, and no fault goes unfound.
SIGNS_OF_A_FAULT = ("unbound variable", "syntax error", "command not found", "awk:", "does not show this fault")
CONDITIONS = {
    2: "not the shape of a card", 3: "the deck is empty", 6: "past its limits", 15: "wrong word or a wrong card number",
    16: "no whole count of tenths", 17: "not as many depths as distances",
}
# TM-50's Table 4, Biloxi: distance from shore and depth, from the shore on.
BILOXI = """0.0 0 1.0 3 2.0 9 3.0 9 5.0 12 10.0 13 15.0 35 20.0 36 30.0 40 40.0 52 50.0 90 60.0 160 70.0 235 77.0 600"""

passed = failed = 0


def check(what, held, *told):
    global passed, failed
    if held:
        passed += 1
        return
    failed += 1
    if failed <= SHOWN:
        print("%s: %s" % (what, " ".join(map(str, told))[:600]))


def run(*command, **options):
    options = {"stdin": subprocess.DEVNULL, "stdout": subprocess.PIPE, "stderr": subprocess.PIPE, "timeout": 1200, **options}
    return subprocess.run(command, **options)


def write(path, text, executable=False):
    with open(path, "wb") as file:
        file.write(text)
    if executable:
        os.chmod(path, 0o755)
    return path


def traverse_of(points, values=VALUES):
    """The text of traverse.txt, of points in tenths."""
    lines = ["latitude friction initial", " ".join(values), "distance depth"] + ["%d %d" % point for point in points]
    return ("\n".join(lines) + "\n").encode()


def cards(word, numbers, width=6):
    groups = [numbers[i : i + width] for i in range(0, len(numbers), width)]
    return "".join("%s %d %s\n" % (word, i + 1, " ".join(group)) for i, group in enumerate(groups)).encode()


def tenths(n):
    """As the cards of TM-50 have it."""
    return "%s.%s" % (n // 10 or "", n % 10 or "") if n else "0.0"


def deck_of(points, distances=6, depths=6):
    return cards("DIST", [tenths(d) for d, _ in points], distances) + cards("DEPTH", [tenths(h) for _, h in points], depths)


# The decks under examples/


def test_examples(programs):
    with open(os.path.join(HOME, "examples", "hampton-beach", "traverse.txt"), "rb") as file:
        hampton = file.read()
    words = BILOXI.split()
    biloxi = [(round(10 * float(d)), round(10 * float(h))) for d, h in zip(words[::2], words[1::2])]
    wanted = {"hampton-beach.deck": (VALUES, hampton), "camille.deck": (("300", "30", "120"), traverse_of(biloxi[::-1], ("300", "30", "120")))}
    decks = [name for name in os.listdir(EXAMPLES) if name.endswith(".deck")]
    check("every deck of the examples is tested", sorted(decks) == sorted(wanted), decks)
    for name, (values, text) in wanted.items():
        for program in programs:
            done = run(program, os.path.join(EXAMPLES, name), *values)
            check("%s by %s" % (name, program), (done.returncode, done.stdout, done.stderr) == (0, text, b""), done)
        with open(os.path.join(EXAMPLES, name), "rb") as file:
            check("cards of six numbers, " + name, all(line.count(b" ") <= 7 for line in file))
        with open(os.path.join(EXAMPLES, "README.md")) as file:
            check("the README has the values, " + name, "tools/deck examples/decks/%s %s" % (name, " ".join(values)) in file.read())


# Refusals. A row: label, deck, number, place, the bytes of the line that are marked, words.


def shape(label, line, first, last, *words):
    """A line that is no card, alone and behind two that are sound."""
    yield (label, line, 2, 1, (first, last), words)
    yield (label + ", line 3", b"DIST 1 5\nDIST 2 4\n" + line, 2, 3, (first, last), words)


def shapes():
    yield from shape("an empty line", b"\n", 0, 0, "an empty line", "blank line")
    yield from shape("a space in front", b" DIST 1 5\n", 0, 0, "a space at the start")
    yield from shape("a word alone", b"DIST\n", 4, 4, "ends after its word")
    yield from shape("tabs", b"DIST\t1\t5\n", 4, 4, "a tab", "one space between two")
    yield from shape("a tab between numbers", b"DIST 1 5\t6\n", 8, 8, "a tab")
    yield from shape("commas", b"DIST,1,5\n", 4, 4, "a comma or semicolon")
    yield from shape("a comma between numbers", b"DIST 1 5,6\n", 8, 8, "a comma or semicolon")
    yield from shape("no numbers", b"DIST 1\n", 6, 6, "ends after its word and card number")
    yield from shape("a space for a number", b"DIST 1 \n", 7, 7, "ends where a number is due", "a space at the end")
    yield from shape("a space at the end", b"DIST 1 5 \n", 9, 9, "ends where a number is due", "a space at the end")
    yield from shape("spaces at the end", b"DIST 1 5  \n", 9, 9, "a space at the end of the line")
    yield from shape("two spaces", b"DIST 1 5  6\n", 9, 9, "two spaces", "awk '{ $1 = $1 } 1' FILE > NEW")
    yield from shape("columns", b"DIST      1         77.       70.\n", 5, 5, "two spaces", "columns")
    yield from shape("no line feed", b"DIST 1 5", 8, 8, "no line feed: the text ends here")
    yield from shape("no line feed in the word", b"DIST", 4, 4, "no line feed: the text ends here")
    yield from shape("a carriage return", b"DIST 1 5\r\n", 8, 8, "a carriage return", "Windows")
    yield from shape("seven numbers", b"DIST 1 5 6 7 8 9 10 11\n", 20, 21, "more than six numbers")
    yield from shape("six numbers and a space", b"DIST 1 5 6 7 8 9 10 \n", 19, 19, "a space at the end of the line")
    yield from shape("a minus", b"DIST 1 -5\n", 7, 7, "a minus", "heights of land")
    yield from shape("a minus at the card number", b"DIST -1 5\n", 5, 5, "a minus", "card numbers count from 1")
    yield from shape("a plus", b"DIST 1 +5\n", 7, 7, "a plus sign")
    yield from shape("two points", b"DIST 1 1.2.3\n", 10, 10, "a second point")
    yield from shape("a point alone", b"DIST 1 .\n", 7, 7, "a point without a digit", "an empty field")
    yield from shape("nine digits", b"DIST 1 123456789\n", 15, 15, "more than eight digits")
    yield from shape("nine digits with a point", b"DIST 1 1234.56789\n", 16, 16, "more than eight digits")
    yield from shape("a card number of nine digits", b"DIST 000000001 5\n", 13, 13, "more than eight digits")
    yield from shape("a card number with a point", b"DIST 1. 5\n", 6, 6, "a point in the card number")
    yield from shape("an exponent", b"DIST 1 5E0\n", 8, 8, "an exponent")
    yield from shape("a unit", b"DIST 1 5ft\n", 8, 8, "a letter")
    yield from shape("a title", b"SAMPLE STORM SURGE PROBLEM\n", 7, 7, "a letter", "title")
    yield from shape("parameters", b"44 49 0 0 1 1 1 PAR 1\n", 16, 16, "a letter")
    yield from shape("a comment behind", b"DIST 1 5 # deep\n", 9, 9, "a number sign")
    yield from shape("a fixed space", b"DIST 1 \xa05\n", 7, 7, "a byte, A0")
    yield from shape("UTF-16", "DIST 1 5\n".encode("utf-16-le"), 9, 9, "a zero byte", "UTF-16")
    yield from shape("no line at all", b"x" * 100_000, 0, 99, "longer than any card")
    yield from shape("a number without end", b"DIST 1 " + b"1" * 100_000 + b"\n", 15, 99, "more than eight digits")


def refusals():
    yield from shapes()
    yield ("no bytes", b"", 3, 0, None, ("not one byte",))

    def order(label, deck, line, mark, *words):
        return (label, deck, 15, line, mark, words)

    yield order("a first card 2", b"DIST 2 5\n", 1, (5, 5), "card number 2, due DIST 1 or DEPTH 1", "left out")
    yield order("a card left out", b"DIST 1 5\nDIST 3 4\n", 2, (5, 5), "card number 3, due DIST 2 or DEPTH 1", "left out")
    yield order("a card twice", b"DIST 1 5\nDIST 2 4\nDIST 2 4\n", 3, (5, 5), "card number 2, due DIST 3 or DEPTH 1", "twice")
    yield order("card 0", b"DIST 0 5\n", 1, (5, 5), "card number 0", "count from 1")
    yield order("card 08", b"DIST 08 5\n", 1, (5, 6), "card number 8")
    yield order("depths that go on", b"DIST 1 5\nDIST 2 4\nDEPTH 3 5\n", 3, (6, 6), "due DIST 3 or DEPTH 1", "numbered from 1 again")
    yield order("a depth card left out", b"DIST 1 5\nDEPTH 1 5\nDEPTH 3 5\n", 3, (6, 6), "card number 3, due DEPTH 2", "left out")
    yield order("in turns", b"DIST 1 5\nDEPTH 1 4\nDIST 2 4\n", 3, (0, 3), "word DIST, due DEPTH 2", "in turns")
    yield order("two decks", b"DIST 1 5\nDEPTH 1 4\nDIST 1 5\n", 3, (0, 3), "word DIST, due DEPTH 2", "second deck")
    yield order("small letters", b"dist 1 5\n", 1, (0, 3), "word dist", "in capitals")
    yield order("a wind card", b"DIST 1 5\nCAM 1 1 274. 37. 86.\n", 2, (0, 2), "word CAM", "another kind")
    yield order("a word that goes on", b"DISTANCE 1 5\n", 1, (0, 7), "word DISTANCE", "written otherwise")
    yield order("a carriage return in the word", b"DIST\r 1 5\n", 1, (0, 4), "word DIST\\r")
    yield order("a byte-order mark", b"\xef\xbb\xbfDIST 1 5\n", 1, (0, 2), "a byte-order mark", "saved as UTF-8")
    yield order("a long word", b"x" * 30 + b" 1 5\n", 1, (0, 29), "word xxxxxxxxxxxxxxxxxxxx..")
    yield order("a very long word", b"x" * 100_000 + b" 1 5\n", 1, (0, 99), "word xxxxxxxxxxxxxxxxxxxx..")

    def unit(label, deck, line, *words):
        return (label, deck, 16, line, None, words)

    yield unit("hundredths", b"DIST 1 0.05 1 2.75 1.50\n", 1, "           ^^^^   ^^^^ 0.05, 2.75", "round them to tenths")
    yield unit("hundredths of a foot", b"DIST 1 5\nDEPTH 1 12.340 .01\n", 2, "            ^^^^^^ ^^^ 12.340, .01", "of a foot")
    yield ("a depth too few", b"DIST 1 5 4\nDEPTH 1 5\n", 17, 2, None, ("distances: 2", "depths: 1", "DIST 1 with 2 numbers, DEPTH 1 with 1"))
    yield ("a card too many", b"DIST 1 5\nDEPTH 1 5\nDEPTH 2 6 7\n", 17, 1, None, ("depths: 3", "DIST 2 with 0 numbers, DEPTH 2 with 2"))
    yield ("depths alone", b"DEPTH 1 5\n", 17, 0, None, ("distances: 0", "depths: 1"))
    yield ("distances alone", b"DIST 1 5\n", 17, 1, None, ("depths: 0",))
    # two faults at once
    yield ("2 before 15 before 16", b"DUST 2 .01 x\n", 2, 1, (11, 11), ("a letter",))
    yield ("15 before 16", b"DIST 2 .01\n", 15, 1, (5, 5), ())
    yield ("the earlier line", b"DIST 1 .01\nDIST 3\n", 16, 1, None, ())
    yield ("a line before the counts", b"DIST 1 5\nDEPTH 1 5 6\nDEPTH 3 1\n", 15, 3, (6, 6), ())


def told_wrong(told, name, deck, number, place, mark, words):
    """What of a refusal's words is not as it has to be."""
    lines = told.split("\n")
    if not lines[0].startswith("refused %d %d: " % (number, place)) or CONDITIONS[number] not in lines[0]:
        return "the first line: " + lines[0]
    if number in (2, 15, 16):
        if lines[1] != "in %s, line %d" % (name, place):
            return "the second line: " + lines[1]
        # the loaded line ends with its line feed
        line = deck.split(b"\n")[place - 1] + (b"\n" if deck.count(b"\n") >= place else b"")
        text, column = shown(line)
        if lines[2] != "    " + text + (" .." if len(line) >= 100 else ""):
            return "the line that is shown: " + lines[2]
        if mark:
            first, last = mark
            end = column[last + 1] if last + 1 < len(column) else len(text) + 1
            marks = " " * column[first] + "^" * max(1, end - column[first])
            if not (lines[3] + " ").startswith("    " + marks + " "):
                return "the marks: " + lines[3]
    if not any(line.startswith("usual causes: ") for line in lines):
        return "no causes"
    if number != 3 and not any(line.startswith("limits: ") for line in lines):
        return "no limits"
    return next((word for word in (*words, *SIGNS_OF_A_FAULT) if (word in told) == (word in SIGNS_OF_A_FAULT)), None)


def test_refusals(program, tool, root):
    path = os.path.join(root, "refused.deck")
    for label, deck, number, place, mark, words in refusals():
        write(path, deck)
        done = run(program, path, *VALUES)
        first = "refused %d %d: " % (number, place)
        check(label + ", in C", (done.returncode, done.stdout) == (3, b"") and done.stderr.decode().startswith(first), done)
        done = run(tool, path, *VALUES)
        wrong = told_wrong(done.stderr.decode(), path, deck, number, place, mark, words)
        check(label, (done.returncode, done.stdout, wrong) == (3, b"", None), wrong, done)


def test_given(program, tool, root):
    """Each value at its limits and past them, before any fault of the deck."""
    sound = write(os.path.join(root, "given.deck"), b"DIST 1 5 0\nDEPTH 1 5 5\n")
    empty = write(os.path.join(root, "given_empty.deck"), b"")
    limits = {"latitude": (0, 900), "friction": (10, 50), "initial": (-1000, 1000)}
    for i, (name, (least, most)) in enumerate(limits.items()):
        for value in (least - 1, least, most, most + 1, 10**17):
            values = [*VALUES[:i], str(value), *VALUES[i + 1 :]]
            for each in (program, tool):
                if least <= value <= most:
                    done = run(each, sound, *values)
                    held = (done.returncode, done.stdout, done.stderr) == (0, traverse_of([(50, 50), (0, 50)], values), b"")
                else:
                    done = run(each, empty, *values)
                    told = done.stderr.decode()
                    held = done.returncode == 3 and not done.stdout and told.startswith("refused 6 0: ") and CONDITIONS[6] in told
                    if each == tool:
                        held = held and "%s %d\n" % (name, value) in told and "%s from %d to %d" % (name, least, most) in told
                        held = held and all(other == name or other + " from" not in told for other in limits)
                check("%s %d by %s" % (name, value, each), held, done)
    done = run(tool, sound, "0428", "025", "-0010")
    check("zeros in front", (done.returncode, done.stdout) == (0, traverse_of([(50, 50), (0, 50)], ("428", "25", "-10"))), done)


# Decks that are sound


def test_sound(program, tool, root):
    path = os.path.join(root, "sound.deck")

    def gives(label, deck, points):
        write(path, deck)
        for each in (program, tool):
            done = run(each, path, *VALUES)
            check("%s by %s" % (label, each), (done.returncode, done.stdout, done.stderr) == (0, traverse_of(points), b""), label, done.returncode, done.stderr)

    gives("every shape of a number", b"DIST 1 12.5 .5 5. 00012.50 99999999 0\nDEPTH 00000001 1.0 .0 0. 3 9999999.9 .9000000\n",
          [(125, 10), (5, 0), (50, 0), (125, 30), (999999990, 99999999), (0, 9)])
    gives("one point, which the reader refuses", b"DIST 1 0\nDEPTH 1 0\n", [(0, 0)])
    for count in (2, 65, 66, 500):
        points = [(7 * (count - 1 - i), 10 * i + i % 7) for i in range(count)]
        gives("%d points" % count, deck_of(points), points)
        gives("%d points, out of step" % count, deck_of(points, 6, 1), points)
        gives("%d points, out of step the other way" % count, deck_of(points, 1, 5), points)
    # the most bytes of a text to a byte of the deck
    gives("one digit a number", deck_of([(10, 90)] * 3000).replace(b".", b""), [(10, 90)] * 3000)


def test_long(program, tool, root):
    """Megabytes."""
    points = [((i * 37) % 6401, (i * 7919) % 10001) for i in range(200_000)]
    path = write(os.path.join(root, "long.deck"), deck_of(points, 6, 5))
    check("the long deck is of megabytes", os.path.getsize(path) > 2_000_000)
    for each in (program, tool):
        done = run(each, path, *VALUES)
        check("a long deck by " + each, (done.returncode, done.stdout == traverse_of(points), done.stderr) == (0, True, b""), done.returncode, done.stderr)
    with open(path, "ab") as file:
        file.write(b"DEPTH 40001 1.25\n")
    done = run(tool, path, *VALUES)
    check("its last line", done.returncode == 3 and ("refused 16 %d: " % (33334 + 40001)).encode() in done.stderr and b"^^^^ 1.25" in done.stderr, done.stderr)
    write(path, b"9" * 5_000_000)
    done = run(tool, path, *VALUES)
    check("five million digits", done.returncode == 3 and not done.stdout and b"refused 2 1: " in done.stderr and len(done.stderr) < 2000, done.stderr[:300])


# Files and output


def test_files(program, tool, root):
    folder = os.path.join(root, "folder.deck")
    os.mkdir(folder)
    deck = write(os.path.join(root, "good.deck"), b"DIST 1 5 0\nDEPTH 1 5 5\n")
    text = traverse_of([(50, 50), (0, 50)])
    for each in (program, tool):
        for path in (folder, os.path.join(root, "nowhere.deck"), os.path.join(deck, "x")):
            done = run(each, path, *VALUES)
            check("cannot be read by %s: %s" % (each, path), done.returncode == 1 and not done.stdout and path.encode() in done.stderr, done)
        for path in (deck, os.path.join(EXAMPLES, "hampton-beach.deck")):
            with open("/dev/full", "wb") as full:
                done = run(each, path, *VALUES, stdout=full)
            check("a full disk by " + each, done.returncode == 1 and b"standard output: " in done.stderr, done)
        done = run("bash", "-c", '"$0" "$@" >&-', each, deck, *VALUES)
        check("closed output by " + each, done.returncode == 1 and b"standard output" in done.stderr and b"line" not in done.stderr, done)
        done = run("bash", "-c", '"$0" <(cat "$1") "${@:2}"', each, deck, *VALUES)
        check("a pipe by " + each, (done.returncode, done.stdout, done.stderr) == (0, text, b""), done)
    done = run("bash", "-c", '"$0" <(echo DIST 2 5) "$@"', tool, *VALUES)
    check("a pipe that is refused", done.returncode == 3 and b"no ordinary file" in done.stderr and b"refused 15 1" in done.stderr, done)
    long = write(os.path.join(root, "left.deck"), deck_of([(10, 90)] * 100_000))
    done = run("bash", "-c", '"$0" "$@" | head -c 5; exit "${PIPESTATUS[0]}"', tool, long, *VALUES)
    check("left by its reader", (done.returncode, done.stdout) == (1, b"latit") and b"not whole" in done.stderr, done)
    place = write(os.path.join(root, "appended"), b"before\n")
    with open(place, "ab") as file:
        check("appended, status", run(tool, deck, *VALUES, stdout=file).returncode == 0)
    with open(place, "rb") as file:
        check("appended", file.read() == b"before\n" + text)


def test_names(tool, root):
    """Any name, from any place."""
    for name in ("two words", "the deck's", 'a "b"', "$(touch x)", "back\\slash", "*", "-q", "-h", "ünï", "a\nb", "100%s"):
        write(os.path.join(root, name), b"DIST 1 5 0\nDEPTH 1 5 5\n")
        done = run(tool, "--", name, *VALUES, cwd=root)
        check("name %r" % name, done.returncode == 0 and done.stdout == traverse_of([(50, 50), (0, 50)]), done)
        write(os.path.join(root, name), b"DIST 1 5 0\nDEPTH 1 5\n")
        done = run(tool, "--", name, *VALUES, cwd=root)
        check("refused in %r" % name, done.returncode == 3 and b"depths: 1" in done.stderr, done)
    check("nothing of a name is carried out", not os.path.exists(os.path.join(root, "x")))
    os.symlink(tool, os.path.join(root, "deck"))
    done = run(os.path.join(root, "deck"), os.path.join(EXAMPLES, "camille.deck"), "300", "30", "120", env={**os.environ, "CDPATH": HOME})
    check("by a link", done.returncode == 0 and done.stdout.count(b"\n") == 17, done)


def test_usage(program, tool, root):
    deck = os.path.join(EXAMPLES, "camille.deck")
    for arguments in (
        (), (deck,), (deck, "300", "30"), (deck, "300", "30", "120", "7"), (deck, "30.0", "30", "120"), (deck, "300", "0x1e", "120"), (deck, "300", "30", ""),
        (deck, "+300", "30", "120"), (deck, " 300", "30", "120"), (deck, "300", "30", "1e2"), (deck, "--", "30", "120"), (deck, "300", "30", "9" * 30),
    ):
        for each in (program, tool):
            done = run(each, *arguments)
            check("usage of %s %s" % (each, arguments), done.returncode == 2 and not done.stdout and done.stderr, done)
        check("the tool says how it is called", b"usage: tools/deck DECK LATITUDE FRICTION INITIAL" in done.stderr, done)
    done = run(tool, "--fast", deck, *VALUES)
    check("an option that is none", done.returncode == 2 and b"no option --fast" in done.stderr, done)
    for option in ("-h", "--help"):
        done = run(tool, option)
        told = done.stdout.decode()
        check(option, done.returncode == 0 and not done.stderr and told.startswith("usage: tools/deck "), done)
        check("its words, " + option, all(word in told for word in ("C compiler", "tools/setup", "0.1 degree", "Exit status:", "examples/decks/hampton-beach.deck")), told)
        lines = re.findall(r"^    (tools/deck .*) > traverse.txt$", told, re.M)
        check("its example, " + option, len(lines) == 1 and run(*lines[0].split(), cwd=HOME).stdout.startswith(b"latitude"), lines)


# The build


def copied(root, name):
    """The tools in a place of their own, with the library there and nothing to be asked of it."""
    place = os.path.join(root, name)
    os.makedirs(os.path.join(place, "target", "staticlib"))
    for part in ("tools", "include", "examples"):
        shutil.copytree(os.path.join(HOME, part), os.path.join(place, part))
    shutil.copy(os.path.join(HOME, "target", "staticlib", "libsurge_c.a"), os.path.join(place, "target", "staticlib"))
    write(os.path.join(place, "tools", "library"), b"#!/bin/sh\nexit 0\n", executable=True)
    return place


def test_build(root):
    place = copied(root, "built")
    stubs, log = os.path.join(root, "stubs"), os.path.join(root, "cc.log")
    os.mkdir(stubs)
    write(os.path.join(stubs, "cc"), ('#!/bin/sh\necho called >> "%s"\nexec "%s" "$@"\n' % (log, shutil.which("cc"))).encode(), executable=True)
    tool, deck = os.path.join(place, "tools", "deck"), os.path.join(EXAMPLES, "camille.deck")
    setting = {**os.environ, "PATH": stubs + ":" + os.environ["PATH"]}

    def compiled(what, wanted):
        write(log, b"")
        done = run(tool, deck, *VALUES, env=setting)
        with open(log) as file:
            calls = file.read().count("called")
        check(what, (done.returncode, done.stderr, calls) == (0, b"", wanted), calls, done)

    compiled("compiled at first", 1)
    compiled("not compiled again", 0)
    for path in ("examples/c/deck.c", "include/surge.h"):
        with open(os.path.join(place, path), "ab") as file:
            file.write(b"\n")
        compiled("compiled anew, " + path, 1)
        compiled("and not again, " + path, 0)
    write(os.path.join(place, "target", "bin", "deck"), b"#!/bin/sh\n", executable=True)
    compiled("compiled anew over another program", 1)
    check("nothing beside it is left", sorted(os.listdir(os.path.join(place, "target", "bin"))) == ["deck", "deck.stamp"])
    started = [subprocess.Popen([tool, deck, *VALUES], stdout=subprocess.PIPE, stderr=subprocess.PIPE) for _ in range(8)]
    texts = {one.communicate() + (one.returncode,) for one in started}
    check("side by side", len(texts) == 1 and next(iter(texts))[1:] == (b"", 0), texts)
    write(os.path.join(place, "examples", "c", "deck.c"), b"no C\n")
    done = run(tool, deck, *VALUES)
    check("a program that cannot be built", done.returncode == 2 and not done.stdout and done.stderr, done)
    write(os.path.join(place, "tools", "library"), b"#!/bin/sh\necho not proved >&2\nexit 1\n", executable=True)
    done = run(tool, deck, *VALUES)
    check("a library that cannot be built", (done.returncode, done.stdout, done.stderr) == (2, b"", b"not proved\n"), done)
    shutil.copy(os.path.join(HOME, "examples", "c", "deck.c"), os.path.join(place, "examples", "c"))
    write(os.path.join(place, "tools", "library"), b"#!/bin/sh\nexit 0\n", executable=True)
    compiled("mended", 1)
    write(os.path.join(place, "target", "bin", "deck"), b"#!/bin/sh\nkill -9 $$\n", executable=True)
    hashes = run("bash", "-c", "sha256sum target/staticlib/libsurge_c.a include/surge.h examples/c/deck.c target/bin/deck | sha256sum", cwd=place)
    write(os.path.join(place, "target", "bin", "deck.stamp"), hashes.stdout)
    done = run(tool, deck, *VALUES)
    check("a program that is stopped", done.returncode == 1 and b"not whole" in done.stderr, done)


def main():
    if len(sys.argv) != 2:
        sys.exit("usage: python3 decks.py DECK")
    program = os.path.abspath(sys.argv[1])
    with tempfile.TemporaryDirectory() as root:
        test_examples((program, TOOL))
        tool = os.path.join(copied(root, "copy"), "tools", "deck")
        test_refusals(program, tool, root)
        test_given(program, tool, root)
        test_sound(program, tool, root)
        test_long(program, tool, root)
        test_files(program, tool, root)
        test_names(tool, root)
        test_usage(program, tool, root)
        test_build(root)
    print("%d passed, %d failed" % (passed, failed))
    return 1 if failed else 0


if __name__ == "__main__":
    sys.exit(main())
