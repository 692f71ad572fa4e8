# What tools/explain says of a refusal: its file, line, record and point, the line
# with the place marked, the limits that count and the usual causes.
#
#   python3 explain.py PROGRAM [CASES [SEED]]
#
# First the table of gen/causes.py, with every refusal that files can bring about and
# every cause that is told apart; then CASES generated folders (by default 400). PROGRAM makes each
# listing. Everything that is expected of a place is worked out here, from the two
# texts and the listing; standard output must stay empty and the status be 3.
# The last line is `N passed, M failed`; the exit status is 0 only where M is 0.

import os
import random
import re
import shutil
import subprocess
import sys
import tempfile
from itertools import islice

from compare_files import bytes_of, place_file
from gen import cases, causes
from gen.causes import GOOD, with_line
from model import march

HOME = os.path.dirname(os.path.dirname(os.path.abspath(__file__)))
EXPLAIN = os.path.join(HOME, "tools", "explain")
NAMES = b"seconds low high\n"
TRAVERSE, STORM = "traverse.txt", "storm.txt"
SHOWN = 10
# No bash complains of our own scripts, and no fault goes unfound.
SIGNS_OF_A_FAULT = ("unbound variable", "syntax error", "command not found", "tools/", "does not show this fault")
CONDITIONS = {
    1: "names line is different", 2: "value line is malformed", 3: "text ends", 4: "seconds or tide differ", 5: "fewer than 2 or more than 65 points",
    6: "value of the traverse", 7: "distances", 9: "value of a record", 10: "water depth", 11: "flux", 12: "setup",
    18: "a wind of 0 has an angle other than 0",
}
# Refusals whose place is a segment.
SEGMENT = (10, 11, 12)
LIMITS = {
    "latitude": march.LATITUDE, "friction": march.FRICTION, "initial": march.INITIAL,
    "distance": march.DISTANCE, "depth": march.DEPTH, "tide": march.TIDE,
    "wind": march.WIND, "angle": march.ANGLE, "deficit": march.DEFICIT,
}

passed = failed = 0


def check(what, wrong):
    """wrong: what is not as expected, or nothing."""
    global passed, failed
    if not wrong:
        passed += 1
        return
    failed += 1
    if failed <= SHOWN:
        print("%s: %s" % (what, wrong))


def listing_of(program, folder):
    return subprocess.run(
        [program], cwd=folder, stdin=subprocess.DEVNULL, stdout=subprocess.PIPE, stderr=subprocess.DEVNULL,
    ).stdout


def explained(folder, listing, *options, command=(EXPLAIN,)):
    return subprocess.run(
        [*command, *options, folder], input=listing, stdout=subprocess.PIPE,
        stderr=subprocess.PIPE, timeout=60,
    )


# What is expected, worked out from the texts


def shown(line):
    """The line as it is shown, and the column of each byte and of its end."""
    text, column = "", []
    plain = {0: "\\0", 9: "\\t", 10: "", 13: "\\r"}
    for byte in line[:100]:
        column.append(len(text))
        text += plain.get(byte, chr(byte) if 32 <= byte < 127 else "\\x%02X" % byte)
    return text, column + [len(text)]


def line_at(text, number):
    lines = text.split(b"\n", number)
    line = lines[number - 1]
    return line + b"\n" if len(lines) > number else line


def first_difference(line, names):
    return next(i for i in range(len(names)) if line[i : i + 1] != names[i : i + 1])


def first_fault(line, count):
    """The length of the longest beginning of the line that a sound line may have."""
    at = 0
    for place in range(count):
        sound = re.match(rb"(0|-?[1-9]\d{0,8}|-|)", line[at:])
        at += sound.end()
        if sound.group() in (b"", b"-") or line[at : at + 1] != (b" " if place + 1 < count else b"\n"):
            return at
        at += 1
    raise AssertionError("a sound line")


def feet(n):
    """Ten-thousandths of a foot."""
    return "%s%d.%04d" % ("-" if n < 0 else "", abs(n) // 10_000, abs(n) % 10_000)


def number_and_place(listing):
    match = re.search(rb"(?:^|\n)refused (\d+) (\d+)\n$", listing)
    return (int(match.group(1)), int(match.group(2))) if match else None


class Refused:
    """A listing that ends in a refusal, and where in the texts that is."""

    def __init__(self, traverse, storm, listing):
        self.number, self.place = number_and_place(listing)
        self.texts = {TRAVERSE: traverse, STORM: storm}
        self.file = STORM if listing.startswith(NAMES) else TRAVERSE
        self.points = traverse.count(b"\n") - 3
        self.record = listing.count(b"\n") - 1

    def storm_line(self, point):
        return 1 + (self.record - 1) * self.points + point

    def where(self):
        """The line that says so."""
        place = self.place
        if self.number == 3:
            return "in %s: the text ends after line %d" % (self.file, place)
        if self.number == 5:
            line = 69 if place > 65 else 4
            return "in traverse.txt, line %d, point %d: " % (line, line - 3)
        if self.number in (6, 7):
            return "in traverse.txt, line %d, point %d" % (3 + place, place) if place else "in traverse.txt, line 2"
        if self.number in (9, 18):
            told = "in storm.txt, line %d, record %d" % (self.storm_line(max(place, 1)), self.record)
            return told + (", point %d" % place if place else ": its seconds, its tide, or the elapsed time")
        if self.number in SEGMENT:
            told = "in storm.txt, lines %d and %d, record %d, segment %d (points %d and %d)"
            return told % (self.storm_line(place), self.storm_line(place + 1), self.record, place, place, place + 1)
        told = "in %s, line %d" % (self.file, place)
        if self.file == TRAVERSE:
            return told + (", point %d" % (place - 3) if place > 3 else "")
        if place == 1:
            return told
        return told + ", record %d, point %d" % (self.record, place - 1 - (self.record - 1) * self.points)

    def names(self):
        """What the names line has to be."""
        if self.file == STORM:
            return b"seconds tide wind angle deficit\n"
        return b"latitude friction initial\n" if self.place == 1 else b"distance depth\n"

    def line(self):
        """The line that is shown and marked, for refusals that have just one."""
        if self.number == 6:
            return line_at(self.texts[TRAVERSE], 3 + self.place if self.place else 2)
        if self.number in (9, 18):
            return line_at(self.texts[STORM], self.storm_line(max(self.place, 1)))
        return line_at(self.texts[self.file], self.place)

    def depth(self):
        """Of refusal 10: step 1 of document 01 without S, in words."""
        initial = int(line_at(self.texts[TRAVERSE], 2).split()[2])
        ends = [line_at(self.texts[TRAVERSE], 3 + self.place + k).split() for k in (0, 1)]
        storm = [line_at(self.texts[STORM], self.storm_line(self.place + k)).split() for k in (0, 1)]
        depth = 500 * sum(int(e[1]) for e in ends) + 100 * (initial + int(storm[0][1])) + 57 * sum(int(p[4]) for p in storm)
        return "its water depth without setup: %s ft" % feet(depth)

    def past_limits(self):
        """Of refusals 6 and 9: the columns to mark and the names of these values."""
        if self.number == 6:
            names = ("latitude", "friction", "initial") if self.place == 0 else ("distance", "depth")
        else:
            names = ("seconds", "tide") if self.place == 0 else (None, None, "wind", "angle", "deficit")
        marks, past, at = set(), [], 0
        for name, value in zip(names, self.line().split()):
            limits = LIMITS.get(name)
            if name == "seconds":
                limits = march.LATER_SECONDS if self.record > 1 else march.FIRST_SECONDS
            if limits and not march.within(int(value), limits):
                marks.update(range(at, at + len(value)))
                past.append((name, limits))
            at += len(value) + 1
        return marks, past


def marked(lines, text):
    """The columns that are marked below the line that shows this text."""
    for line, below in zip(lines, lines[1:]):
        if line in ("    " + text, "    " + text + " ..") and below.startswith("    ") and below.strip():
            carets = re.match(r"    ([ ^]*)", below).group(1).rstrip()
            return {i for i, c in enumerate(carets) if c == "^"}
    return None


def wrong_mark(refused, lines):
    """None, or what is wrong with the line that is shown and its marks."""
    text, column = shown(refused.line())
    marks = marked(lines, text)
    if marks is None:
        return "line %r not shown with a mark" % text
    if refused.number == 3:  # just behind the last line
        return None if marks == {len(text)} else "marked %s" % sorted(marks)
    if refused.number == 1:
        at = column[first_difference(refused.line(), refused.names())]
        return None if min(marks) == at else "marked %d, expected %d" % (min(marks), at)
    if refused.number == 2:
        count = 5 if refused.file == STORM else 3 if refused.place == 2 else 2
        at = first_fault(refused.line(), count)
        # a nought or a minus before it may be what is wrong, or what stands behind a space
        sound = {column[i] for i in (at - 1, at, at + 1) if 0 <= i < len(column)}
        return None if min(marks) in sound else "marked %d, expected one of %s" % (min(marks), sorted(sound))
    if refused.number in (6, 9):
        want, past = refused.past_limits()
        if not past:  # the elapsed time: its seconds are marked
            want = set(range(len(refused.line().split()[0])))
        if marks != want:
            return "marked %s, expected %s" % (sorted(marks), sorted(want))
        for name, limits in past:
            told = "%s from %d to %d" % (name, *limits)
            if not any(line.startswith("limits: ") and told in line for line in lines):
                return "no limits: " + told
    return None


def wrong_calm(refused, lines):
    """None, or what is wrong with a calm that has a direction: its wind and its angle are marked, and the rule follows."""
    line = refused.line().decode().rstrip("\n")
    seconds, tide, wind, angle, _ = line.split()
    marks = " " * len(seconds + tide) + "  ^ " + "^" * len(angle) + " wind 0, angle " + angle
    want = ["    " + line, "    " + marks, "limits: a wind of 0 carries angle 0"]
    at = lines.index(want[0]) if want[0] in lines else 0
    return None if wind == "0" != angle and lines[at : at + 3] == want else "not %r in %r" % (want, lines)


def wrong_segment(refused, lines):
    """None, or what is wrong with the four lines of a segment, their marks and its depth."""
    if refused.number == 10 and not any(line.startswith(refused.depth()) for line in lines):
        return "not %r in %r" % (refused.depth(), lines)
    values = (1, 4) if refused.number == 10 else (0, 2, 3)
    for point in (refused.place, refused.place + 1):
        for head, file, number, which in (
            ("traverse.txt, line %d, point %d (distance, depth):", TRAVERSE, 3 + point, (1,)),
            ("storm.txt, line %d, point %d (seconds, tide, wind, angle, deficit):", STORM, refused.storm_line(point), values),
        ):
            line = line_at(refused.texts[file], number).decode().rstrip("\n")
            want = "".join(("^" if k in which else " ") * len(value) + " " for k, value in enumerate(line.split()))
            at = lines.index(head % (number, point)) if head % (number, point) in lines else None
            if at is None or lines[at + 1 : at + 3] != ["    " + line, "    " + want.rstrip()]:
                return "not %r and %r in %r" % (line, want, lines)
    return None


def judge(case, listing, done):
    """None, or what is wrong with what was said of a refusal."""
    told = done.stderr.decode(errors="replace")
    lines = told.splitlines()
    if done.returncode != 3 or done.stdout:
        return "status %d, standard output %r" % (done.returncode, done.stdout)
    found = [sign for sign in SIGNS_OF_A_FAULT if sign in told]
    if found:
        return "said %r" % told
    texts = [bytes_of(thing) for thing in (case.traverse, case.storm)]
    refused = Refused(texts[0] or b"", texts[1] or b"", listing)
    first = "refused %d %d: " % (refused.number, refused.place)
    if not lines or not lines[0].startswith(first) or CONDITIONS[refused.number] not in lines[0]:
        return "first line %r" % lines[:1]
    if not any(line.startswith("usual causes: ") for line in lines):
        return "no causes in %r" % told
    if not refused.texts[refused.file]:
        return None if refused.file + " in " in told or "no %s in " % refused.file in told else "file not named in %r" % told
    if not any(line.startswith(refused.where()) for line in lines):
        return "not %r in %r" % (refused.where(), told)
    kinds = ("limits: ", "expected: ") if refused.number != 3 else ("limits: ", "record ")
    if not any(line.startswith(kinds) for line in lines):
        return "no limits in %r" % told
    if refused.number in (1, 2, 3, 6, 9):
        return wrong_mark(refused, lines)
    if refused.number == 18:
        return wrong_calm(refused, lines)
    return wrong_segment(refused, lines) if refused.number in SEGMENT else None


def wrong_words(case, done, mark, words):
    """None, or what is wrong with the words and the exact mark of the table."""
    told = done.stderr.decode(errors="replace")
    lacking = [word for word in words if word not in told]
    if lacking:
        return "not %r in %r" % (lacking, told)
    if mark:
        carets = " " * mark[0] + "^" * (mark[1] - mark[0])
        if not any(re.match("    " + re.escape(carets) + "( |$)", line) for line in told.splitlines()):
            return "no mark %r in %r" % (carets, told)
    return None


class Room:
    """A folder for one case after the other."""

    def __init__(self, program, root):
        self.program = program
        self.root = root

    def run(self, case, *options):
        folder = os.path.join(self.root, "case")
        shutil.rmtree(folder, ignore_errors=True)
        os.mkdir(folder)
        place_file(os.path.join(folder, TRAVERSE), case.traverse)
        place_file(os.path.join(folder, STORM), case.storm)
        listing = listing_of(self.program, folder)
        return listing, explained(folder, listing, *options)


def test_table(room):
    seen = set()
    for label, traverse, storm, mark, words in causes.every():
        case = cases.Case(label, traverse, storm)
        listing, done = room.run(case, "-q")
        if number_and_place(listing) is None:
            check(label, "not refused")
            continue
        seen.add(number_and_place(listing)[0])
        check(label, judge(case, listing, done) or wrong_words(case, done, mark, words))
    lacking = CONDITIONS.keys() - seen
    check("every refusal", "none with %s" % sorted(lacking) if lacking else None)


def test_unopened(room):
    """Files that cannot be opened are named, with what is there instead."""
    for thing, words in ((cases.MISSING, "there is no %s in"), (cases.DANGLING, "%s in"), (cases.LOOP, "%s in")):
        for name, texts in ((TRAVERSE, (thing, GOOD[1])), (STORM, (GOOD[0], thing))):
            case = cases.Case(thing, *texts)
            listing, done = room.run(case)
            wrong = wrong_words(case, done, None, (words % name, "counts as empty text", "usual causes: "))
            check("%s %s" % (name, thing), wrong or judge(case, listing, done))


def test_wrong_folder(room):
    """What is near is told: the file by another name, folders below that have both."""
    outer = os.path.join(room.root, "outer")
    inner = os.path.join(outer, "the storm's folder")
    os.makedirs(inner)
    for name, text in ((TRAVERSE, GOOD[0]), (STORM, GOOD[1])):
        place_file(os.path.join(inner, name), text)
    done = explained(outer, listing_of(room.program, outer))
    told = done.stderr.decode()
    check("wrong folder", None if "this folder has both files: " + inner in told and "a wrong folder" in told else told)
    place_file(os.path.join(outer, "Traverse.TXT"), GOOD[0])
    told = explained(outer, listing_of(room.program, outer)).stderr.decode()
    check("capitals in the file's name", None if "this is there: Traverse.TXT" in told else told)


def test_locked(room):
    """No right to read: as nobody, whom rights stop, from copies that nobody can reach."""
    place = tempfile.mkdtemp()
    try:
        os.chmod(place, 0o755)
        shutil.copytree(os.path.join(HOME, "tools"), os.path.join(place, "tools"))
        folder = os.path.join(place, "folder")
        os.mkdir(folder)
        place_file(os.path.join(folder, TRAVERSE), cases.LOCKED)
        command = [os.path.join(place, "tools", "explain")]
        if os.geteuid() == 0:
            command = ["setpriv", "--reuid=65534", "--regid=65534", "--clear-groups", *command]
        done = explained(folder, b"refused 1 1\n", command=command)
        told = done.stderr.decode()
        want = "traverse.txt in %s cannot be opened: Permission denied, so it counts as empty text" % folder
        check("locked", None if done.returncode == 3 and want in told and "chmod" in told else told)
    finally:
        shutil.rmtree(place)


def test_pipes(room):
    """A pipe is not read again: that would wait for ever."""
    folder = os.path.join(room.root, "pipes")
    os.mkdir(folder)
    os.mkfifo(os.path.join(folder, STORM))
    place_file(os.path.join(folder, TRAVERSE), GOOD[0])
    for last, words in (
        (b"refused 2 6\n", "in storm.txt, line 6, record 2, point 2"), (b"refused 1 1\n", "in storm.txt, line 1"), (b"refused 3 6\n", "line 6"),
        (b"refused 4 6\n", "record 2, point 2"), (b"refused 9 2\n", "line 6, record 2, point 2"), (b"refused 9 0\n", "line 5, record 2"),
        (b"refused 11 2\n", "lines 6 and 7, record 2, segment 2"), (b"refused 18 2\n", "line 6, record 2, point 2\nthe record before it ended at 0 s\n"),
    ):
        done = explained(folder, NAMES + b"0 1 2\n" + last)
        told = done.stderr.decode()
        good = done.returncode == 3 and words in told and "storm.txt is no ordinary file" in told
        check("pipe, %r" % last, None if good else told)
    os.remove(os.path.join(folder, TRAVERSE))
    os.mkfifo(os.path.join(folder, TRAVERSE))
    for names, last, words in (
        (NAMES + b"0 1 2\n", b"refused 9 2\n", "in storm.txt, record 2, point 2\n"), (NAMES + b"0 1 2\n", b"refused 9 0\n", "in storm.txt, record 2\n"),
        (NAMES + b"0 1 2\n", b"refused 18 2\n", "in storm.txt, record 2, point 2\n"), (NAMES, b"refused 18 65\n", "in storm.txt, record 1, point 65\n"),
        (NAMES + b"0 1 2\n", b"refused 10 1\n", "in storm.txt, record 2, segment 1"), (NAMES + b"0 1 2\n", b"refused 2 7\n", "in storm.txt, line 7\n"),
        (NAMES + b"0 1 2\n", b"refused 4 3\n", "in storm.txt, line 3\n"), (NAMES + b"0 1 2\n", b"refused 3 3\n", "after line 3\n"),
        (b"", b"refused 1 3\n", "in traverse.txt, line 3\n"), (b"", b"refused 2 5\n", "line 5, point 2\n"), (b"", b"refused 3 2\n", "after line 2\n"),
        (b"", b"refused 5 70\n", "there are 70 points\n"), (b"", b"refused 6 0\n", "line 2\n"), (b"", b"refused 6 2\n", "line 5, point 2\n"),
        (b"", b"refused 7 2\n", "line 5, point 2\n"),
    ):
        done = explained(folder, names + last)
        told = done.stderr.decode()
        good = done.returncode == 3 and words in told and "no ordinary file" in told and "tools/" not in told and "changed" not in told
        check("pipes, %r" % last, None if good else told)


def test_folders_for_files(room):
    """A folder of a file's name opens and cannot be read: `failed`."""
    good = cases.reference_run()
    for name, texts in ((TRAVERSE, (cases.FOLDER, good.storm_text())), (STORM, (good.traverse_text(), cases.FOLDER))):
        listing, done = room.run(cases.Case("folder", *texts))
        told = done.stderr.decode()
        check("a folder for " + name, None if done.returncode == 1 and "%s in %s is a folder" % (name, room.root + "/case") in told else told)


def test_changed(room):
    """A listing of other files: that is said, and nothing is made up."""
    folder = os.path.join(room.root, "changed")
    os.mkdir(folder)
    place_file(os.path.join(folder, TRAVERSE), GOOD[0])
    place_file(os.path.join(folder, STORM), GOOD[1])
    for number, place in ((1, 1), (2, 2), (2, 90), (5, 80), (6, 0), (6, 2), (7, 2)):
        told = explained(folder, b"refused %d %d\n" % (number, place)).stderr.decode()
        check("changed", None if "does not show this fault now" in told and "tools/" not in told else told)
    # the elapsed time is the listing's and the seconds the file's; 1,000,000,000 is the most
    for elapsed, words in ((999_998_200, "does not show this fault now"), (999_998_201, "elapsed 1000000001 s")):
        told = explained(folder, NAMES + b"%d 1 2\nrefused 9 0\n" % elapsed).stderr.decode()
        check("elapsed", None if words in told and "ended at %d s" % elapsed in told else told)
        check("elapsed, limits", None if ("limits: elapsed time from 0 to 1000000000 s" in told) == ("elapsed 1" in told) else told)
    # of 18: a calm with angle 0, a wind with an angle, no such line
    for number, place in ((1, 1), (2, 6), (4, 6), (9, 0), (9, 2), (9, 50), (11, 60), (18, 1), (18, 2), (18, 50)):
        told = explained(folder, NAMES + b"0 1 2\n" + b"refused %d %d\n" % (number, place)).stderr.decode()
        check("changed", None if "does not show this fault now" in told and "tools/" not in told else told)


NO = "this is no listing of the program"
CUT = "the listing is cut short"
LISTINGS = (
    (NAMES + b"0 1 2\n", 0, "records      1"),
    (NAMES + b"0 1 2\nfailed\n", 1, "could not read storm.txt"), (b"failed\n", 1, "could not read traverse.txt"),
    (b"", 1, CUT), (NAMES, 1, CUT), (NAMES + b"0 1 2", 1, CUT), (b"seconds low", 1, CUT), (b"\x00\xff", 1, CUT),
    (b"hello\n", 2, NO), (b"\x00\xff\n", 2, NO), (NAMES + b"0 1\n", 2, NO), (NAMES + NAMES, 2, NO), (b"0 1 2\n", 2, NO), (NAMES + b"\n0 1 2\n", 2, NO),
    (b"refused 1 1\n0 1 2\n", 2, NO), (NAMES + b"refused 1 1\nfailed\n", 2, NO), (b"refused 1 1\nx", 2, NO),
    (b"refused 08 1\n", 2, NO), (b"refused 2 08\n", 2, NO), (b"refused 2 %d\n" % 10**15, 2, NO),
    (NAMES + b"08 1 2\n", 2, NO), (NAMES + b"%d 1 2\n" % 10**10, 2, NO),
    (b"refused 8 1\n", 3, "refused 8 1: the program has no such refusal"), (b"refused 99 1\n", 3, "the program has no such refusal"),
    (b"refused 13 0\n", 3, "refused 13 0: the program has no such refusal"), (b"refused 14 2\n", 3, "refused 14 2: the program has no such refusal"),
    (b"refused 5 4000000000\n", 3, "there are 4000000000 points"),
    (b"refused 2 4000000000\n", 3, "in traverse.txt, line 4000000000, point 3999999997"),
)


def test_listings(room):
    """Whole, cut, failed, refused and other listings, by their status."""
    folder = os.path.join(room.root, "changed")
    for listing, status, words in LISTINGS:
        done = explained(folder, listing)
        told = done.stderr.decode()
        good = done.returncode == status and words in told and not done.stdout and "tools/refusals" not in told
        check("listing %r" % listing, None if good and "is a folder" not in told else "status %d, %r" % (done.returncode, told))
    for arguments in ((), (folder, folder), ("-x", folder), (os.path.join(folder, "none"),)):
        done = subprocess.run([EXPLAIN, *arguments], input=b"failed\n", stdout=subprocess.PIPE, stderr=subprocess.PIPE)
        check("usage %s" % (arguments,), None if done.returncode == 2 and done.stderr and not done.stdout else done)


def hours(s):
    told = "%d h %d min" % (s // 3600, s % 3600 // 60) + (" %d s" % (s % 60) if s % 60 else "")
    return "%s (%d s)" % (told, s)


def test_summary(room, rng):
    """The summary of made-up listings, by whole numbers and strings."""
    folder = os.path.join(room.root, "changed")
    for _ in range(40):
        rows, at = [], 0
        for _ in range(rng.choice((1, 1, 2, 3, 20, 3000))):
            low = rng.choice((-1, 0, 1, rng.randint(-3, 3), rng.randint(-400_000, 400_000)))
            rows.append((at, low, low + rng.choice((0, 1, 67, rng.randint(0, 5000)))))
            at += rng.choice((1, 59, 60, 1800, 3600))
        listing = NAMES + b"".join(b"%d %d %d\n" % row for row in rows)
        crest = max(range(len(rows)), key=lambda i: (rows[i][2], -i))
        wide = max(range(len(rows)), key=lambda i: (rows[i][2] - rows[i][1], -i))
        want = [
            "records      %d, to %s" % (len(rows), hours(rows[-1][0])),
            "crest        %s to %s ft at %s, record %d" % (feet(rows[crest][1]), feet(rows[crest][2]), hours(rows[crest][0]), crest + 1),
            "widest band  %s ft at %s" % (feet(rows[wide][2] - rows[wide][1]), hours(rows[wide][0])),
        ]
        done = explained(folder, listing)
        check("summary", None if done.stderr.decode().splitlines() == want and done.returncode == 0 else (want, done.stderr))
        quiet = explained(folder, listing, "-q")
        check("quiet", None if quiet.stderr == b"" and quiet.returncode == 0 else quiet.stderr)


def test_readme(room):
    """What the README shows is what is said."""
    with open(os.path.join(HOME, "README.md")) as readme:
        text = readme.read()

    def block(first):
        return re.search(r"^    %s.*\n(?:    .*\n)*" % first, text, re.M).group()

    storm = with_line(GOOD[1], 7, b"1800 10 2001 900 300")
    told = room.run(cases.Case("README", GOOD[0], storm), "-q")[1].stderr.decode()
    check("the README's refusal", None if block("refused 9 3") == re.sub("^", "    ", told, flags=re.M)[:-4] else told)
    folder = os.path.join(HOME, "examples", "hampton-beach")
    told = explained(folder, listing_of(room.program, folder)).stderr.decode()
    check("the README's summary", None if block("records").splitlines()[:3] == ["    " + line for line in told.splitlines()] else told)


SHARED = "bytes text column values from upto fault fault_at fault_last what cause points record folder elapsed".split()


def test_shared_names():
    """No function of tools/explain hides a name that its parts share: bash hands locals down."""
    folder = os.path.join(HOME, "tools", "refusals")
    paths = [EXPLAIN] + [os.path.join(folder, name) for name in sorted(os.listdir(folder))]
    for path in paths:
        with open(path) as file:
            text = file.read()
        for line in re.findall(r"^ *local (.*)$", text, re.M):
            hidden = [name for name in SHARED if re.search(r"(^| )%s(=| |$)" % name, line)]
            check("locals of %s" % os.path.basename(path), hidden)


def test_generated(room, count, rng):
    """Folders of every kind: what is refused is found, and nothing goes wrong."""
    fixed = [case for case in cases.fixed("surge", rng) if not piped(case)]
    chosen = rng.sample(fixed, count // 2) + list(islice(cases.stream("surge", rng), count // 2))
    for case in chosen:
        if cases.LOCKED in (case.traverse, case.storm):
            continue
        listing, done = room.run(case, "-q")
        if number_and_place(listing):
            check(case.label, judge(case, listing, done))
        else:
            check(case.label, None if (done.returncode, done.stdout, done.stderr) == (0, b"", b"") else done)


def piped(case):
    return isinstance(case.traverse, cases.Piped) or isinstance(case.storm, cases.Piped)


def main(program, count=400, seed=1):
    rng = random.Random(int(seed))
    with tempfile.TemporaryDirectory() as root:
        room = Room(os.path.abspath(program), root)
        test_table(room)
        test_unopened(room)
        test_wrong_folder(room)
        test_locked(room)
        test_pipes(room)
        test_folders_for_files(room)
        test_changed(room)
        test_listings(room)
        test_summary(room, rng)
        test_readme(room)
        test_shared_names()
        test_generated(room, int(count), rng)
    print("%d passed, %d failed" % (passed, failed))
    return 1 if failed else 0


if __name__ == "__main__":
    sys.exit(main(*sys.argv[1:]))
