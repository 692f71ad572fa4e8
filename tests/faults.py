# Runs the program with reads and writes that fail, that are short and that are
# interrupted, and compares what it prints, byte for byte, with the model.
#
#   python3 faults.py PROGRAM
#
# faults.c stands between the program and the system: it brings the faults about
# and writes every call down. What is asked of the program:
# - After a read that failed, what waits is printed and the last line is
#   `failed`; standard error has the file and the error; nothing more is read or
#   opened. So it is with a folder in place of a file.
# - After a write that failed nothing more is written, and standard error says so.
# - An interrupted read is made again, and so is an interrupted write.
# - The names line is written out before storm.txt is opened.
# No run passes whose fault does not stand in the log. The last line is
# `N passed, M failed`; the exit status is 0 only where M is 0.

import errno
import functools
import itertools
import os
import random
import re
import shutil
import subprocess
import sys
import tempfile
import time
from bisect import bisect_right
from collections import Counter, namedtuple

from compare_files import expected, outcome_of, place_file
from gen import cases, long
from gen.run import Run
from model import reader

SHOWN = 10
TIME_LIMIT = 20
TRAVERSE, STORM, OUTPUT = "traverse.txt", "storm.txt", "stdout"
NAMES = b"seconds low high\n"
FAILED = b"failed\n"
# The longest value line: five values of a minus and nine digits, four spaces and
# the line feed.
LINE_ROOM = 55
# As many calls as no run makes.
FROM_THEN_ON = 1_000_000
READ_ERRORS = (errno.EIO, errno.EISDIR, errno.EAGAIN, errno.ENOMEM, errno.ESTALE)
WRITE_ERRORS = (errno.ENOSPC, errno.EIO, errno.EAGAIN, errno.EFBIG)

Call = namedtuple("Call", "what name asked answer error")
Done = namedtuple("Done", "out told calls")


class Sample:
    """Two files in a folder, and what the model prints for them."""

    def __init__(self, root, case):
        self.label = case.label
        self.folder = tempfile.mkdtemp(dir=root)
        place_file(os.path.join(self.folder, TRAVERSE), case.traverse)
        place_file(os.path.join(self.folder, STORM), case.storm)
        self.whole = expected("surge", case)
        self.lines = self.whole.splitlines(keepends=True)
        self.surely, self.ends = [], []
        if self.whole.startswith(NAMES) and isinstance(case.storm, bytes):
            self.find_records(case)

    def find_records(self, case):
        """Where in the storm's text each accepted record ends, and how far on
        from its beginning it has surely ended, whatever its values."""
        points = len(reader.read_traverse(case.traverse).points)
        feeds = [m.end() for m in re.finditer(b"\n", case.storm)]
        accepted = len(self.lines) - 1 - bool(outcome_of(self.whole))
        self.ends = [feeds[points * k] for k in range(1, accepted + 1)]
        starts = [feeds[points * k] for k in range(accepted)]
        self.surely = [start + LINE_ROOM * points for start in starts]


class Bench:
    """Runs the program under the shared object and counts what passed."""

    def __init__(self, program, root):
        self.program = os.path.abspath(program)
        self.root = root
        self.log = os.path.join(root, "log")
        self.shim = os.path.join(root, "faults.so")
        self.samples = {}
        self.passed = Counter()
        self.failed = 0
        source = os.path.join(os.path.dirname(os.path.abspath(__file__)), "faults.c")
        flags = ["-shared", "-fPIC", "-O1", "-Wall", "-Wextra", "-Werror"]
        subprocess.run(["cc", *flags, "-o", self.shim, source], check=True)

    def sample(self, case):
        if case not in self.samples:
            self.samples[case] = Sample(self.root, case)
        return self.samples[case]

    def start(self, sample, environment, stdout=subprocess.PIPE):
        """What was printed and told; a signal counts as told, and fits no test."""
        try:
            done = subprocess.run(
                [self.program], cwd=sample.folder, env=environment, timeout=TIME_LIMIT,
                stdin=subprocess.DEVNULL, stdout=stdout, stderr=subprocess.PIPE,
            )
        except subprocess.TimeoutExpired:
            return b"", b"(not done after %d seconds)" % TIME_LIMIT
        if done.returncode < 0:
            return b"", b"(ended by signal %d)" % -done.returncode
        return done.stdout or b"", done.stderr

    def run(self, sample, stdout=subprocess.PIPE, **faults):
        """A run with the variables of faults.c, their names without FAULTS_."""
        environment = {"FAULTS_" + name: value for name, value in faults.items()}
        environment.update(LD_PRELOAD=self.shim, FAULTS_LOG=self.log)
        open(self.log, "w").close()
        out, told = self.start(sample, environment, stdout)
        with open(self.log) as file:
            parts = [line.split() for line in file]
        calls = [Call(p[0], p[1], int(p[2]), int(p[3]), int(p[4])) for p in parts]
        return Done(out, told, calls)

    def check(self, group, sample, how, wrong):
        if not wrong:
            self.passed[group] += 1
            return
        self.failed += 1
        if self.failed <= SHOWN:
            print("%s (%s; %s): %s" % (group, sample.label, how, wrong))


def fault(name, k, error, times):
    return "%s,%d,%d,%d" % (name, k, error, times)


def shown(faults):
    return " ".join("%s=%s" % (name, value[:40]) for name, value in faults.items())


# What the log shows.


def made(done, what, name):
    """The calls of one kind on one file; an interrupted read is none."""
    same = [c for c in done.calls if (c.what, c.name) == (what, name)]
    return [c for c in same if what != "read" or c.error != errno.EINTR]


def opened(done, name):
    return bool(made(done, "open", name))


# The last is a close of what could not be opened.
LETTERS = {
    ("open", TRAVERSE): "o", ("read", TRAVERSE): "r", ("close", TRAVERSE): "c",
    ("open", STORM): "O", ("read", STORM): "R", ("close", STORM): "C",
    ("write", OUTPUT): "w", ("close", "none"): "e",
}


def letter(call):
    """A letter for a call, a capital for storm.txt; x and X an open that failed,
    z and Z a read that gave 0, ? whatever should not come."""
    found = LETTERS.get((call.what, call.name), "?")
    if found in "oO" and call.answer < 0:
        return {"o": "x", "O": "X"}[found]
    if found in "rR" and call.answer == 0:
        return {"r": "z", "R": "Z"}[found]
    if call.answer < 0 and found != "e":
        return "?"
    return found


def order_wrong(done, pattern):
    word = "".join(letter(c) for c in done.calls)
    if re.fullmatch(pattern, word):
        return None
    return "calls in the order %s, not %s" % (word[:60], pattern)


# What is wrong with a run, or None.


def text_wrong(got, want):
    if got == want:
        return None
    first = len(os.path.commonprefix((got, want)))
    start = want.rfind(b"\n", 0, first) + 1
    end = first + 40
    return "byte %d: expected %r, got %r" % (first, want[start:end], got[start:end])


def whole_wrong(sample, done):
    """Nothing failed: the listing, and nothing on standard error."""
    if done.told:
        return "told %r where nothing failed" % done.told[:60]
    return text_wrong(done.out, sample.whole)


def told_wrong(done, name, error):
    words = os.strerror(error)
    if name.encode() in done.told and words.encode() in done.told:
        return None
    return "told %r, not %s and %s" % (done.told[:80], name, words)


def fault_wrong(done, what, name, k, error):
    """The k-th call must have failed as asked, and be the last of its kind."""
    calls = made(done, what, name)
    if len(calls) < k or (calls[k - 1].answer, calls[k - 1].error) != (-1, error):
        return "the fault did not come"
    if len(calls) > k:
        return "%s of %s again after the one that failed" % (what, name)
    return None


def stop_wrong(done, name, k, error):
    """A read that failed: told, and nothing is read or opened after it."""
    wrong = fault_wrong(done, "read", name, k, error)
    if wrong:
        return wrong
    after = done.calls[done.calls.index(made(done, "read", name)[-1]) + 1 :]
    more = [c for c in after if c.what not in ("write", "close")]
    if more:
        return "%s of %s after the read that failed" % more[0][:2]
    return told_wrong(done, name, error)


def lines_wrong(sample, done):
    """Lines of the listing for what was delivered, no fewer than must be and
    none for a record that did not come whole; then `failed`."""
    lines = done.out.splitlines(keepends=True)
    if lines[-1:] != [FAILED]:
        return "the last line is %r" % done.out[-40:]
    records = len(lines) - 2
    if lines[:-1] != sample.lines[: records + 1]:
        return text_wrong(done.out[: -len(FAILED)], sample.whole)
    delivered = sum(c.answer for c in made(done, "read", STORM) if c.answer > 0)
    least = bisect_right(sample.surely, delivered)
    most = bisect_right(sample.ends, delivered)
    if least <= records <= most:
        return None
    return "%d records of %d to %d after %d bytes" % (records, least, most, delivered)


def read_wrong(sample, done, name, k, error):
    wrong = stop_wrong(done, name, k, error)
    if wrong or name == STORM:
        return wrong or lines_wrong(sample, done)
    return text_wrong(done.out, FAILED) or (opened(done, STORM) and "storm.txt was opened")


def write_wrong(sample, done, k, error, before):
    """The k-th write failed, after that many bytes."""
    wrong = fault_wrong(done, "write", OUTPUT, k, error)
    wrong = wrong or told_wrong(done, "standard output", error)
    wrong = wrong or text_wrong(done.out, sample.whole[:before])
    if not wrong and before < len(NAMES) and opened(done, STORM):
        return "storm.txt was opened with the names line not written"
    return wrong


def sizes_wrong(done, what, name, sizes):
    """The log must show calls as short as asked."""
    calls = [c for c in made(done, what, name) if c.answer > 0]
    for call, size in zip(calls, itertools.cycle(sizes)):
        if call.answer > size:
            return "%d bytes in one %s, not %d" % (call.answer, what, size)
    return None


def interrupts_wrong(done, every, times):
    """The log must show as many interruptions as asked."""
    got = sum(c.what == "read" and c.error == errno.EINTR for c in done.calls)
    want = sum(len(made(done, "read", n)) // every for n in (TRAVERSE, STORM)) * times
    if got == want and got:
        return None
    return "%d reads were interrupted, not %d" % (got, want)


def short_wrong(sample, done, what, name, faults):
    """No call failed; the log must show some, as short as asked."""
    sizes = faults.get(what.upper() + "_SIZES", "65536").split(",")
    if not made(done, what, name):
        return "no %s of %s" % (what, name)
    wrong = sizes_wrong(done, what, name, [int(n) for n in sizes])
    return wrong or whole_wrong(sample, done)


# One fault after another in runs on the same files.


def every_read(done, name):
    """The numbers of the reads, to the one that tells the end."""
    return range(1, len(made(done, "read", name)) + 1)


def near_writes(done, name):
    """The reads around each write, when the lines that wait fill their room."""
    reads = 0
    near = set()
    for call in done.calls:
        reads += (call.what, call.name) == ("read", name)
        if reads and (call.what, call.name) == ("write", OUTPUT):
            near.update(range(reads - 4, reads + 5))
    return sorted(near.intersection(every_read(done, name)))


def fail_reads(bench, sample, name, chosen=every_read, **faults):
    """One read after another, each once or from then on."""
    whole = bench.run(sample, **faults)
    wrong = short_wrong(sample, whole, "read", name, faults)
    bench.check("without a fault", sample, shown(faults), wrong)
    for k in chosen(whole, name):
        error = READ_ERRORS[k % len(READ_ERRORS)]
        times = 1 if k % 3 else FROM_THEN_ON
        asked = dict(faults, READ=fault(name, k, error, times))
        done = bench.run(sample, **asked)
        wrong = read_wrong(sample, done, name, k, error)
        bench.check("failed read of " + name, sample, shown(asked), wrong)


def fail_writes(bench, sample, errors, **faults):
    """One write after another to the last, each once or from then on."""
    whole = bench.run(sample, **faults)
    wrong = short_wrong(sample, whole, "write", OUTPUT, faults)
    bench.check("without a fault", sample, shown(faults), wrong)
    puts = made(whole, "write", OUTPUT)
    for k in range(1, len(puts) + 1):
        error = errors[k % len(errors)]
        times = 1 if k % 3 else FROM_THEN_ON
        asked = dict(faults, WRITE=fault(OUTPUT, k, error, times))
        done = bench.run(sample, **asked)
        before = sum(c.answer for c in puts[: k - 1])
        wrong = write_wrong(sample, done, k, error, before)
        bench.check("failed write", sample, shown(asked), wrong)


def random_sizes(seed, most):
    rng = random.Random(seed)
    return ",".join(str(rng.randint(1, most)) for _ in range(97))


# The files.


@functools.cache
def small_case():
    return cases.of_run("3 points", cases.small_run())


@functools.cache
def long_case(points, records):
    run = long.long_run(random.Random(points), points - 1, records)
    return cases.of_run("%d points, %d records" % (points, records), run)


def shortest_case():
    """The shortest lines there are: many records in the room of one."""
    calm = [[0, 0, 0], [0, 0, 0]]
    records = [[1 if k else 0, 0] + calm for k in range(250)]
    return cases.of_run("shortest lines", Run(300, 25, 0, [[1, 500], [0, 500]], records))


@functools.cache
def refused_cases(in_storm):
    """A case for each refusal of a traverse text or of a storm, there in a
    later record where it is not the first line that decides."""
    found = {}
    numbers = (1, 2, 3, 4, 9, 18, 10, 11, 12) if in_storm else (1, 2, 3, 5, 6, 7)
    for case in cases.stream("surge", random.Random(11)):
        whole = expected("surge", case)
        number = outcome_of(whole)
        late = not in_storm or number == 1 or whole.count(b"\n") > 2
        if number in numbers and whole.startswith(NAMES) == in_storm and late:
            found.setdefault(number, case._replace(label="refused %d" % number))
        if len(found) == len(numbers):
            return list(found.values())


@functools.cache
def late_refusals():
    """A storm of 400 kB for each kind of late fault."""
    texts = {text[0]: text for text in long.late_faults(random.Random(3))}
    return [cases.Case(*text) for text in texts.values()]


def crowded_case():
    """A traverse of several windows, with too many points at its end."""
    points = [[i, 500] for i in range(30_000)][::-1]
    return cases.Case("30,000 points", Run(300, 25, 0, points, []).traverse_text(), b"")


# The tests.


def test_failed_traverse(bench):
    small = bench.sample(small_case())
    for sizes in ("65536", "1", "7", "26", random_sizes(1, 40)):
        fail_reads(bench, small, TRAVERSE, READ_SIZES=sizes)
    fail_reads(bench, small, TRAVERSE, READ_SIZES="7", INTERRUPTS="2,3")
    many = bench.sample(long_case(65, 1))
    for sizes in ("65536", "2", "33"):
        fail_reads(bench, many, TRAVERSE, READ_SIZES=sizes)
    for case in refused_cases(in_storm=False):
        fail_reads(bench, bench.sample(case), TRAVERSE, READ_SIZES="7")
    crowded = bench.sample(crowded_case())
    for sizes in ("65536", "9999"):
        fail_reads(bench, crowded, TRAVERSE, READ_SIZES=sizes)


def test_failed_storm(bench):
    small = bench.sample(small_case())
    for sizes in ("65536", "1", "7", "33", random_sizes(2, 60)):
        fail_reads(bench, small, STORM, READ_SIZES=sizes)
    shortest = bench.sample(shortest_case())
    for sizes in ("65536", "20", "55", random_sizes(3, 300)):
        fail_reads(bench, shortest, STORM, READ_SIZES=sizes)
    for points, records in ((2, 7500), (65, 230)):
        sample = bench.sample(long_case(points, records))
        for sizes in ("65536", "4096", "1777", random_sizes(4, 20_000)):
            fail_reads(bench, sample, STORM, READ_SIZES=sizes)
        fail_reads(bench, sample, STORM, chosen=near_writes, READ_SIZES="20")
        fail_reads(bench, sample, STORM, READ_SIZES="40000", INTERRUPTS="1,5")


def test_failed_before_refusal(bench):
    for case in refused_cases(in_storm=True):
        for sizes in ("65536", "7"):
            fail_reads(bench, bench.sample(case), STORM, READ_SIZES=sizes)
    for case in late_refusals():
        for sizes in ("65536", "30011"):
            fail_reads(bench, bench.sample(case), STORM, READ_SIZES=sizes)
    for text in (b"", b"seconds\n", b"seconds tide wind angle deficit\n"):
        case = small_case()._replace(label="short storm", storm=text)
        for sizes in ("65536", "1"):
            fail_reads(bench, bench.sample(case), STORM, READ_SIZES=sizes)


def test_folders(bench):
    """The system fails the read by itself."""
    for name, want in ((TRAVERSE, FAILED), (STORM, NAMES + FAILED)):
        part = name.split(".")[0]
        sample = bench.sample(small_case()._replace(label="folder", **{part: cases.FOLDER}))
        done = bench.run(sample)
        wrong = text_wrong(done.out, want) or stop_wrong(done, name, 1, errno.EISDIR)
        if name == TRAVERSE and opened(done, STORM):
            wrong = wrong or "storm.txt was opened"
        bench.check("folder in place of " + name, sample, "", wrong)


def test_failed_writes(bench):
    small = bench.sample(small_case())
    for sizes in ("65536", "1", "5", "17"):
        fail_writes(bench, small, WRITE_ERRORS, WRITE_SIZES=sizes)
    long_one = bench.sample(long_case(2, 7500))
    for error in WRITE_ERRORS:
        fail_writes(bench, long_one, (error,))
    # Half of a block goes, and the write of its rest fails.
    for sizes in ("32768", "9,32000", "4096", random_sizes(5, 9000)):
        fail_writes(bench, long_one, WRITE_ERRORS, WRITE_SIZES=sizes)
    refused = bench.sample(small_case()._replace(label="refused", traverse=b"x\n"))
    fail_writes(bench, refused, WRITE_ERRORS, WRITE_SIZES="3")


def test_failed_both(bench):
    """A read fails, and the write of what waits and `failed` fails too."""
    sample = bench.sample(long_case(2, 7500))
    read = fault(STORM, 3, errno.EIO, 1)
    before = bench.run(sample, READ=read)
    puts = made(before, "write", OUTPUT)
    done = bench.run(sample, READ=read, WRITE=fault(OUTPUT, len(puts), errno.ENOSPC, 1))
    kept = sum(c.answer for c in puts[:-1])
    wrong = stop_wrong(done, STORM, 3, errno.EIO)
    wrong = wrong or write_wrong(sample, done, len(puts), errno.ENOSPC, kept)
    bench.check("failed read and write", sample, "", wrong)


def test_full_device(bench):
    for case in (small_case(), long_case(2, 7500)):
        sample = bench.sample(case)
        with open("/dev/full", "wb") as full:
            done = bench.run(sample, stdout=full)
        wrong = write_wrong(sample, done, 1, errno.ENOSPC, 0)
        bench.check("full device", sample, "", wrong)


def test_interrupted(bench):
    for case in (small_case(), long_case(2, 7500), long_case(65, 230)):
        sample = bench.sample(case)
        for every, times in ((1, 1), (1, 100), (2, 7)):
            for sizes in ("65536", "4096", random_sizes(12, 9000)):
                asked = dict(INTERRUPTS="%d,%d" % (every, times), READ_SIZES=sizes)
                done = bench.run(sample, **asked)
                wrong = whole_wrong(sample, done) or interrupts_wrong(done, every, times)
                bench.check("interrupted reads", sample, shown(asked), wrong)


def interrupted_wrong(sample, done, k, times):
    """The writes from the k-th on were interrupted, so many, and nothing is lost."""
    puts = [c.error == errno.EINTR for c in made(done, "write", OUTPUT)]
    if puts[k - 1 : k - 1 + times] != [True] * times or sum(puts) != times:
        return "not just %d writes from the %d-th on were interrupted" % (times, k)
    return whole_wrong(sample, done)


def test_interrupted_writes(bench):
    """A write that a signal interrupted before a byte went is made again."""
    for case in (small_case(), long_case(2, 7500)):
        sample = bench.sample(case)
        for sizes in ("65536", "17", random_sizes(5, 9000)):
            puts = made(bench.run(sample, WRITE_SIZES=sizes), "write", OUTPUT)
            for k in sorted({1, 2, len(puts) // 2 + 1, len(puts)} & set(range(1, len(puts) + 1))):
                for times in (1, 3):
                    asked = dict(WRITE_SIZES=sizes, WRITE=fault(OUTPUT, k, errno.EINTR, times))
                    wrong = interrupted_wrong(sample, bench.run(sample, **asked), k, times)
                    bench.check("interrupted writes", sample, shown(asked), wrong)


def short_reads(bench, sample, sizes):
    done = bench.run(sample, READ_SIZES=sizes)
    asked = {"READ_SIZES": sizes}
    wrong = short_wrong(sample, done, "read", TRAVERSE, asked)
    wrong = wrong or short_wrong(sample, done, "read", STORM, asked)
    bench.check("short reads", sample, sizes[:40], wrong)


def short_writes(bench, sample, sizes):
    done = bench.run(sample, WRITE_SIZES=sizes)
    wrong = short_wrong(sample, done, "write", OUTPUT, {"WRITE_SIZES": sizes})
    bench.check("short writes", sample, sizes[:40], wrong)


def test_short(bench):
    few = [small_case(), shortest_case(), *refused_cases(in_storm=True)]
    many = [long_case(2, 7500), long_case(65, 230)]
    for case in few + many:
        sample = bench.sample(case)
        for sizes in ("1", "7", "33", "55", random_sizes(6, 3), random_sizes(7, 100)):
            short_reads(bench, sample, sizes)
        for sizes in ("1", "17", "4096", random_sizes(8, 9000)):
            short_writes(bench, sample, sizes)
    for case in many + late_refusals():
        for sizes in ("4096", random_sizes(9, 5000), random_sizes(10, 70_000)):
            short_reads(bench, bench.sample(case), sizes)


def order(bench, case, pattern, want=None):
    """One whole run: its calls in order; first a write of just the first line."""
    sample = bench.sample(case)
    done = bench.run(sample)
    puts = made(done, "write", OUTPUT)
    wrong = whole_wrong(sample, done) or order_wrong(done, pattern)
    if not wrong and puts[0].answer != len(sample.lines[0]):
        wrong = "first write of %d bytes, not just the first line" % puts[0].answer
    if not wrong and want is not None:
        wrong = text_wrong(done.out, want)
    bench.check("order of calls", sample, "", wrong)


def test_order(bench):
    # open, reads, the read that gives 0, close; the names line; the storm
    for case in (small_case(), shortest_case(), long_case(65, 230)):
        order(bench, case, "or+zcwO[Rw]+Zw*Cw*")
    # Here reads come between writes: a fault in mid-storm finds lines written.
    order(bench, long_case(2, 7500), "or+zcwO(R+w){2,}R*Zw*Cw*")
    for case in refused_cases(in_storm=True):
        order(bench, case, "or+zcwO[Rw]+Z?w*Cw*")
    for case in refused_cases(in_storm=False):
        order(bench, case, "or*z?cw")
    small = small_case()
    refused = b"refused 1 1\n"
    order(bench, small._replace(traverse=b""), "ozcw", refused)
    order(bench, small._replace(traverse=cases.MISSING), "xe?w", refused)
    order(bench, small._replace(storm=cases.MISSING), "or+zcwXe?w", NAMES + refused)
    order(bench, small._replace(storm=b""), "or+zcwOZw*Cw*", NAMES + refused)


def test_alone(bench):
    """Without the shared object the program prints the same."""
    for case in (small_case(), long_case(2, 7500), long_case(65, 230)):
        sample = bench.sample(case)
        done = Done(*bench.start(sample, {}), [])
        bench.check("alone", sample, "", whole_wrong(sample, done))


def main(arguments):
    program = shutil.which(arguments[0])
    if program is None:
        sys.exit("no program " + arguments[0])
    with tempfile.TemporaryDirectory() as root:
        bench = Bench(program, root)
        for name, test in list(globals().items()):
            if name.startswith("test_"):
                started = time.time()
                test(bench)
                print("%-32s %.1f s" % (name, time.time() - started))
    for group, count in sorted(bench.passed.items()):
        print("%-32s %6d runs passed" % (group, count))
    print("%d passed, %d failed" % (sum(bench.passed.values()), bench.failed))
    return 1 if bench.failed else 0


if __name__ == "__main__":
    sys.exit(main(sys.argv[1:]))
