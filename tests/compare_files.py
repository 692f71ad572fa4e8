# Runs a program on generated folders and compares what it prints, byte for
# byte, with what the model expects.
#
#   python3 compare_files.py PROGRAM KIND CASES SEED
#           [--jobs N] [--no-fixed] [--long] [--failing-reads]
#
# PROGRAM is started with the folder that holds traverse.txt and storm.txt as
# its current folder. KIND is `read` (model.refread) or `surge` (model.program).
# First comes the fixed list, then CASES random ones made from SEED; --long adds
# the long storms. A run that a signal ends, or that lasts too long, fails too.
# --failing-reads, for `surge`, adds a folder in place of each file: that must be
# told on standard error, and the last line be `failed`, behind the names line
# where the traverse was sound.
# The last line is `N passed, M failed`; the exit status is 0 only where M is 0
# and, with the fixed list, every refusal number that files can bring about has
# occurred. (Refusal 8 cannot: the program lends rows that fit. calls.py has it.)

import argparse
import collections
import itertools
import os
import random
import re
import shutil
import subprocess
import sys
import tempfile
import threading
import time
from concurrent.futures import ThreadPoolExecutor

from gen import cases, long
from model import fast, march, program, refread

SHOWN = 5
TIME_LIMIT = 120
# Text shorter than this goes through fractions, longer text through model.fast.
FRACTION_BYTES = 12_000
NUMBERS = {"read": range(1, 6), "surge": (*range(1, 8), 9, 18, 10, 11, 12)}


def bytes_of(thing):
    """What reading finds: None for a file that cannot be opened."""
    return None if thing in cases.UNOPENED else thing


def expected(kind, case):
    """A folder fails the first read of it: what was printed before, and `failed`."""
    if case.traverse == cases.FOLDER:
        return b"failed\n"
    if case.storm == cases.FOLDER:
        return b"seconds low high\nfailed\n"
    texts = bytes_of(case.traverse), bytes_of(case.storm)
    if kind == "read":
        return refread.listing(*texts)
    small = len(texts[1] or b"") < FRACTION_BYTES
    return program.listing(*texts, march.Fractions if small else fast)


def place_file(path, thing):
    if thing == cases.MISSING:
        return
    if thing == cases.FOLDER:
        os.mkdir(path)
        return
    if isinstance(thing, cases.Piped):
        os.mkfifo(path)
        return
    if thing in (cases.DANGLING, cases.LOOP):
        os.symlink(path if thing == cases.LOOP else path + ".none", path)
        return
    with open(path, "wb") as file:
        file.write(b"" if thing == cases.LOCKED else thing)
    if thing == cases.LOCKED:
        os.chmod(path, 0)


def possible(case):
    """Rights do not stop the superuser, who opens a locked file all the same."""
    return os.geteuid() != 0 or cases.LOCKED not in (case.traverse, case.storm)


def feed(path, text):
    """Writes to a named pipe in small pieces, until the reader leaves."""
    try:
        with open(path, "wb", buffering=0) as pipe:
            for start in range(0, len(text), 17):
                pipe.write(text[start : start + 17])
                time.sleep(0.0005)
    except BrokenPipeError:
        pass


def start_feeders(folder, case):
    feeders = []
    for name, thing in (("traverse.txt", case.traverse), ("storm.txt", case.storm)):
        if isinstance(thing, cases.Piped):
            path = os.path.join(folder, name)
            thread = threading.Thread(target=feed, args=(path, bytes(thing)))
            thread.start()
            feeders.append((path, thread))
    return feeders


def end_feeders(feeders):
    """Opening the pipe releases a writer that nobody came to read."""
    for path, thread in feeders:
        reader = os.open(path, os.O_RDONLY | os.O_NONBLOCK)
        while thread.is_alive():
            try:
                os.read(reader, 65536)
            except BlockingIOError:
                pass
            thread.join(0.001)
        os.close(reader)


def run_case(command, kind, case, root, number):
    """(case, outcome of the expected text, None or what went wrong)."""
    folder = os.path.join(root, str(number))
    os.mkdir(folder)
    place_file(os.path.join(folder, "traverse.txt"), case.traverse)
    place_file(os.path.join(folder, "storm.txt"), case.storm)
    want = expected(kind, case)
    feeders = start_feeders(folder, case)
    try:
        done = subprocess.run(
            command, cwd=folder, stdin=subprocess.DEVNULL, timeout=TIME_LIMIT,
            stdout=subprocess.PIPE, stderr=subprocess.PIPE,
        )
        wrong = judge(case, want, done)
    except subprocess.TimeoutExpired:
        wrong = "not done after %d seconds" % TIME_LIMIT
    end_feeders(feeders)
    shutil.rmtree(folder)
    return case, outcome_of(want), wrong


def judge(case, want, done):
    """None, or what is wrong with what the program did."""
    if done.returncode < 0:
        return "ended by signal %d" % -done.returncode
    failing = cases.FOLDER in (case.traverse, case.storm)
    if failing and not done.stderr:
        return "nothing told of a read that failed"
    if done.stderr and not failing:
        return "told %r where nothing failed" % done.stderr[:60]
    if done.stdout == want:
        return None
    got = done.stdout
    pairs = enumerate(zip(want, got))
    first = next((i for i, (a, b) in pairs if a != b), min(len(want), len(got)))
    start = want.rfind(b"\n", 0, first) + 1
    end = first + 60
    return "byte %d: expected %r, got %r" % (first, want[start:end], got[start:end])


def outcome_of(want):
    match = re.search(rb"(?:^|\n)refused (\d+) \d+\n$", want[-60:])
    return int(match.group(1)) if match else 0


def brief(thing):
    if isinstance(thing, str):
        return "(" + thing + ")"
    if len(thing) < 400:
        return repr(bytes(thing))
    return repr(thing[:150]) + ".. %d bytes" % len(thing)


def show(number, case, wrong):
    print("case %d (%s): %s" % (number, case.label, wrong))
    print("  traverse.txt", brief(case.traverse))
    print("  storm.txt   ", brief(case.storm))


def chosen_cases(arguments):
    """Lazily: the fixed list, the random ones, the long ones."""
    parts = []
    if not arguments.no_fixed:
        parts.append(cases.fixed(arguments.kind, random.Random(1)))
    stream = cases.stream(arguments.kind, random.Random(arguments.seed))
    parts.append(itertools.islice(stream, arguments.cases))
    if arguments.failing_reads:
        parts.append(cases.failing_reads())
    if arguments.long:
        texts = long.long_texts(random.Random(arguments.seed))
        parts.append(cases.Case(*text) for text in texts)
    return (case for case in itertools.chain(*parts) if possible(case))


def run_all(command, kind, all_cases, jobs, root):
    """Results in order, with only a few cases under way at a time."""
    waiting = collections.deque()
    with ThreadPoolExecutor(jobs) as pool:
        for number, case in enumerate(all_cases, 1):
            waiting.append(pool.submit(run_case, command, kind, case, root, number))
            if len(waiting) > 4 * jobs:
                yield waiting.popleft().result()
        while waiting:
            yield waiting.popleft().result()


def histogram(counts, kind):
    """How often each refusal was expected, by label; True where none lacks."""
    total = collections.Counter()
    for label, counter in sorted(counts.items()):
        total.update(counter)
        accepted = counter[0] / sum(counter.values())
        numbers = " ".join("%d:%d" % (n, counter[n]) for n in sorted(counter) if n)
        shown = (label, sum(counter.values()), 100 * accepted, numbers)
        print("%-28s %6d cases, %5.1f%% to the end; %s" % shown)
    lacking = [n for n in NUMBERS[kind] if not total[n]]
    shown = " ".join("%d:%d" % (n, total[n]) for n in NUMBERS[kind])
    print("all: to the end:%d, refused %s" % (total[0], shown))
    if lacking:
        print("no case has refusal", *lacking)
    return not lacking


def parse(arguments):
    parser = argparse.ArgumentParser()
    parser.add_argument("program")
    parser.add_argument("kind", choices=("read", "surge"))
    parser.add_argument("cases", type=int)
    parser.add_argument("seed", type=int)
    parser.add_argument("--jobs", type=int, default=2)
    parser.add_argument("--no-fixed", action="store_true")
    parser.add_argument("--long", action="store_true")
    parser.add_argument("--failing-reads", action="store_true")
    return parser.parse_args(arguments)


def main(arguments):
    arguments = parse(arguments)
    command = arguments.program.split()
    command[0] = shutil.which(command[0]) or command[0]
    command = [os.path.abspath(c) if os.path.exists(c) else c for c in command]
    started = time.time()
    counts = collections.defaultdict(collections.Counter)
    passed = failed = 0
    with tempfile.TemporaryDirectory() as root:
        results = run_all(command, arguments.kind, chosen_cases(arguments), arguments.jobs, root)
        for number, (case, outcome, wrong) in enumerate(results, 1):
            counts[case.label][outcome] += 1
            passed += wrong is None
            failed += wrong is not None
            if wrong and failed <= SHOWN:
                show(number, case, wrong)
    covered = histogram(counts, arguments.kind)
    print("%.1f seconds" % (time.time() - started))
    print("%d passed, %d failed" % (passed, failed))
    return 0 if failed == 0 and (covered or arguments.no_fixed) else 1


if __name__ == "__main__":
    sys.exit(main(sys.argv[1:]))
