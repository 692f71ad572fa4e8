# Compares the library's call that makes a storm record with the model, through
# a driver as in calls.py.
#
#   python3 make_calls.py DRIVER CASES SEED [--only KIND,KIND..]
#
# CASES random calls beside the lists of gen/hurricanes.py.
#
# THE PROTOCOL is that of calls.py, with one request more.
#
# Request                                              Answer
# make CENTRE EDGE RADIUS X Y SECONDS TIDE WINDS SITES ROOM ANSWER
#                                                      NUMBER ANSWER ROOM
#     NUMBER is what the call returns; answer and room are given as it left them.
#
# WINDS, SITES, ROOM, ANSWER: COUNT, then so many numbers; lend exactly these.
# Where a COUNT is above 4,000, nothing follows it: the call is lent so many
# noughts. Of such a room the answer gives the count and the first 200 numbers.

import argparse
import collections
import random
import sys
import time

from calls import SHOWN, line, run_driver
from gen import hurricanes
from model import hurricane, march

WRITTEN = 4000
FIRST = 200
WRONG_BUFFER = 255
OUTCOMES = (0, 8, 13, 14, WRONG_BUFFER)


def groups(numbers, width):
    """Rows or points; numbers that are no whole count of them are none."""
    if len(numbers) % width:
        return ()
    if isinstance(numbers, range):
        return range(len(numbers) // width)
    return tuple(tuple(numbers[i : i + width]) for i in range(0, len(numbers), width))


def outcome(call, table=None):
    """What the call returns, and the answer and the room as it leaves them; by a table
    that is lent, or by our own."""
    room = [0] * FIRST if len(call.room) > WRITTEN else list(call.room)
    if len(call.answer) != 3:
        return WRONG_BUFFER, call.answer, room
    storm = hurricane.Hurricane(*call[:5])
    winds, sites = groups(call.winds, 2), groups(call.sites, 3)
    made = hurricane.make_record(storm, call.seconds, call.tide, winds, sites, room, table)
    if isinstance(made, march.Refusal):
        return made.number, (made.place, 0, 0), room
    return 0, (0, made.seconds, made.tide), room


def lent(numbers):
    return [len(numbers)] if len(numbers) > WRITTEN else [len(numbers), *numbers]


def request(call):
    arrays = (lent(array) for array in call[7:])
    return line("make", *call[:7], *(number for array in arrays for number in array))


def expected(call):
    number, answer, room = outcome(call)
    return line(number, len(answer), *answer, len(call.room), *room)


def asked(call):
    return request(call), expected(call)


def judge(kind, wanted, answers, shown):
    """How many failed; prints the first few of all."""
    failed = 0
    for (asked, want), got in zip(wanted, answers):
        if got == want:
            continue
        failed += 1
        if shown + failed <= SHOWN:
            print(kind, "request ", asked[:1500])
            print(kind, "expected", want[:1500])
            print(kind, "got     ", got[:1500])
    return failed


def compare(word, lists, ask, outcomes, arguments):
    """Compares the calls of a generator, FIXED and random_calls, and has all the
    outcomes occur. ask: request and answer of a call."""
    kinds = (*lists.FIXED, "random")
    parser = argparse.ArgumentParser()
    parser.add_argument("driver")
    parser.add_argument("cases", type=int)
    parser.add_argument("seed", type=int)
    parser.add_argument("--only", default=",".join(kinds))
    arguments = parser.parse_args(arguments)
    made = failed = 0
    numbers = collections.Counter()
    for kind in arguments.only.split(","):
        started = time.time()
        rng = random.Random("%s %s %d" % (word, kind, arguments.seed))
        if kind == "random":
            calls = lists.random_calls(rng, arguments.cases)
        else:
            calls = lists.FIXED[kind](rng)
        wanted = [ask(call) for call in calls]
        bad = judge(kind, wanted, run_driver(arguments.driver, wanted), failed)
        shown = (kind, len(wanted), bad, time.time() - started)
        print("%-8s %6d requests, %d failed, %.1f seconds" % shown)
        numbers.update(int(want.split()[0]) for _, want in wanted)
        made += len(wanted)
        failed += bad
    print("         outcomes", " ".join("%d:%d" % pair for pair in sorted(numbers.items())))
    lacking = [n for n in outcomes if not numbers[n]]
    if lacking:
        print("         no call has outcome", *lacking)
    print("%d passed, %d failed" % (made - failed, failed))
    return 1 if failed or lacking else 0


def main(arguments):
    return compare("make", hurricanes, asked, OUTCOMES, arguments)


if __name__ == "__main__":
    sys.exit(main(sys.argv[1:]))
