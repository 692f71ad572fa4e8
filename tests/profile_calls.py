# Compares the library's calls that load a pressure profile and that make a storm record
# with one with the model, through a driver as in calls.py.
#
#   python3 profile_calls.py DRIVER CASES SEED [--only KIND,KIND..]
#
# CASES random calls beside the lists of gen/profiles.py.
#
# THE PROTOCOL is that of calls.py, with two requests more.
#
# Request                                              Answer
# profile ROOM ANSWER TEXT                             NUMBER ANSWER LEFT
# make_with FACTORS CENTRE EDGE RADIUS X Y SECONDS TIDE WINDS SITES ROOM ANSWER
#                                                      NUMBER ANSWER ROOM
#     NUMBER is what the call returns; answer and room are given as it left them.
#
# Of `profile`:
# ROOM:   how many numbers to lend. Number i of them, from 0, is -8,000,001 less i.
#         Above 4,000 they are all 0.
# ANSWER: COUNT, then so many numbers; lend exactly these.
# TEXT:   two hex digits a byte, `-` for no byte.
# LEFT:   how many numbers the room has from its front up to the last one that is not as
#         it was lent, then these: 0 where none is another one.
#
# Of `make_with`: all but FACTORS as of `make` (make_calls.py).
# FACTORS: COUNT, then so many numbers; lend exactly these. Above 200,000 nothing follows
#         it: the call is lent so many noughts.

import sys
from functools import lru_cache

import make_calls
from calls import line
from deck_calls import hexes
from gen import profiles
from gen.hurricanes import marked
from make_calls import WRITTEN, WRONG_BUFFER, compare, request
from model import march, profile

FACTORS_WRITTEN = 200_000
OUTCOMES = (0, 1, 2, 8, 13, 14, 20, WRONG_BUFFER)


# Loading.


def lent_room(count):
    """Above 4,000, as many of its noughts as a table could be written to."""
    return [0] * WRITTEN if count > WRITTEN else list(marked(count))


def loaded(call):
    """What the call returns, and the answer and the room as it leaves them."""
    room = lent_room(call.room)
    if len(call.answer) != 3:
        return WRONG_BUFFER, call.answer, room
    told = profile.load(call.text, room)
    if isinstance(told, march.Refusal):
        return told.number, (told.place, 0, 0), room
    return 0, (0, 0, 0), room


def left(room, count):
    """The room's numbers up to the last one that is not as it was lent."""
    pairs = enumerate(zip(room, lent_room(count)), 1)
    return room[: max((i for i, (now, was) in pairs if now != was), default=0)]


def load_asked(call):
    number, answer, room = loaded(call)
    changed = left(room, call.room)
    head = line("profile", call.room, len(call.answer), *call.answer, hexes(call.text))
    return head, line(number, len(answer), *answer, len(changed), *changed)


# Making.


def made(making):
    return make_calls.outcome(making.call, making.factors)


@lru_cache(256)
def factors_line(factors):
    if len(factors) > FACTORS_WRITTEN:
        return line(len(factors))
    return line(len(factors), *factors)


def make_asked(making):
    number, answer, room = made(making)
    head = "make_with %s %s" % (factors_line(making.factors), request(making.call).split(" ", 1)[1])
    return head, line(number, len(answer), *answer, len(making.call.room), *room)


# Both.


def outcome(call):
    return loaded(call) if isinstance(call, profiles.Loading) else made(call)


def asked(call):
    """Request and answer."""
    return load_asked(call) if isinstance(call, profiles.Loading) else make_asked(call)


def main(arguments):
    return compare("profile", profiles, asked, OUTCOMES, arguments)


if __name__ == "__main__":
    sys.exit(main(sys.argv[1:]))
