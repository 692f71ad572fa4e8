# Compares the library's call that reads a card deck with the model, through a
# driver as in calls.py.
#
#   python3 deck_calls.py DRIVER CASES SEED [--only KIND,KIND..]
#
# CASES random calls beside the lists of gen/decks.py.
#
# THE PROTOCOL is that of calls.py, with one request more.
#
# Request                                              Answer
# deck LATITUDE FRICTION INITIAL ROOM ANSWER DECK      NUMBER ANSWER TEXT READ
#     NUMBER is what the call returns; answer and text are given as it left them.
#
# ROOM:   how many bytes of text to lend. Byte i of them, from 0, is 151 plus the
#         rest of i by 97, which no text has. Above 4,000,000 they are all 0.
# ANSWER: COUNT, then so many numbers; lend exactly these.
# DECK, TEXT: two hex digits a byte, `-` for no byte. Above 4,000,000 TEXT is the
#         first 1,000 bytes.
# READ:   nothing where the deck is refused; else what the library's call that reads
#         a traverse says of the bytes that were written: its number, its answer and,
#         where that number is 0, head and points.

import sys

from calls import line
from gen import decks
from make_calls import WRONG_BUFFER, compare
from model import deck, march, reader

WRITTEN = 4_000_000
FIRST = 1000
FILL = bytes(151 + i for i in range(97))
OUTCOMES = (0, 2, 3, 6, 8, 15, 16, 17, WRONG_BUFFER)


def room_of(count):
    """The bytes that are lent, as far as the answer gives them."""
    return bytes(FIRST) if count > WRITTEN else (FILL * (count // 97 + 1))[:count]


def outcome(call):
    """What the call returns, and the answer and the text as it leaves them."""
    room = room_of(call.room)
    if len(call.answer) != 3:
        return WRONG_BUFFER, call.answer, room
    made = deck.convert(tuple(call[:3]), call.deck, call.room)
    if isinstance(made, march.Refusal):
        return made.number, (made.place, 0, 0), room
    return 0, (0, len(made), 0), made + room[len(made) :]


def read_back(text):
    """READ, for bytes that were written."""
    traverse = reader.read_traverse(text)
    count = len(traverse.points)
    if not march.within(count, march.POINTS):
        return 5, count, 0, 0
    return 0, 0, count, 0, *traverse[:3], *(number for point in traverse.points for number in point)


def hexes(text):
    return text.hex() or "-"


def asked(call):
    """Request and answer."""
    number, answer, text = outcome(call)
    back = read_back(text[: answer[1]]) if number == 0 else ()
    head = line("deck", *call[:4], len(call.answer), *call.answer, hexes(call.deck))
    return head, line(number, len(answer), *answer, hexes(text), *back)


def main(arguments):
    return compare("deck", decks, asked, OUTCOMES, arguments)


if __name__ == "__main__":
    sys.exit(main(sys.argv[1:]))
