# A driver in Python for the protocol of calls.py, make_calls.py, deck_calls.py and
# profile_calls.py: it answers from the model, its fast path for the march. It shows
# how the protocol is read and lets all four be tried without the product.

import sys

import deck_calls
import make_calls
import profile_calls
from gen import decks, hurricanes, profiles
from model import fast, forcing, march
from model.sine import cosine, sine


class Numbers:
    """The numbers of a request, taken one after another."""

    def __init__(self, words):
        self.words = words
        self.place = 0

    def word(self):
        self.place += 1
        return self.words[self.place - 1]

    def one(self):
        return int(self.word())

    def some(self, count):
        return tuple(self.one() for _ in range(count))

    def groups(self, count, width):
        return [self.some(width) for _ in range(count)]

    def points(self, width):
        """Above 100 only the count is given."""
        count = self.one()
        return tuple(self.groups(count, width)) if count <= 100 else range(count)

    def rows(self):
        count = self.one()
        if count > 100:
            return range(count)
        return [march.Row(*row) for row in self.groups(count, 3)]

    def array(self, written=4000):
        """Above that only the count is given."""
        count = self.one()
        return self.some(count) if count <= written else range(count)

    def bytes(self):
        """Two hex digits a byte, `-` for no byte."""
        word = self.word()
        return b"" if word == "-" else bytes.fromhex(word)

    def traverse(self):
        head = self.some(3)
        return march.Traverse(*head, self.points(2))


def segment(numbers):
    start = numbers.some(7)
    first = numbers.one() == 1
    flux = numbers.some(2)
    given = march.Segment(*start, first, flux, *numbers.some(3))
    answer = march.work_segment(given, numbers.some(2), fast)
    return [answer] if isinstance(answer, int) else [0, *answer[0], *answer[1]]


def open_traverse(numbers, most=march.MOST_POINTS):
    answer = march.open_traverse(numbers.traverse(), most)
    if isinstance(answer, march.Refusal):
        return answer
    return 0, answer.elapsed, int(answer.accepted)


def record(numbers, most=march.MOST_POINTS):
    traverse = numbers.traverse()
    state = march.State(numbers.one(), numbers.one() == 1)
    rows = numbers.rows()
    places = list(numbers.some(numbers.one()))
    seconds, tide = numbers.some(2)
    taken = march.Record(seconds, tide, numbers.points(3))
    answer = march.take_record(traverse, state, rows, places, taken, fast, most)
    if isinstance(answer, march.Refusal):
        head = [*answer, 0, 0]
    else:
        head = [0, 0, answer.low, answer.high]
        state = answer.state
    flat = [number for row in rows for number in row] if len(rows) <= 100 else []
    left = [state.elapsed, int(state.accepted), len(rows), *flat, len(places), *places]
    return head + left


def made_of(numbers):
    return hurricanes.Call(*numbers.some(7), *(numbers.array() for _ in range(4)))


def make(numbers):
    return [make_calls.expected(made_of(numbers))]


def make_with(numbers):
    factors = numbers.array(profile_calls.FACTORS_WRITTEN)
    return [profile_calls.asked(profiles.Making(factors, made_of(numbers)))[1]]


def read_deck(numbers):
    call = decks.Call(*numbers.some(4), numbers.array(), numbers.bytes())
    return [deck_calls.asked(call)[1]]


def load_profile(numbers):
    call = profiles.Loading(numbers.one(), numbers.array(), numbers.bytes())
    return [profile_calls.asked(call)[1]]


CALLS = {
    "sine": lambda n: [sine(n.one())],
    "cosine": lambda n: [cosine(n.one())],
    "coefficient": lambda n: forcing.over_square(n.one()),
    "stress": lambda n: [forcing.stress(n.one())],
    "force": lambda n: fast.force_range(*n.some(3)),
    "flux": lambda n: fast.flux_range(n.some(2), n.some(2), n.one(), n.some(2)),
    "speed": lambda n: [fast.limiting_speed(n.one(), n.one())],
    "held": lambda n: fast.held_range(n.one(), n.some(2), n.some(2), n.one(), n.some(2)),
    "gain": lambda n: fast.gain_range(*n.some(2), n.some(2), n.one(), n.some(2)),
    "segment": segment,
    "open": open_traverse,
    "record": record,
    "panel_open": lambda n: open_traverse(n, march.PANEL_MOST_POINTS),
    "panel_record": lambda n: record(n, march.PANEL_MOST_POINTS),
    "make": make,
    "make_with": make_with,
    "profile": load_profile,
    "deck": read_deck,
}


def main():
    for request in sys.stdin:
        word, *rest = request.split()
        answer = CALLS[word](Numbers(rest)) if word in CALLS else ["skip"]
        print(*answer)


if __name__ == "__main__":
    main()
