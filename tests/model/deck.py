# Old card decks, request Q-3 of document 02: the bytes of a deck of DIST and DEPTH
# cards in, the bytes of traverse.txt out. Written from the document and its
# readings alone; the quoted sentences are theirs. A deck is taken as lines, a line
# as its fields.

from collections import namedtuple

from . import march
from .march import Refusal, within
from .reader import POINT_NAMES, TRAVERSE_NAMES, Lines

DIST, DEPTH = b"DIST", b"DEPTH"
# "a card number one to eight digits, a number the same with at most one point"
MOST_DIGITS = 8
# "one to six decimal numbers"
MOST_NUMBERS = 6
# "Whole count of units: tenths for both" nautical miles and feet.
UNITS = 10

# word and numbers: bytes as they stand on the card; number: the card number.
Card = namedtuple("Card", "word number numbers")
# What stands before the first card.
START = Card(None, 0, ())


# A card by itself.


def is_digits(field):
    """ "one to eight digits" """
    return 1 <= len(field) <= MOST_DIGITS and field.isdigit()


def is_number(field):
    """ "one to eight digits and at most one point anywhere, the point not counted" """
    return field.count(b".") <= 1 and is_digits(field.replace(b".", b""))


def card_of(line):
    """The card on a line, or None where that has another shape. "A word is bytes
    other than space .. fields are parted by one space" """
    fields = line.split(b" ")
    if not 3 <= len(fields) <= 2 + MOST_NUMBERS:
        return None
    word, number, *numbers = fields
    if not (word and is_digits(number) and all(is_number(field) for field in numbers)):
        return None
    return Card(word, int(number), numbers)


def units(field):
    """How many units a number is, or None where that is no whole number."""
    whole, _, part = field.partition(b".")
    count, rest = divmod(UNITS * int(whole + part), 10 ** len(part))
    return None if rest else count


# Card by card.


def follows(card, before):
    """ "a card number from 1 .. All DIST cards come first, and DEPTH cards number
    from 1 again; a DIST card after them is a wrong word." """
    if card.word == before.word:
        return card.number == before.number + 1
    turns = (START.word, DIST), (START.word, DEPTH), (DIST, DEPTH)
    return (before.word, card.word) in turns and card.number == 1


def judge(line, ended, before):
    """The card and its numbers in units, or the number of the first refusal on its
    line: "Within a card: 2, then 15, then 16" """
    card = card_of(line)
    # "A last line without its line feed is 2"
    if card is None or not ended:
        return 2
    if not follows(card, before):
        return 15
    counts = [units(field) for field in card.numbers]
    return 16 if None in counts else (card, counts)


def read_cards(deck):
    """The distances and the depths, or a refusal by line; "a text without a line
    gets 3, place 0" """
    lines = Lines(deck)
    if not lines:
        return Refusal(3, 0)
    columns = {DIST: [], DEPTH: []}
    before = START
    for place, line in enumerate(lines.lines, 1):
        judged = judge(line, lines.ended(place), before)
        if isinstance(judged, int):
            return Refusal(judged, place)
        before, counts = judged
        columns[before.word] += counts
    return columns[DIST], columns[DEPTH]


def read_deck(deck):
    """The points, sea to shore as the cards have them, or a refusal: "unequal
    counts of distances and depths (17) with the count of distances, card by card,
    the counts last" """
    columns = read_cards(deck)
    if isinstance(columns, Refusal):
        return columns
    distances, depths = columns
    if len(distances) != len(depths):
        return Refusal(17, len(distances))
    return list(zip(distances, depths))


# The call.


def check_given(head):
    """ "The given values, past their limits, get 6 with place 0 first of all." """
    limits = march.LATITUDE, march.FRICTION, march.INITIAL
    if not all(within(*pair) for pair in zip(head, limits)):
        return Refusal(6, 0)
    return None


def traverse_text(head, points):
    lines = [TRAVERSE_NAMES, b"%d %d %d" % head, POINT_NAMES]
    lines += [b"%d %d" % point for point in points]
    return b"".join(line + b"\n" for line in lines)


def convert(head, deck, room):
    """The text of traverse.txt, or a refusal. head: latitude, friction and initial
    level; room: how many bytes there are for the text. "room too short for what
    this or a later call writes gets 8, place 0, last" """
    refusal = check_given(head)
    if refusal:
        return refusal
    points = read_deck(deck)
    if isinstance(points, Refusal):
        return points
    text = traverse_text(head, points)
    return Refusal(8, 0) if len(text) > room else text
