# The customer's own pressure profile, request Q-7 of document 02: the text of a table
# in, its 1,001 factors out, and check 20 of any table. Written from the document and
# its readings alone; the quoted sentences are theirs. model/hurricane.py makes storms
# with such a table.

from .march import Refusal
from .reader import Lines

# "our file style, name line `factor`"
NAMES = b"factor"
# "a table of 1,001 values"
FACTORS = 1001
# "Entry 0 is 10,000"
WHOLE = 10_000


# The table.


def is_bad(table, place):
    """ "Entry 0 is bad unless 10,000; others if above the one before or below 0." """
    if place == 0:
        return table[0] != WHOLE
    return table[place] > table[place - 1] or table[place] < 0


def check_table(table):
    """ "It refuses any other table (20) with the first bad, missing or surplus entry,
    counted from 0": "the least place that is bad; if none of those present is, the
    count if below 1,001, else 1,001". An entry from 1,001 on is surplus, never bad."""
    for place in range(min(len(table), FACTORS)):
        if is_bad(table, place):
            return Refusal(20, place)
    if len(table) != FACTORS:
        return Refusal(20, min(len(table), FACTORS))
    return None


# The text.


def read_table(text):
    """The values, as many as there are, or a refusal: "Over the whole text come first
    check 1 for the name line and check 2 for the value lines; 3 is not used." One
    value a line."""
    lines = Lines(text)
    if len(lines) < 1 or not lines.is_names(1, NAMES):
        return Refusal(1, 1)
    table = []
    for number in range(2, len(lines) + 1):
        values = lines.values(number, 1)
        if values is None:
            return Refusal(2, number)
        table += values
    return table


# The call.


def check_room(room):
    """ "room too short for what this or a later call writes gets 8, place 0, last" """
    return Refusal(8, 0) if len(room) < FACTORS else None


def load(text, room):
    """A refusal, or the table, written into the room; "spare room stays as lent"."""
    table = read_table(text)
    if isinstance(table, Refusal):
        return table
    refusal = check_table(table) or check_room(room)
    if refusal:
        return refusal
    room[:FACTORS] = table
    return table
