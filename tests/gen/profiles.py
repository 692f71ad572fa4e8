# Calls of the customer's own pressure profile, request Q-7 of document 02: tables of
# many kinds, each loaded from its text and each entry of it met by storms that are made
# with it; every entry bad in turn and at the edge that passes; counts of entries, the
# ends of 64 bits and of nine digits; damaged texts; rooms and answers of any length;
# two faults at once; long texts; and random calls of both.

import itertools
import math
from collections import namedtuple
from functools import cache

from model import hurricane, profile
from model.profile import FACTORS, WHOLE

from . import damage, hurricanes
from .decks import with_line
from .hurricanes import FARTHEST, GREATEST, LEAST, Corner, call_of, marked, noughts, pieces

# Loads a table. room: how many numbers are lent; answer: its numbers as they are lent;
# text: its bytes.
Loading = namedtuple("Loading", "room answer text")
# Makes a record with these factors, flat as they are lent; call: a hurricanes.Call.
Making = namedtuple("Making", "factors call")


def text_of(entries):
    return ("factor\n" + "".join("%d\n" % entry for entry in entries)).encode()


def loading(text, spare=0):
    """A call whose room fits, with so many numbers to spare."""
    return Loading(FACTORS + spare, marked(3), text)


def load_of(entries, spare=0):
    return loading(text_of(entries), spare)


def make_of(entries):
    return Making(tuple(entries), hurricanes.SOUND)


def both(entries):
    """The table loaded, and a storm made with it."""
    yield load_of(entries, 2)
    yield make_of(entries)


# Tables.


def holland(exponent):
    """Holland's profile: e^(-(R/r)^B). Myers' has the exponent 1."""
    parts = (math.exp(-((m / 100) ** exponent)) for m in range(FACTORS))
    return tuple(round(WHOLE * part) for part in parts)


def falling(by):
    return tuple(max(0, WHOLE - by(m)) for m in range(FACTORS))


LEVEL = (WHOLE,) * FACTORS
LINEAR = falling(lambda m: 10 * m)
# One unit at each entry: 9,000 is the last.
SLOW = falling(lambda m: m)
TABLES = (
    hurricane.own_table(),
    LEVEL,
    (WHOLE,) + (0,) * 1000,
    (WHOLE,) * 1000 + (0,),
    (WHOLE,) + (9999,) * 1000,
    LINEAR,
    SLOW,
    falling(lambda m: 100 * m),
    # stretches of equal entries, long ones and pairs
    falling(lambda m: 1000 * (m // 91)),
    falling(lambda m: 19 * (m // 2)),
    holland(0.5),
    holland(1.5),
    holland(2.5),
)


def random_table(rng):
    """Falling anyhow; of a few values; Holland's; next to ours; in steps of one."""
    kind = rng.randrange(5)
    if kind == 0:
        rest = [rng.randint(0, WHOLE) for _ in range(1000)]
    elif kind == 1:
        few = [rng.choice((0, WHOLE, rng.randint(0, WHOLE))) for _ in range(rng.randint(1, 7))]
        rest = rng.choices(few, k=1000)
    elif kind == 2:
        rest = holland(rng.uniform(0.2, 4))[1:]
    elif kind == 3:
        moved = (entry + rng.randint(-3, 3) for entry in TABLES[0][1:])
        rest = [min(WHOLE, max(0, entry)) for entry in moved]
    else:
        rest = itertools.accumulate((-rng.randint(0, 1) for _ in range(1000)), initial=WHOLE)
        rest = list(rest)[1:]
    return WHOLE, *sorted(rest, reverse=True)


def with_entry(table, place, value):
    return table[:place] + (value,) + table[place + 1 :]


def nought_from(table, place):
    return table[:place] + (0,) * (len(table) - place)


# Every entry met by a storm.


@cache
def reaching():
    """Radii, each with distances; the quotients of all stand for the 1,001 entries."""
    missing, found = set(range(FACTORS)), []
    for radius in range(2000, 0, -1):
        ends = {m: 100 * radius // m if m else 100 * radius + 1 for m in missing}
        met = {m: r for m, r in ends.items() if r <= FARTHEST and 100 * radius // r == m}
        if met:
            found.append((radius, sorted(met.values())))
            missing -= met.keys()
    return found


def makings(rng, table, drop):
    """Storms that meet every entry of the table."""
    for radius, distances in reaching():
        corner = Corner(rng)
        for part in pieces([corner.site(r) for r in distances], 65):
            yield Making(table, call_of(corner.storm(drop, radius), sites=part))


def chain_calls(rng):
    """Each table loaded, and what loading writes lent to make storms."""
    for table in (*TABLES, *(random_table(rng) for _ in range(10))):
        yield load_of(table, rng.choice((0, 1, 5)))
        for drop in (300, rng.choice((299, 200, 7))):
            yield from makings(rng, table, drop)


def step_calls(rng):
    """Tables that fall at one entry from 10,000 to 0, and storms that meet it and the one
    before it: so every entry is told from those beside it."""
    for place in range(1, FACTORS):
        for m in (place - 1, place):
            corner = Corner(rng)
            radius, r = (m, 100) if m else (1, 101)
            sites = corner.site(r), corner.site(rng.randint(0, FARTHEST))
            yield Making(nought_from(LEVEL, place), call_of(corner.storm(300, radius), sites=sites))


# Entries that are bad.


def bad_values(table, place):
    """Bad ones at that place, next to the ones that pass."""
    if place == 0:
        return 9_999, 10_001, 0, -1, -WHOLE, 2 * WHOLE
    return table[place - 1] + 1, -1


def bad_tables(table, place):
    for value in bad_values(table, place):
        yield with_entry(table, place, value)


def edge_tables(table, place):
    """As the one before it; 0 from it on; one less than the entry behind it, which is
    then the bad one."""
    if place == 0:
        return
    yield with_entry(table, place, table[place - 1])
    yield nought_from(table, place)
    if place < FACTORS - 1 and 0 < table[place + 1]:
        yield with_entry(table, place, table[place + 1] - 1)


def entry_calls(tables):
    """Each of the 1,001 entries in turn, in one table and another."""
    for place in range(FACTORS):
        table = TABLES[place % len(TABLES)]
        yield from tables(table, place)
        yield from tables(SLOW, place) if place % 7 == 0 or place > 990 else ()


def bad_load_calls(rng):
    return (load_of(table, 1) for table in entry_calls(bad_tables))


def bad_make_calls(rng):
    return (make_of(table) for table in entry_calls(bad_tables))


def edge_calls(rng):
    """Loaded and lent in turn, each entry's edges both ways."""
    for i, table in enumerate(entry_calls(edge_tables)):
        yield (load_of if i % 2 else make_of)(table)


def two_calls(rng):
    """Two entries that are bad."""
    places = 0, 1, 2, 7, 500, 999, 1000
    for table in (TABLES[0], SLOW, LEVEL):
        for first, second in itertools.combinations(places, 2):
            for value in bad_values(table, second):
                wrong = with_entry(table, second, value)
                for other in bad_values(table, first)[:2]:
                    yield from both(with_entry(wrong, first, other))


# Counts of entries.


def of_length(table, count):
    """The table's first entries; behind its last, that one again."""
    return table[:count] + table[-1:] * (count - len(table))


COUNTS = 0, 1, 2, 3, 8, 500, 999, 1000, 1001, 1002, 1003, 1006, 2000, 2002


def count_calls(rng):
    """Fewer entries, and more; each with an entry bad before, at and behind its end
    and behind the 1,001st."""
    for count in COUNTS:
        for table in (TABLES[0], SLOW):
            entries = of_length(table, count)
            yield from both(entries)
            for place in sorted({0, 7, 500, 1000, 1001, 1002, 1005, count - 2, count - 1}):
                if 0 <= place < count:
                    for value in bad_values(entries, place)[:2]:
                        yield from both(with_entry(entries, place, value))
    # all 10,000; and noughts, of which entry 0 is bad
    for count in COUNTS:
        yield from both(of_length(LEVEL, count))
        yield from both((0,) * count)
    yield from both((WHOLE,) * 100_000)
    for place in (0, 1000, 1001, 50_000, 99_999):
        yield from both(with_entry((WHOLE,) * 100_000, place, 10_001))
    for count in (200_001, 2**31, 2**32, 2**32 + FACTORS, 3 * 2**32):
        yield Making(noughts(count), hurricanes.SOUND)


# The ends of 64 bits, and of nine digits.


def end_calls(rng):
    """In each of some entries, and in all; numbers that fewer bits would take for the
    right one."""
    for place in (0, 1, 2, 500, 999, 1000):
        for table in (TABLES[0], SLOW):
            near = table[place], table[max(0, place - 1)], 0
            far = {value + bits for value in near for bits in (2**16, 2**32, -(2**32), -(2**63))}
            for value in sorted(far | {LEAST, LEAST + 1, GREATEST - 1, GREATEST}):
                yield make_of(with_entry(table, place, value))
    for value in (LEAST, GREATEST):
        for count in (1, 1000, FACTORS, 1002):
            yield make_of((value,) * count)
            yield make_of((WHOLE,) + (value,) * (count - 1))
    # behind the table's end: surplus, whatever they are
    for value in (LEAST, GREATEST):
        yield make_of(LINEAR + (value,))
        yield make_of(LINEAR + (value, -value - 1) * 9)
    for place in (0, 1, 2, 500, 999, 1000, 1001, 1500):
        entries = of_length(TABLES[0], max(FACTORS, place + 1))
        for value in (999_999_999, -999_999_999, 10**9, -(10**9), 100_000_000, 2**32 + WHOLE):
            yield load_of(with_entry(entries, place, value))


# Damaged texts.

TEXT = text_of(TABLES[0])
SOUND = loading(TEXT, 3)
# More lines than a table has.
LONG = text_of(of_length(TABLES[0], 1600))

NAMES = (
    b"factors", b"Factor", b"FACTOR", b"facto", b"actor", b"factor ", b" factor", b"factor\r",
    b"factor\t", b"factor\x00", b"\xef\xbb\xbffactor", b"factor factor", b"", b" ", b"10000",
    b"distance depth", b"factor 1", b"#factor", b"'factor'", b"factor:", b"factor\xff", b"\x00factor",
)  # fmt: skip


def names_calls(rng):
    """Other names lines: before a table, with nothing behind, and without line feed."""
    for names in NAMES:
        yield loading(TEXT.replace(b"factor", names, 1))
        yield loading(names + b"\n")
        yield loading(names)
        yield loading(names + b"\n10000\n-1\n")
    for text in damage.one_byte_names(TEXT, 0):
        yield loading(text)
    for kind in damage.LINE_LIST:
        yield loading(damage.at_line(TEXT, 0, kind))
    for text in (b"", b"\n", b"\n\n", b"factor", b"factor\n", b"factor\n\n", b"factor\r\n", b"factor\n\r"):
        yield loading(text)
        yield loading(text)._replace(room=0)


# What makes a value line malformed.
SHAPES = (
    lambda line: line + b" 1",
    lambda line: line + b" ",
    lambda line: b" " + line,
    lambda line: line + b"\t",
    lambda line: line + b"\r",
    lambda line: b"0" + line,
    lambda line: b"+" + line,
    lambda line: line + b".0",
    lambda line: line + b",",
    lambda line: line + b"\x00",
    lambda line: b"\x00" + line,
    lambda line: line + b"\xb2",
    lambda line: b"\xef\xbb\xbf" + line,
    lambda line: b"",
    lambda line: b" ",
    lambda line: b"-0",
    lambda line: b"-",
    lambda line: b"--1",
    lambda line: b"1000000000",
    lambda line: b"-1000000000",
    lambda line: b"1e4",
    lambda line: b"factor",
    lambda line: b"\xd9\xa3",
)


def line_calls(rng):
    """Every damage of a value line: the first, a middle one, the last, one too many."""
    for text, index in ((TEXT, 1), (TEXT, 2), (TEXT, 500), (TEXT, FACTORS), (LONG, 1002), (LONG, 1499), (LONG, 1600)):
        for change in SHAPES:
            yield loading(with_line(index, change, text))
        for kind in damage.LINE_LIST:
            yield loading(damage.at_line(text, index, kind))
        for value in damage.VALUES:
            yield loading(with_line(index, lambda line: value, text))
        # the text ends with that line, with and without its feed
        lines = text.splitlines(True)[: index + 1]
        yield loading(b"".join(lines))
        yield loading(b"".join(lines)[:-1])


def whole_calls(rng):
    """Damage to the text as a whole, and texts that end anywhere."""
    short = text_of((WHOLE, 5, 0))
    for text in (TEXT, short, LONG):
        for damaged in damage.whole_text(text):
            yield loading(damaged)
    for text in damage.truncations(short):
        yield loading(text)
    for size in (*range(30), *range(len(TEXT) - 30, len(TEXT)), *rng.sample(range(len(TEXT)), 200)):
        yield loading(TEXT[:size])
    # a byte before or behind each line feed of a few lines, and in its place
    feeds = [place for place, byte in enumerate(TEXT) if byte == 10]
    for place in (*feeds[:3], feeds[500], *feeds[-2:]):
        for byte in (b" ", b"\r", b"\x00", b"\n", b"5", b"-", b"\xff"):
            for before, after in ((place, place), (place + 1, place + 1), (place, place + 1)):
                yield loading(TEXT[:before] + byte + TEXT[after:])


# Rooms and answers.

ROOMS = (*range(9), 500, *range(999, 1009), 1024, 2002, 3000, 4000, 4001, 8193, 2**16)
WIDE_ROOMS = 2**31 - 1, 2**31, 2**32 - 1, 2**32, 2**32 + 1000, 2**32 + FACTORS, 3 * 2**32


def room_calls(rng):
    refused = load_of(with_entry(SLOW, 3, -1)), load_of(SLOW[:-1]), loading(TEXT[:-1]), loading(b"")
    for call in (SOUND, load_of(SLOW), load_of(TABLES[2]), *refused):
        for room in (*ROOMS, *WIDE_ROOMS):
            yield call._replace(room=room)
    for _ in range(200):
        yield load_of(random_table(rng))._replace(room=rng.choice(ROOMS))


def answer_calls(rng):
    """Answers of another length, whatever else is wrong."""
    loads = SOUND, loading(b""), loading(TEXT[:-1]), load_of(LINEAR[:5]), SOUND._replace(room=0)
    makes = make_of(SLOW), make_of(SLOW[:-1]), make_of(()), Making(SLOW, hurricanes.SOUND._replace(radius=0))
    for count in (*range(9), 255, 256 + 3, 3999):
        for call in loads:
            yield call._replace(answer=marked(count))
        for making in makes:
            yield making._replace(call=making.call._replace(answer=marked(count)))


# Faults of loading. kind: where it comes in the order of the checks; place: the line or
# the entry, by which two of one kind are told; number and told: the refusal.

BY_NAMES, BY_LINE, BY_ENTRY, BY_ROOM = range(4)
Fault = namedtuple("Fault", "kind place number told change")


def retext(change):
    return lambda call: call._replace(text=change(call.text))


def on_line(index, change):
    return retext(lambda text: with_line(index, change, text))


def names_faults():
    for names in NAMES[:12]:
        yield Fault(BY_NAMES, 1, 1, 1, on_line(0, lambda line, names=names: names))
    for text in (b"", b"\n", b"factor"):
        yield Fault(BY_NAMES, 1, 1, 1, retext(lambda given, text=text: text))


def line_faults(lines):
    for line in lines:
        for change in SHAPES:
            yield Fault(BY_LINE, line, 2, line, on_line(line - 1, change))


def cut(lines):
    """The text's first lines, names line included."""
    return retext(lambda text: b"".join(text.splitlines(True)[:lines]))


def entry_faults(places):
    """An entry that is bad, one that is missing and, behind all others, one too many.
    Those of an entry are brought in by its number in the table of SOUND."""
    for place in places:
        for value in bad_values(TABLES[0], place)[:2]:
            change = on_line(place + 1, lambda line, value=value: b"%d" % value)
            yield Fault(BY_ENTRY, place, 20, place, change)
        yield Fault(BY_ENTRY, place, 20, place, cut(place + 1))
    for more in (b"0\n", b"0\n0\n", b"-1\n", b"10000\n" * 499):
        # a last line without its feed stays so
        def longer(text, more=more):
            return text + more if text.endswith(b"\n") else text + b"\n" + more[:-1]

        yield Fault(BY_ENTRY, FACTORS, 20, FACTORS, retext(longer))


def room_faults():
    for room in (0, 1, 1000):
        yield Fault(BY_ROOM, 0, 8, 0, lambda call, room=room: call._replace(room=room))


PLACES = 0, 1, 7, 500, 1000


def faults():
    last = FACTORS + 1
    found = [*names_faults(), *line_faults((2, 3, 502, last)), *entry_faults(PLACES), *room_faults()]
    return sorted(found, key=lambda fault: fault[:2])


def fault_calls(rng):
    return (fault.change(SOUND) for fault in faults())


def fault_pairs():
    """Two faults at once: the calls, and the fault that comes first. That one is brought
    in last, since without a names line or behind an end there are no entries; a line
    that is to be malformed has to be there still, and no entry has two faults."""
    for first, second in itertools.combinations(faults(), 2):
        call = second.change(SOUND)
        gone = first.kind == BY_LINE and first.place > call.text.count(b"\n")
        if not gone and (first.kind != BY_ENTRY or first[:2] != second[:2]):
            yield first.change(call), first


def unlike(pairs, size=3):
    """Of pairs of faults that are alike but for the shape of a line, a few."""
    seen = {}
    for call, first in pairs:
        key = first.kind, first.place, call.room, call.text.count(b"\n")
        seen[key] = seen.get(key, 0) + 1
        if seen[key] <= size or seen[key] % 23 == 0:
            yield call, first


def surplus_pairs():
    """A malformed line behind the 1,001st entry, with each fault of an entry and of the
    room: 2 first."""
    for line in (1003, 1004, 1500, 1601):
        for change in SHAPES[:: 1 + line % 3]:
            fault = Fault(BY_LINE, line, 2, line, on_line(line - 1, change))
            for second in (*entry_faults((0, 1000)), *room_faults()):
                call = second.change(loading(LONG))
                if line <= call.text.count(b"\n"):
                    yield fault.change(call), fault


def pair_calls(rng):
    """Of loading and, check 20 beside every fault of 13, 14 and 8, of making."""
    for call, _ in (*unlike(fault_pairs()), *surplus_pairs()):
        yield call
    for call, _ in making_pairs():
        yield call


# Faults of making: those of hurricanes.py, and a table that 20 refuses.


def wrong_tables():
    """With the place that 20 tells."""
    table = TABLES[0]
    for place in PLACES:
        for wrong in bad_tables(table, place):
            yield wrong, place
    for count in (0, 1, 8, 1000):
        yield table[:count], count
    for more in ((0,), (1,), (-1, 5)):
        yield table + more, FACTORS
    yield with_entry(table[:8], 7, -1), 7


def making_pairs():
    """The calls, and the place of 20."""
    others = hurricanes.faults_of((1, 2, 4, 5), (1, 3, 4))
    for i, (table, place) in enumerate(wrong_tables()):
        for other in others[i % 2 :: 2]:
            yield Making(table, other.change(hurricanes.SOUND)), place


STORM_KINDS = "limit", "end", "count", "room", "answer"


def storm_calls(rng):
    """The storm maker's own limits, counts, rooms and answers by one table and another,
    and some by a table that is refused; then a fault in each row and point and two
    faults at once."""
    wrong = itertools.cycle(table for table, _ in wrong_tables())
    tables = itertools.cycle(TABLES)
    for kind in STORM_KINDS:
        for i, call in enumerate(hurricanes.FIXED[kind](rng)):
            yield Making(next(tables), call)
            if i % 5 == 0:
                yield Making(next(wrong), call)
    for kind in ("fault", "pair"):
        for call in itertools.islice(hurricanes.FIXED[kind](rng), 0, None, 5):
            yield Making(next(tables), call)


# Long texts.


def long_calls(rng):
    """100,000 lines, and texts of megabytes: good lines, damaged at the first, a middle
    and the last one, and a megabyte in one line."""
    long = text_of(of_length(TABLES[0], 100_000))
    yield loading(long)
    yield loading(long[:-1])
    yield loading(long)._replace(room=0)
    for index in (0, 1, 1001, 1002, 50_000, 100_000):
        for change in rng.sample(SHAPES, 4):
            yield loading(with_line(index, change, long))
    wide = b"factor\n" + b"-999999999\n" * 360_000
    yield loading(wide)
    yield loading(wide + b"\n")
    yield loading(b"factor\n" + b"10000\n" * 660_000)
    for text, index in ((TEXT, 0), (TEXT, 1), (TEXT, 1001), (LONG, 1500)):
        for damaged in damage.large_lines(text, index):
            yield loading(damaged)
    yield loading(b"\x00" * 1_000_000)
    yield loading(b"\n" * 1_000_000)


# Random calls.


def any_place(rng):
    return rng.choice((0, 1, 2, 999, 1000, rng.randrange(FACTORS), rng.randrange(FACTORS)))


def random_wrong(rng):
    """A table with up to three entries bad, or another count of them, or both."""
    table = random_table(rng)
    for _ in range(rng.choice((0, 1, 1, 1, 2, 3))):
        place = any_place(rng)
        values = *bad_values(table, place), rng.randint(-WHOLE, 2 * WHOLE)
        table = with_entry(table, place, rng.choice(values))
    if rng.random() < 0.4:
        count = rng.choice((1000, 1002, rng.randint(0, 1000), rng.randint(1002, 2500)))
        table = of_length(table, count)
        if count > FACTORS and rng.random() < 0.5:
            table = with_entry(table, rng.randrange(FACTORS, count), rng.randint(-5, 2 * WHOLE))
    return table


def random_entries(rng):
    return random_wrong(rng) if rng.random() < 0.4 else random_table(rng)


def random_room(rng):
    return FACTORS + rng.choice((0, 0, 1, 2, 50, 2999)) if rng.random() < 0.9 else rng.choice(ROOMS)


def random_loading(rng):
    return load_of(random_entries(rng))._replace(room=random_room(rng))


def random_damaged(rng):
    """Damage to the text, with no regard for lines."""
    text = text_of(random_entries(rng))
    for _ in range(rng.choice((1, 1, 2, 3))):
        text = damage.random_damage(rng, text)
    return loading(text)._replace(room=random_room(rng))


def random_shaped(rng):
    """Lines malformed here and there, beside what else may be wrong."""
    text = text_of(random_entries(rng))
    for _ in range(rng.choice((1, 1, 2, 3))):
        index = rng.choice((1, text.count(b"\n") - 1, rng.randrange(text.count(b"\n"))))
        text = with_line(index, rng.choice(SHAPES), text)
    if rng.random() < 0.1:
        text = with_line(0, lambda line: rng.choice(NAMES), text)
    return loading(text)._replace(room=random_room(rng))


TOKENS = b"factor\n", b"10000\n", b"10000\n", b"9999\n", b"0\n", b"-1\n", b"5", b"\n", b" ", b"-", b"\r\n", b"0"


def random_noise(rng):
    """Texts of a few symbols that look like a table's."""
    text = b"".join(rng.choice(TOKENS) for _ in range(rng.randint(0, 12)))
    return loading(rng.choice((b"", b"factor\n", b"factor\n")) + text)


def random_making(rng):
    if rng.random() < 0.3:
        call = hurricanes.random_faulty(rng)
    else:
        call = hurricanes.random_call(rng)
    table = random_wrong(rng) if rng.random() < 0.2 else random_table(rng)
    return Making(table, call)


KINDS = (
    (random_loading, 20),
    (random_damaged, 15),
    (random_shaped, 10),
    (random_noise, 10),
    (random_making, 45),
)


def random_calls(rng, count):
    makers = rng.choices([make for make, _ in KINDS], [weight for _, weight in KINDS], k=count)
    return (make(rng) for make in makers)


FIXED = {
    "chain": chain_calls,
    "step": step_calls,
    "badload": bad_load_calls,
    "badmake": bad_make_calls,
    "edge": edge_calls,
    "two": two_calls,
    "count": count_calls,
    "end": end_calls,
    "names": names_calls,
    "line": line_calls,
    "whole": whole_calls,
    "room": room_calls,
    "answer": answer_calls,
    "fault": fault_calls,
    "pair": pair_calls,
    "storm": storm_calls,
    "long": long_calls,
}
