# Calls of the deck converter, request Q-3 of document 02: numbers of every shape at
# every place, words, card numbers and lines of every shape at the first, a middle and
# the last card, decks of one card and of tens of thousands, counts of points, limits
# from both sides, the ends of 64 bits, rooms of any length, two faults at once, and
# random calls.

import itertools
from collections import namedtuple

from model import deck, march
from model.deck import DEPTH, DIST

from . import damage
from .hurricanes import any_number, beyond, far_numbers, marked, sides_of

# room: its bytes; answer: its numbers as they are lent; deck: its bytes.
Call = namedtuple("Call", "latitude friction initial room answer deck")
# The three given values and their limits.
GIVEN = {"latitude": march.LATITUDE, "friction": march.FRICTION, "initial": march.INITIAL}

HEAD = (305, 25, -20)
# A count of tenths that a number can have: one to eight digits.
TENTHS = (0, 999_999_990)


def joined(lines):
    return b"".join(line + b"\n" for line in lines)


def text_length(head, text):
    """The bytes that are written of a deck, or so many as any refused one gets."""
    points = deck.read_deck(text)
    return 300 if isinstance(points, march.Refusal) else len(deck.traverse_text(head, points))


def call_of(text, spare=0, head=HEAD):
    """A call whose room fits, with so many bytes to spare."""
    return Call(*head, text_length(head, text) + spare, marked(3), text)


# Decks of given points, which are pairs of tenths.


def plain(tenths):
    return b"%d.%d" % divmod(tenths, 10)


def shaped(rng, tenths):
    """A number in any of its shapes: noughts before and behind, with and without a
    point, with nothing before it or behind it."""
    whole, part = divmod(tenths, 10)
    before = b"%d" % whole if whole else rng.choice((b"", b"0"))
    behind = b"%d" % part if part else b""
    free = deck.MOST_DIGITS - len(before) - len(behind)
    noughts = [rng.choice((0, 0, 1, rng.randint(0, free))) for _ in "ab"]
    after = min(noughts[0], free)
    front = min(noughts[1], free - after)
    behind += b"0" * after
    before = b"0" * front + before
    if not behind and before and rng.random() < 0.7:
        return before
    return before + b"." + behind if before + behind else b"0"


def cards(word, fields, sizes):
    """The cards of these numbers, so many on each; the sizes go round."""
    fields = iter(fields)
    lines = []
    for number, size in enumerate(itertools.cycle(sizes), 1):
        some = list(itertools.islice(fields, size))
        if not some:
            return lines
        lines.append(b" ".join([word, b"%d" % number, *some]))


def deck_of(points, sizes=((6,), (6,)), write=plain):
    """The deck of these points: the sizes of its DIST cards and of its DEPTH cards."""
    columns = zip(*points) if points else ((), ())
    fields = [[write(tenths) for tenths in column] for column in columns]
    return joined(cards(DIST, fields[0], sizes[0]) + cards(DEPTH, fields[1], sizes[1]))


def some_points(count):
    """Points that the march takes where it takes so many: distances fall to 0."""
    return [(10 * (count - 1 - i), 500 + (37 * i) % 900) for i in range(count)]


# Seven cards, three of distances and four of depths, not in step.
POINTS = some_points(11)
TEXT = deck_of(POINTS, ((6, 1, 4), (3, 2, 5, 1)))
SOUND = call_of(TEXT)
LINES = damage.split_lines(TEXT)
# The first, a middle and the last card of each word.
PLACES = (0, 1, 2, 3, 5, 6)
ENDS = (0, 3, 6)


def with_line(index, change, text=TEXT):
    """The text with one line changed; a last line without its feed stays so."""
    lines = text.split(b"\n")
    lines[index] = change(lines[index])
    return b"\n".join(lines)


def with_field(index, field, value, text=TEXT):
    return with_line(index, lambda line: damage.replaced(line, field, value), text)


# Numbers.

NUMBERS = (
    # whole counts of tenths
    b"0", b"00", b"0.", b".0", b"0.0", b"00000000", b"0000000.", b".00000000", b"00000000.",
    b"0000.0000", b"1", b"9", b"10", b"5.", b".5", b"05", b"0.5", b"00012.50", b"20.10", b"00000.5",
    b"0000000.5", b".50000000", b"1.0000000", b"12345678", b"12345678.", b"1234567.8", b"99999999",
    b"9999999.9", b"99999999.", b"10000000", b"640", b"640.0", b"1000.1", b"1.", b"01.",
    # parts of a tenth
    b".05", b"0.05", b"1.25", b".01", b"0.15", b"1.0000001", b".00000001", b"9999.9999",
    b".99999999", b"20.11", b"00.0001", b".10000001", b"999999.99", b"5.05", b"5.50001",
    # other shapes
    b"", b".", b"..", b"1..", b"..1", b"1.2.3", b"1..2", b".1.", b"1.2.", b"123456789", b"123456789.",
    b".123456789", b"12345678.9", b"1234567.89", b"000000000", b"000000000.", b".000000000",
    b"0.00000000", b"00000000.5", b"-5", b"-.5", b"-0", b"+5", b"+.5", b"5-", b".-", b"-.",
    b"1,5", b"1;", b"5:", b"/5", b"1.5e1", b"1.5f", b"\t5", b"5\t", b"5\r", b".\r", b"5.\x00", b"\xb2",
    b"1.\xb2", b"5\x0b", b"\xc2\xa05",
)  # fmt: skip


def number_calls(rng):
    """Every shape of a number at every place of every card."""
    for number in NUMBERS + damage.VALUES:
        for index, line in enumerate(LINES):
            for field in range(2, len(line.split(b" "))):
                yield call_of(with_field(index, field, number))


def digit_calls(rng):
    """Every count of digits up to ten with the point at every place, as a number and
    as a card number; every short text of nought, five, point and space."""
    for count in range(11):
        for digits in (b"0" * count, b"1" * count, b"9" * count):
            yield call_of(with_field(0, 1, digits))
            yield call_of(with_field(0, 1, digits[:-1] + b"1"))
            for point in range(count + 1):
                number = digits[:point] + b"." + digits[point:]
                yield call_of(with_field(2, -1, number))
                yield call_of(with_field(0, 1, number))
    for count in range(6):
        for symbols in itertools.product((b"0", b"5", b".", b" "), repeat=count):
            yield call_of(b"DIST 1 " + b"".join(symbols) + b"\nDEPTH 1 5\n", 20)


# Words and card numbers.


def other_words(word):
    """Words next to one of ours, the other one, and stranger ones."""
    other = DEPTH if word == DIST else DIST
    yield from (b"", other, word.lower(), word.title(), word + word, word + other, word + b"S")
    for i in range(len(word)):
        yield word[:i]
        yield word[i + 1 :]
        for byte in (word[i] ^ 1, word[i] ^ 0x20, word[i] ^ 0x80, 0, 9, 13, 46, 49, 255):
            yield word[:i] + bytes([byte]) + word[i + 1 :]
    for byte in (0, 9, 11, 13, 45, 46, 48, 127, 160, 255):
        yield word + bytes([byte])
        yield bytes([byte]) + word
    yield from (b"1", b"TITLE", b"WIND", b"DIST.", b"\x00", b"\xff" * 300, word + b"\x00" * 8)


def word_calls(rng):
    for index in PLACES:
        for word in other_words(LINES[index].split(b" ")[0]):
            yield call_of(with_field(index, 0, word))
    for index in ENDS:
        yield call_of(with_field(index, 0, b"D" * 100_000))


def card_numbers(number):
    """The right one in its shapes, wrong ones near and far, and other shapes; some
    that fewer bits or digits would take for the right one."""
    for noughts in range(10):
        yield b"0" * noughts + b"%d" % number
    for other in (0, number - 1, number + 1, number + 10, 2 * number + 1, 99_999_999, 100_000_000):
        yield b"%d" % max(0, other)
    for power in (8, 16, 24, 32, 64):
        yield b"%d" % (2**power + number)
    for noughts in (1, 7, 8):
        yield b"0" * noughts
    right = b"%d" % number
    for shape in (b"%s.", b".%s", b"%s.0", b"-%s", b"+%s", b"%s\r", b"%s\x00", b"\t%s", b"'%s'", b"%sE0"):
        yield shape % right
    yield from (b"", b".", b"-", b"0x1", b"I", b"\xd9\xa1")


def card_number_calls(rng):
    for index in PLACES:
        for value in card_numbers(int(LINES[index].split(b" ")[1])):
            yield call_of(with_field(index, 1, value))
    # not from 1 again at the first DEPTH card; from 1 again within a word; from 0
    for starts in ((1, 4), (1, 3), (2, 1), (0, 1), (1, 0), (0, 0), (1, 1)):
        yield call_of(renumbered(LINES, starts))
    for index in (1, 2, 4, 5, 6):
        for number in (1, 2, 3, 4):
            yield call_of(with_field(index, 1, b"%d" % number))


def renumbered(lines, starts):
    """The cards of each word numbered on from there."""
    numbers = dict(zip((DIST, DEPTH), starts))
    made = []
    for line in lines:
        word = line.split(b" ")[0]
        made.append(damage.replaced(line, 1, b"%d" % numbers[word]))
        numbers[word] += 1
    return joined(made)


CARDS = (
    b"DIST 1 5", b"DIST 2 4 3", b"DIST 3 .05", b"DEPTH 1 50", b"DEPTH 2 60.5 70",
    b"DEPTH 3 1", b"DIST 1 5 ",
)  # fmt: skip


def order_calls(rng):
    """Every deck of up to four of seven cards, any of them more than once."""
    for count in range(5):
        for lines in itertools.product(CARDS, repeat=count):
            yield call_of(joined(lines), 30)


# Lines.


def numbered_line(line, count):
    """The card with so many numbers."""
    head = line.split(b" ")[:2]
    return b" ".join(head + [b"%d.5" % i for i in range(count)])


def line_calls(rng):
    """Every damage of a line, cards of none to fourteen numbers, the whole text."""
    for index in range(len(LINES)):
        for kind in damage.LINE_LIST:
            yield call_of(damage.at_line(TEXT, index, kind))
        for count in (*range(10), 14):
            yield call_of(with_line(index, lambda line: numbered_line(line, count)))
        for field in (1, 2):
            yield call_of(with_line(index, lambda line: b" ".join(line.split(b" ")[:field])))
    for text in damage.whole_text(TEXT):
        yield call_of(text)
    for text in damage.truncations(TEXT):
        yield call_of(text)


def byte_calls(rng):
    """Each byte of a deck changed, dropped, doubled, or with another one before it."""
    for place in range(len(TEXT)):
        before, byte, after = TEXT[:place], TEXT[place : place + 1], TEXT[place + 1 :]
        yield call_of(before + after)
        yield call_of(before + byte + byte + after)
        for other in (b" ", b"\n", b".", b"0", b"D", b"\x00", b"\r"):
            yield call_of(before + other + after)
            yield call_of(before + other + byte + after)


def large_calls(rng):
    """A megabyte in place of one card."""
    for index in (0, 4, 6):
        for text in damage.large_lines(TEXT, index):
            yield call_of(text)
    yield call_of(b"\x00" * 1_000_000)
    yield call_of(b"\n" * 1_000_000)


# Counts of points, and cards that are not in step.

COUNTS = (0, 1, 2, 3, 5, 6, 7, 12, 13, 63, 64, 65, 66, 67, 128, 130, 256, 300, 777)


def uneven(distances, depths, sizes=((6,), (6,))):
    points = some_points(max(distances, depths))
    fields = [plain(d) for d, _ in points[:distances]], [plain(d) for _, d in points[:depths]]
    return joined(cards(DIST, fields[0], sizes[0]) + cards(DEPTH, fields[1], sizes[1]))


def count_calls(rng):
    """Each count of points; one of the two counts off by a few, or nought."""
    for count in COUNTS:
        yield call_of(deck_of(some_points(count)))
        for other in {0, 1, count - 6, count - 2, count - 1, count + 1, count + 2, count + 6, 2 * count}:
            if other != count and other >= 0:
                yield call_of(uneven(count, other))
                yield call_of(uneven(other, count, ((1,), (5, 2))))


def step_calls(rng):
    """Distances on cards of each size, depths on cards of each other one, and sizes
    that go up and down."""
    for first, second in itertools.product(range(1, 7), repeat=2):
        for count in (1, 2, 7, 13, 65):
            yield call_of(deck_of(some_points(count), ((first,), (second,))))
    turns = (1, 6), (6, 1), (6, 5, 4, 3, 2, 1), (2, 6, 1, 1), (3,)
    for sizes in itertools.product(turns, repeat=2):
        for count in (20, 64, 66, 150):
            yield call_of(deck_of(some_points(count), sizes), rng.choice((0, 1, 50)))


def long_points(rng, count):
    return [(rng.randint(*TENTHS) // 10 * 10, rng.randint(0, 99_999_999)) for _ in range(count)]


def long_decks(rng):
    """Decks of 20,000 cards in step; with the distances on cards of 6 and the depths
    on cards of 1; and with more cards of a word than 16 bits can number."""

    def write(tenths):
        return shaped(rng, tenths)

    for count, sizes in ((60_000, ((6,), (6,))), (17_142, ((6,), (1,))), (66_000, ((1,), (6,)))):
        yield deck_of(long_points(rng, count), sizes, write)


def long_calls(rng):
    """Long decks whole, with a room one byte short, and damaged at the first, a
    middle and the last card."""
    for text in long_decks(rng):
        call = call_of(text, 7)
        yield call
        yield call._replace(room=call.room - 8)
        last = text.count(b"\n") - 1
        for index in (0, last // 2, last):
            change = rng.choice(SHAPES + WRONG + PARTS)
            yield call._replace(room=300, deck=with_line(index, change, text))
        yield call._replace(room=300, deck=text[:-1])
        yield call._replace(room=300, deck=b"".join(text.splitlines(True)[:-1]))


# The given values, the room, the answer.


def given_calls(rng):
    """Each limit from both sides and the ends of 64 bits, before any deck."""
    for text in (TEXT, b"", b"\n", TEXT[:-1], uneven(2, 1)):
        for field, limits in GIVEN.items():
            for value in (*sides_of(limits), *far_numbers(limits[1])):
                yield SOUND._replace(**{field: value}, deck=text, room=len(TEXT) + 300)
    for head in itertools.product(*GIVEN.values()):
        yield call_of(TEXT, head=head)
    for head in itertools.product((-1, 0, 9, 10, 50, 900, 1001), repeat=3):
        yield call_of(TEXT, head=head)


def room_calls(rng):
    """Rooms that fit, that are short, with bytes to spare, without any, and larger
    than 32 bits can count."""
    for room in range(SOUND.room + 9):
        yield SOUND._replace(room=room)
    for count in (1, 2, 65, 66, 300):
        call = call_of(deck_of(some_points(count), ((6, 2), (5,))))
        for room in (0, 1, 25, 26, 50, call.room // 2, *range(call.room - 5, call.room + 6)):
            yield call._replace(room=room)
        for room in (2 * call.room, call.room + 4096, 100_000):
            yield call._replace(room=room)
    for call in (SOUND, call_of(deck_of(some_points(65))), call_of(uneven(3, 2)), call_of(TEXT + b" ")):
        for room in (4_000_000, 4_000_001, 2**31 - 1, 2**31, 2**32 - 1, 2**32, 2**32 + 3, 2**35):
            yield call._replace(room=room)


def answer_calls(rng):
    """Answers of another length, whatever else is wrong."""
    others = SOUND._replace(latitude=901), SOUND._replace(room=0), SOUND._replace(deck=b"")
    for call in (SOUND, *others, SOUND._replace(deck=TEXT[:-1])):
        for count in (*range(9), 255, 256 + 3, 3999):
            yield call._replace(answer=marked(count))


# Faults. Those of a card change its line: SHAPES get 2, a WRONG word or card number 15,
# PARTS of a unit 16.


def setting(field, value):
    return lambda line: damage.replaced(line, field, value)


def shifted(step):
    return lambda line: damage.replaced(line, 1, b"%d" % (int(line.split(b" ")[1]) + step))


SHAPES = (
    lambda line: line + b" ",
    lambda line: b" " + line,
    lambda line: line.replace(b" ", b"  ", 1),
    lambda line: b"  ".join(line.rsplit(b" ", 1)),
    lambda line: line + b"\t",
    lambda line: line + b"\r",
    lambda line: line + b" 1 2 3 4 5 6 7",
    lambda line: b" ".join(line.split(b" ")[:2]),
    setting(0, b""),
    setting(1, b"000000001"),
    setting(1, b"1."),
    setting(2, b"-5"),
    setting(2, b"."),
    setting(-1, b"1.2.3"),
    setting(-1, b"123456789"),
)
WRONG = (
    setting(0, b"DUST"),
    setting(0, b"dist"),
    setting(0, b"DEPTHS"),
    setting(0, b"DIST\x00"),
    setting(1, b"0"),
    setting(1, b"00000000"),
    shifted(1),
    shifted(2**16),
)
PARTS = (
    setting(2, b".05"),
    setting(-1, b"1.0000001"),
    setting(-1, b"20.11"),
)

# kind: where it comes in the order of the checks; line: the card's, else 0; number and
# place: the refusal.
BY_GIVEN, BY_TEXT, BY_LINE, BY_COUNT, BY_ROOM = range(5)
Fault = namedtuple("Fault", "kind line number place change")


def order_of(fault):
    return fault.kind, fault.line, fault.number


def card_faults(index):
    """Faults of each number on that line of the sound deck."""
    for number, changes in ((2, SHAPES), (15, WRONG), (16, PARTS)):
        for change in changes:

            def changed(call, change=change):
                return call._replace(deck=with_line(index, change, call.deck))

            yield Fault(BY_LINE, index + 1, number, index + 1, changed)


def order_faults():
    """Cards of the other word, where the sound deck has its own."""
    for index, line in ((1, b"DEPTH 2 5"), (2, b"DEPTH 3 5"), (4, b"DIST 4 5"), (6, b"DIST 1 5")):

        def changed(call, index=index, line=line):
            return call._replace(deck=with_line(index, lambda _: line, call.deck))

        yield Fault(BY_LINE, index + 1, 15, index + 1, changed)


def count_faults():
    """A number more or fewer on a card; the cards keep their lines."""
    for index, change in ((1, 1), (2, -1), (2, 1), (3, 1), (5, -1), (6, 1)):

        def changed(call, index=index, change=change):
            def moved(line):
                return line + b" 4.5" if change > 0 else line.rsplit(b" ", 1)[0]

            return call._replace(deck=with_line(index, moved, call.deck))

        distances = len(POINTS) + (change if index < 3 else 0)
        yield Fault(BY_COUNT, 0, 17, distances, changed)


def replacing(**fields):
    return lambda call: call._replace(**fields)


def other_faults():
    for field, limits in GIVEN.items():
        for value in beyond(limits):
            yield Fault(BY_GIVEN, 0, 6, 0, replacing(**{field: value}))
    for room in (0, 1, SOUND.room - 1):
        yield Fault(BY_ROOM, 0, 8, 0, replacing(room=room))


EMPTY = Fault(BY_TEXT, 0, 3, 0, replacing(deck=b""))


def last_feed(call):
    return call._replace(deck=call.deck[:-1] if call.deck.endswith(b"\n") else call.deck)


UNENDED = Fault(BY_LINE, len(LINES), 2, len(LINES), last_feed)


def faults_of(indexes):
    """Faults of every number, those of cards on these lines."""
    found = [fault for index in indexes for fault in card_faults(index)]
    return [*found, *order_faults(), UNENDED, *count_faults(), *other_faults(), EMPTY]


def fault_calls(rng):
    for fault in faults_of(range(len(LINES))):
        yield fault.change(SOUND)


def fault_pairs():
    """Two faults at once, on one line and on two: the calls, and the fault that comes
    first. That one is brought in last, since a line of another shape has no fields.
    No text has no cards, and two counts that are off may be equal."""
    for first, second in itertools.combinations(sorted(faults_of(ENDS), key=order_of), 2):
        kinds = first.kind, second.kind
        if kinds not in ((BY_TEXT, BY_LINE), (BY_TEXT, BY_COUNT), (BY_COUNT, BY_COUNT)):
            yield first.change(second.change(SOUND)), first


def pair_calls(rng):
    return (call for call, _ in fault_pairs())


# Random calls.


def any_tenths(rng):
    kind = rng.random()
    if kind < 0.5:
        return rng.randint(0, 9999)
    if kind < 0.7:
        return rng.choice((0, 1, 5, 9, 10, 99_999_999, TENTHS[1]))
    if kind < 0.85:
        return int(10 ** (8 * rng.random()))
    return rng.randint(0, TENTHS[1] // 10) * 10


def random_points(rng):
    count = rng.choice((1, 2, 2, 3, 4, 6, 11, 12, 30, 65, 66, rng.randint(1, 200)))
    if rng.random() < 0.4:
        return some_points(count)
    return [(any_tenths(rng), any_tenths(rng)) for _ in range(count)]


def random_sizes(rng):
    return [rng.randint(1, 6) for _ in range(rng.choice((1, 1, 2, 5, 40)))]


def random_head(rng):
    return tuple(any_number(rng, limits) for limits in GIVEN.values())


def random_deck(rng, points):
    """Numbers and card numbers in any shape."""
    sizes = random_sizes(rng), random_sizes(rng)
    text = deck_of(points, sizes, lambda tenths: shaped(rng, tenths))
    if rng.random() < 0.7:
        return text
    lines = damage.split_lines(text)
    return joined(damage.replaced(l, 1, l.split(b" ")[1].zfill(rng.randint(1, 8))) for l in lines)


def random_call(rng):
    text = random_deck(rng, random_points(rng))
    spare = rng.choice((0, 0, 0, 1, 2, 100, 5000, -1))
    return call_of(text, spare, random_head(rng))


def random_faulty(rng):
    """Up to three faults of cards anywhere, or of the given values or the room."""
    call = random_call(rng)
    count = call.deck.count(b"\n")
    same = rng.randrange(count)
    for changes in rng.choices((PARTS, WRONG, SHAPES, None), k=rng.choice((1, 2, 3))):
        if changes is None:
            field = rng.choice((*GIVEN, "room"))
            value = rng.choice(beyond(GIVEN[field])) if field in GIVEN else rng.randint(0, call.room)
            call = call._replace(**{field: value})
            continue
        index = rng.choice((0, same, same, count - 1, rng.randrange(count)))
        line = call.deck.split(b"\n")[index]
        # a card that was damaged before may have no fields any more
        if deck.card_of(line):
            call = call._replace(deck=with_line(index, rng.choice(changes), call.deck))
    return call


def random_damaged(rng):
    """Damage to the text, with no regard for cards."""
    call = random_call(rng)
    text = call.deck
    for _ in range(rng.choice((1, 1, 2, 3))):
        text = damage.random_damage(rng, text)
    return call._replace(deck=text)


TOKENS = (
    b"DIST", b"DEPTH", b" ", b" ", b"1", b"2", b"0", b".", b"5", b"\n", b"\n", b"\t", b"-", b"DIST 1 5\n",
    b"DIST 2 .5 6\n", b"DEPTH 1 5 6 7\n", b"DEPTH 1 5\n", b"DEPTH 2 8\n",
)  # fmt: skip


def random_noise(rng):
    """Texts of a few symbols that look like a deck."""
    text = b"".join(rng.choice(TOKENS) for _ in range(rng.randint(0, 14)))
    return call_of(text, rng.randint(0, 200))


def random_moved(rng):
    """Cards left out, twice, or exchanged."""
    call = random_call(rng)
    lines = damage.split_lines(call.deck)
    one, other = rng.randrange(len(lines)), rng.randrange(len(lines))
    kind = rng.randrange(4)
    if kind == 0:
        del lines[one]
    elif kind == 1:
        lines.insert(other, lines[one])
    elif kind == 2:
        lines[one], lines[other] = lines[other], lines[one]
    else:
        rng.shuffle(lines)
    return call_of(joined(lines), 100, call[:3])


KINDS = (
    (random_call, 35),
    (random_faulty, 30),
    (random_damaged, 20),
    (random_moved, 10),
    (random_noise, 10),
)


def random_calls(rng, count):
    makers = rng.choices([make for make, _ in KINDS], [weight for _, weight in KINDS], k=count)
    return (make(rng) for make in makers)


FIXED = {
    "number": number_calls,
    "digit": digit_calls,
    "word": word_calls,
    "card": card_number_calls,
    "order": order_calls,
    "line": line_calls,
    "byte": byte_calls,
    "large": large_calls,
    "count": count_calls,
    "step": step_calls,
    "long": long_calls,
    "given": given_calls,
    "room": room_calls,
    "answer": answer_calls,
    "fault": fault_calls,
    "pair": pair_calls,
}
