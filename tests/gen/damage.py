# Damage to text, over bytes: what can be wrong in a value, in a line and in a
# whole text. A line here is given without its line feed and answered with it.

NINE = b"999999999"

# Stand for a value: malformed ones, and sound ones with a meaning of their own.
VALUES = (
    b"-0", b"00", b"05", b"-05", b"+5", b"+0", b"1234567890", b"-1234567890",
    b"0123456789", b"", b"-", b"--1", b"1-", b"- 1", b"1.0", b"1.", b".5", b"1e3", b"a",
    b"0x10", b"1_0", b"5\x00", b"\x00", b"\xff", b"5\xff", b"\xd9\xa3", b"\xe2\x88\x925",
    b"/", b":", b"5,", b"'5'", b"0-", b"-00", b"18446744073709551616",
    b"4294967296", b"1000000000", NINE, b"-" + NINE, b"0", b"1", b"-1", b"100000000",
)


def replaced(line, index, value):
    parts = line.split(b" ")
    parts[index % len(parts)] = value
    return b" ".join(parts)


def value_damage(value, index):
    return lambda line: replaced(line, index, value) + b"\n"


LINES = {
    "leading space": lambda l: b" " + l + b"\n",
    "trailing space": lambda l: l + b" \n",
    "double space": lambda l: l.replace(b" ", b"  ", 1) + b"\n",
    "double last space": lambda l: b"  ".join(l.rsplit(b" ", 1)) + b"\n",
    "tab": lambda l: l.replace(b" ", b"\t", 1) + b"\n",
    "trailing tab": lambda l: l + b"\t\n",
    "carriage return": lambda l: l + b"\r\n",
    "return for feed": lambda l: l + b"\r",
    "return after feed": lambda l: l + b"\n\r",
    "vertical tab": lambda l: l.replace(b" ", b"\x0b", 1) + b"\n",
    "form feed": lambda l: l + b"\x0c\n",
    "no-break space": lambda l: l.replace(b" ", b"\xc2\xa0", 1) + b"\n",
    "byte order mark": lambda l: b"\xef\xbb\xbf" + l + b"\n",
    "zero byte after": lambda l: l + b"\x00\n",
    "zero byte before": lambda l: b"\x00" + l + b"\n",
    "zero for space": lambda l: l.replace(b" ", b"\x00", 1) + b"\n",
    "zero for feed": lambda l: l + b"\x00",
    "byte 255 after": lambda l: l + b"\xff\n",
    "comma": lambda l: l.replace(b" ", b",", 1) + b"\n",
    "empty": lambda l: b"\n",
    "one space": lambda l: b" \n",
    "deleted": lambda l: b"",
    "twice": lambda l: l + b"\n" + l + b"\n",
    "empty line before": lambda l: b"\n" + l + b"\n",
    "empty line after": lambda l: l + b"\n\n",
    "joined by space": lambda l: l + b" ",
    "joined": lambda l: l,
    "value more": lambda l: l + b" 1\n",
    "value fewer": lambda l: l.rsplit(b" ", 1)[0] + b"\n",
    "first value gone": lambda l: l.split(b" ", 1)[-1] + b"\n",
    "split in two": lambda l: l.replace(b" ", b"\n", 1) + b"\n",
    "upper case": lambda l: l.upper() + b"X\n",
    "comment": lambda l: b"#" + l + b"\n",
    "all nines": lambda l: b" ".join([b"-" + NINE] * len(l.split(b" "))) + b"\n",
    "all nines and one": lambda l: b" ".join([b"-" + NINE] * len(l.split(b" "))) + b"0\n",
    "long digits": lambda l: b"1" * 57 + b"\n",
    "long spaces": lambda l: l + b" " * 60 + b"\n",
    "long noughts": lambda l: b"0" * 50 + l + b"\n",
    "ends at 55": lambda l: l + b" " + b"1" * max(0, 54 - len(l)) + b"\n",
    "ends at 56": lambda l: l + b" " + b"1" * max(0, 55 - len(l)) + b"\n",
    "ends at 57": lambda l: l + b" " + b"1" * max(0, 56 - len(l)) + b"\n",
    "names amid": lambda l: b"distance depth\n" + l + b"\n",
    "storm names amid": lambda l: b"seconds tide wind angle deficit\n" + l + b"\n",
}
LINE_LIST = tuple(LINES.values())


def split_lines(text):
    """Lines without feeds; a sound text ends with a feed."""
    return text.split(b"\n")[:-1]


def with_line(lines, index, bytes_for_it):
    before = b"".join(l + b"\n" for l in lines[:index])
    after = b"".join(l + b"\n" for l in lines[index + 1 :])
    return before + bytes_for_it + after


def at_line(text, index, damage):
    lines = split_lines(text)
    return with_line(lines, index, damage(lines[index]))


def one_byte_names(text, index):
    """The names line with each byte changed, dropped or doubled, and without
    its feed at the end of the text."""
    lines = split_lines(text)
    name = lines[index]
    for i in range(len(name)):
        flipped = bytes([name[i] ^ 1]), bytes([name[i] ^ 0x20])
        for changed in (*flipped, b"", name[i : i + 1] * 2):
            yield with_line(lines, index, name[:i] + changed + name[i + 1 :] + b"\n")
    before = b"".join(l + b"\n" for l in lines[:index])
    yield before + name
    yield before + name + b"\n"
    yield before + name[:-1]
    yield before + b"\n"


def whole_text(text):
    """Damage to the text as a whole."""
    yield b""
    yield b"\n"
    yield b" "
    yield b"\x00"
    yield b"\xff"
    yield b"\r\n"
    yield text[:-1]
    yield text + b"\n"
    yield text + b"\n\n"
    yield text + b" "
    yield text + b"\x00"
    yield text + b"\r"
    yield text + b"1"
    yield text.replace(b"\n", b"\r\n")
    yield text.replace(b"\n", b"\r")
    yield b"\xef\xbb\xbf" + text
    yield b"\n" + text
    yield b" " + text
    yield text + text
    yield text.replace(b" ", b"  ")
    yield text.replace(b" ", b"\t")
    yield text.upper()
    yield text[::-1]


def truncations(text):
    """The text ended at every byte."""
    for size in range(len(text)):
        yield text[:size]


def large_lines(text, index):
    """A megabyte in place of one line, ended or not, good at its start."""
    lines = split_lines(text)
    for filler in (b"1", b" ", b"0", b"a", b"\x00", b"1 "):
        long = lines[index] + filler * (1_000_000 // len(filler))
        yield with_line(lines, index, long + b"\n")
    before = b"".join(l + b"\n" for l in lines[:index])
    yield before + b"7" * 1_000_000
    yield before + lines[index] + b"\n" * 1_000_000


def random_damage(rng, text):
    """One damage somewhere: a value, a line, a byte or the end."""
    if not text.endswith(b"\n"):
        return text
    lines = split_lines(text)
    anywhere = rng.randrange(len(lines))
    index = rng.choice((0, 1, 2, 3, len(lines) - 1, anywhere, anywhere))
    index = min(index, len(lines) - 1)
    kind = rng.random()
    if kind < 0.35:
        value = value_damage(rng.choice(VALUES), rng.randrange(5))
        return at_line(text, index, value)
    if kind < 0.75:
        return at_line(text, index, rng.choice(LINE_LIST))
    place = rng.randrange(len(text))
    if kind < 0.83:
        byte = rng.choice((rng.choice(b"\x00\xff \n\r\t-0159a+"), rng.randrange(256)))
        return text[:place] + bytes([byte]) + text[place + rng.randrange(2) :]
    if kind < 0.88:
        return text[:place] + text[place + 1 :]
    if kind < 0.91:
        return text[:place]
    if kind < 0.97:
        return b"".join(line + b"\n" for line in lines[: rng.randrange(len(lines))])
    return rng.choice(list(whole_text(text)))


def unequal(rng, text):
    """Seconds or tide changed on one line of a storm: refusal 4 unless it is a
    record's first line or the record has one line."""
    lines = split_lines(text)
    if len(lines) < 2:
        return text
    index = rng.randrange(1, len(lines))
    parts = lines[index].split(b" ")
    place = rng.randrange(2)
    try:
        parts[place] = b"%d" % (int(parts[place]) + rng.choice((1, -1, 60)))
    except (ValueError, IndexError):
        return text
    return with_line(lines, index, b" ".join(parts) + b"\n")
