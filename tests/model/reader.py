# The text of traverse.txt and storm.txt, over bytes: values, or refusal 1 to 4
# with its line. None stands for a file that cannot be opened, which counts as
# empty text. No limit of a value is checked here.

import re

from .march import Record, Refusal, Traverse

TRAVERSE_NAMES = b"latitude friction initial"
POINT_NAMES = b"distance depth"
STORM_NAMES = b"seconds tide wind angle deficit"

# An optional minus and one to nine digits, no leading nought, no minus nought.
VALUE = rb"(?:0|-?[1-9][0-9]{0,8})"
VALUE_LINE = {
    count: re.compile(b" ".join([VALUE] * count)) for count in (1, 2, 3, 5)
}


class Lines:
    """The lines of a text; the last one may lack its line feed."""

    def __init__(self, text):
        parts = (text or b"").split(b"\n")
        self.unended = parts[-1] != b""
        self.lines = parts if self.unended else parts[:-1]

    def __len__(self):
        return len(self.lines)

    def ended(self, number):
        return number < len(self.lines) or not self.unended

    def is_names(self, number, names):
        return self.ended(number) and self.lines[number - 1] == names

    def values(self, number, count):
        """The values of a line, or None where it is malformed."""
        line = self.lines[number - 1]
        if not self.ended(number) or not VALUE_LINE[count].fullmatch(line):
            return None
        return tuple(int(value) for value in line.split(b" "))


def read_traverse(text):
    """A Traverse with any count of points, or a refusal."""
    lines = Lines(text)
    if len(lines) < 1 or not lines.is_names(1, TRAVERSE_NAMES):
        return Refusal(1, 1)
    if len(lines) < 2:
        return Refusal(3, 1)
    head = lines.values(2, 3)
    if head is None:
        return Refusal(2, 2)
    if len(lines) < 3:
        return Refusal(3, 2)
    if not lines.is_names(3, POINT_NAMES):
        return Refusal(1, 3)
    if len(lines) < 4:
        return Refusal(3, 3)
    points = []
    for number in range(4, len(lines) + 1):
        point = lines.values(number, 2)
        if point is None:
            return Refusal(2, number)
        points.append(point)
    return Traverse(*head, tuple(points))


def read_record(lines, first, count):
    """The record whose first line has that number, or a refusal."""
    opening = None
    points = []
    for number in range(first, min(first + count, len(lines) + 1)):
        values = lines.values(number, 5)
        if values is None:
            return Refusal(2, number)
        opening = opening or values
        if values[:2] != opening[:2]:
            return Refusal(4, number)
        points.append(values[2:])
    if len(points) < count:
        return Refusal(3, len(lines))
    return Record(opening[0], opening[1], tuple(points))


def read_storm(text, count):
    """Record after record of that many points; a refusal comes last."""
    lines = Lines(text)
    if len(lines) < 1 or not lines.is_names(1, STORM_NAMES):
        yield Refusal(1, 1)
        return
    if len(lines) < 2:
        yield Refusal(3, 1)
        return
    for first in range(2, len(lines) + 1, count):
        record = read_record(lines, first, count)
        yield record
        if isinstance(record, Refusal):
            return
