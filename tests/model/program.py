# The whole program as a function: the bytes of the two files in (None for a
# file that cannot be opened), the bytes of the listing out.
#
#   python3 -m model.program DIR     prints the listing for the files in DIR

import os
import sys

from . import fast, march
from .reader import read_storm, read_traverse


def refused(refusal):
    return "refused %d %d\n" % refusal


def storm_lines(traverse, state, records, formulas):
    rows = march.fresh_rows(traverse)
    for record in records:
        if not isinstance(record, march.Refusal):
            record = march.take_record(traverse, state, rows, [], record, formulas)
        if isinstance(record, march.Refusal):
            yield refused(record)
            return
        state = record.state
        yield "%d %d %d\n" % (state.elapsed, record.low, record.high)


def listing_of(traverse, records, formulas):
    """The listing of a traverse and of its records, the last of which may be the
    refusal of one."""
    state = march.open_traverse(traverse)
    if isinstance(state, march.Refusal):
        return refused(state).encode()
    lines = storm_lines(traverse, state, records, formulas)
    return ("seconds low high\n" + "".join(lines)).encode()


def listing(traverse_text, storm_text, formulas=march.Fractions):
    traverse = read_traverse(traverse_text)
    if isinstance(traverse, march.Refusal):
        return refused(traverse).encode()
    return listing_of(traverse, read_storm(storm_text, len(traverse.points)), formulas)


def load(path):
    """The bytes of a file, or None where it cannot be opened. A file that
    opens and cannot be read, such as a folder, is an error."""
    try:
        opened = os.open(path, os.O_RDONLY)
    except OSError:
        return None
    pieces = []
    try:
        while piece := os.read(opened, 1 << 20):
            pieces.append(piece)
    finally:
        os.close(opened)
    return b"".join(pieces)


def main(arguments):
    formulas = march.Fractions
    if arguments[:1] == ["--fast"]:
        formulas = fast
        arguments = arguments[1:]
    folder = arguments[0] if arguments else "."
    texts = [load(os.path.join(folder, n)) for n in ("traverse.txt", "storm.txt")]
    sys.stdout.buffer.write(listing(*texts, formulas))


if __name__ == "__main__":
    main(sys.argv[1:])
