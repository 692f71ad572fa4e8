# A run: one traverse and one storm as plain numbers that generators may change,
# with its text and its outcome by the model.

import copy

from model import fast, march


class Run:
    """points: [distance, depth]; records: [seconds, tide, [wind, angle, deficit]..]."""

    def __init__(self, latitude, friction, initial, points, records):
        self.head = [latitude, friction, initial]
        self.points = points
        self.records = records

    def copy(self):
        return copy.deepcopy(self)

    def traverse(self):
        return march.Traverse(*self.head, tuple(tuple(p) for p in self.points))

    def record_list(self):
        return [
            march.Record(r[0], r[1], tuple(tuple(p) for p in r[2:])) for r in self.records
        ]

    def traverse_text(self):
        lines = ["latitude friction initial", "%d %d %d" % tuple(self.head)]
        lines.append("distance depth")
        lines.extend("%d %d" % tuple(p) for p in self.points)
        return ("\n".join(lines) + "\n").encode()

    def storm_text(self):
        lines = ["seconds tide wind angle deficit"]
        for record in self.records:
            start = "%d %d " % (record[0], record[1])
            lines.extend(start + "%d %d %d" % tuple(p) for p in record[2:])
        return ("\n".join(lines) + "\n").encode()

    def outcome(self):
        """None where all is accepted, else the refusal, by the fast path."""
        traverse = self.traverse()
        state = march.open_traverse(traverse)
        if isinstance(state, march.Refusal):
            return state
        rows = march.fresh_rows(traverse)
        for record in self.record_list():
            answer = march.take_record(traverse, state, rows, [], record, fast)
            if isinstance(answer, march.Refusal):
                return answer
            state = answer.state
        return None

    def places(self):
        """Every number that can be changed alone: (list that holds it, index,
        its limits). Distances are left out: neighbours hang together."""
        found = [
            (self.head, 0, march.LATITUDE),
            (self.head, 1, march.FRICTION),
            (self.head, 2, march.INITIAL),
        ]
        found.extend((p, 1, march.DEPTH) for p in self.points)
        for number, record in enumerate(self.records):
            seconds = march.LATER_SECONDS if number else march.FIRST_SECONDS
            found.append((record, 0, seconds))
            found.append((record, 1, march.TIDE))
            for point in record[2:]:
                found.append((point, 0, march.WIND))
                found.append((point, 1, march.ANGLE))
                found.append((point, 2, march.DEFICIT))
        return found
