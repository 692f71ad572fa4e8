# Long storms, tens of megabytes of text: 20,000 records over 65 points, a storm
# that runs up to the limit of the elapsed time, and faults near the end of one.

import math

from .run import Run
from .values import angle_for, sloping_points


def long_run(rng, segments, records):
    """Storms that come and go over the whole time; accepted to the end."""
    points = sloping_points(rng, segments, min(100, 700 // segments))
    for point in points:
        point[1] = max(point[1], 300)
    strength = [rng.uniform(0.6, 1.0) for _ in points]
    turn = rng.uniform(0.01, 0.2)
    rows = []
    for k in range(records):
        share = (0.5 - 0.5 * math.cos(k * 0.05)) * (0.7 + 0.3 * math.sin(k * 0.003))
        peak = 950 * share
        angle = int(1800 + 1800 * math.sin(k * turn)) % 3600
        tide = int(200 * math.sin(k * 0.14))
        field = []
        for i, factor in enumerate(strength):
            wind = int(peak * factor * rng.uniform(0.9, 1))
            way = angle_for(wind, (angle + 7 * i) % 3600)
            field.append([wind, way, int(150 * share)])
        rows.append([rng.randint(600, 3600) if k else 0, tide] + field)
    return Run(rng.randint(200, 500), rng.randint(10, 50), 0, points, rows)


def elapsed_text(extra, last=b"300 900"):
    """Two points; seconds that add up to 1,000,000,000 and then `extra`, with the
    last record's wind and angle."""
    line = b"%d 0 300 900 0\n"
    whole, rest = divmod(1_000_000_000, 3600)
    lines = [b"seconds tide wind angle deficit\n", line % 0 * 2]
    lines.append(line % 3600 * (2 * whole) + line % rest * 2)
    if extra:
        lines.append(b"%d 0 %b 0\n" % (extra, last) * 2)
    return b"".join(lines)


def late_faults(rng):
    """A storm of some hundred kilobytes with one fault somewhere near its end."""
    run = long_run(rng, 4, 4000)
    traverse, storm = run.traverse_text(), run.storm_text()
    size = len(storm)
    for _ in range(3):
        place = size - rng.randint(1, 3000)
        yield "late byte", traverse, storm[:place] + b"x" + storm[place + 1 :]
        yield "late end", traverse, storm[:place]
    for index in (1, 2):
        late = run.copy()
        late.records[-3][2 + index][0] = 2001
        yield "late wind", traverse, late.storm_text()
    for index in (0, 3):
        late = run.copy()
        late.records[-2][2 + index][:2] = [0, 3599]
        yield "late calm", traverse, late.storm_text()
    late = run.copy()
    late.records[-1][0] = 3601
    yield "late seconds", traverse, late.storm_text()
    yield "no last feed", traverse, storm[:-1]
    yield "extra feed", traverse, storm + b"\n"


def long_texts(rng):
    """(label, traverse, storm), the largest last."""
    yield from late_faults(rng)
    two_points = Run(300, 25, 0, [[10, 500], [0, 500]], []).traverse_text()
    yield "elapsed limit reached", two_points, elapsed_text(0)
    # a calm that has a direction as well: 9 comes first
    yield "elapsed limit passed", two_points, elapsed_text(1, b"0 900")
    run = long_run(rng, 64, 20_000)
    yield "20,000 records of 65 points", run.traverse_text(), run.storm_text()
