# Calls of the storm maker, request Q-1 of document 02: every entry of the table,
# every distance, calms of every kind (request Q-4), every limit from both sides, the
# ends of 64 bits, counts and rooms of any length, each fault at each place and two
# at once, and random calls.

from collections import namedtuple
from math import isqrt

from model import hurricane, march
from model.hurricane import PLANE, RADIUS, STRIDE, entry

# winds, sites, room and answer are flat numbers as they are lent. A range stands
# for so many noughts, more than are written down.
Call = namedtuple("Call", "centre edge radius x y seconds tide winds sites room answer")

LEAST, GREATEST = -(2**63), 2**63 - 1
FARTHEST = 28_284
ROWS = ((100, 300), (250, 900), (400, 1000), (701, 700), (2000, 50))
SITES = ((100, -200, 0), (400, 200, 900), (-900, 1500, 1800), (700, -650, 3599))


def flat(groups):
    return tuple(number for group in groups for number in group)


def marked(count):
    """Numbers that no call writes."""
    return tuple(-8_000_001 - i for i in range(count))


def noughts(count):
    return range(count) if count > 4000 else (0,) * count


def call_of(storm, winds=ROWS, sites=SITES, spare=0, seconds=1800, tide=-35):
    """A call whose room fits, with so many numbers to spare."""
    room = marked(STRIDE * len(sites) + spare)
    return Call(*storm, seconds, tide, flat(winds), flat(sites), room, marked(3))


STORM = hurricane.Hurricane(2800, 3000, 300, 100, -200)
SOUND = call_of(STORM, spare=4)


def with_number(call, field, place, value):
    numbers = list(getattr(call, field))
    numbers[place] = value
    return call._replace(**{field: tuple(numbers)})


# Places in the plane at a given distance.


def sides_at(rng, r, top):
    """Sides of a triangle whose root, rounded down, is r: the sum of squares near
    the least there is, or near the greatest. None is longer than 20,000."""
    longest = min(r, 20_000)
    least = min(longest, isqrt(max(0, (r + 1) ** 2 - 20_000**2)))
    found = []
    for dx in [longest, *(rng.randint(least, longest) for _ in range(8))]:
        if top:
            dy = min(20_000, isqrt((r + 1) ** 2 - 1 - dx**2))
        else:
            dy = isqrt(r**2 - dx**2)
            dy += dx**2 + dy**2 < r**2
        if dy <= 20_000 and isqrt(dx**2 + dy**2) == r:
            found.append((dx**2 + dy**2, dx, dy))
    _, dx, dy = max(found) if top else min(found)
    return rng.choice(((dx, dy), (dy, dx)))


class Corner:
    """A centre in a corner of the plane, from where every distance can be had."""

    def __init__(self, rng):
        self.rng = rng
        self.way = rng.choice((-1, 1)), rng.choice((-1, 1))
        self.x, self.y = (-10_000 * way for way in self.way)

    def site(self, r, top=None):
        top = self.rng.random() < 0.5 if top is None else top
        dx, dy = sides_at(self.rng, r, top)
        angle = self.rng.randrange(3600)
        return self.x + self.way[0] * dx, self.y + self.way[1] * dy, angle

    def storm(self, drop, radius):
        centre = self.rng.randint(2500, 3200 - drop)
        return hurricane.Hurricane(centre, centre + drop, radius, self.x, self.y)


def pieces(items, size):
    """Lists of at most so many, none of which has but one item."""
    for first in range(0, len(items), size):
        part = items[first : first + size]
        yield part if len(part) > 1 else part * 2


# Deficits.


def told(drop, value):
    return drop * (10_000 - value) // 10_000


def telling_drops(value):
    """A drop that tells the entry from the next number, one that tells it from the
    number before, where there are such."""
    for other in (value + 1, value - 1):
        drops = [d for d in range(1, 301) if told(d, value) != told(d, other)]
        yield from drops[:1]


def table_calls(rng):
    """Every entry, by R and r whose quotient is even; with a drop of 300, with
    drops that tell it from its neighbours, and with another one."""
    for m in range(1001):
        radius, r = (m, 100) if m else (1, 101)
        for drop in {300, *telling_drops(entry(m)), rng.randint(0, 299)}:
            corner = Corner(rng)
            sites = corner.site(r), corner.site(rng.randint(0, FARTHEST))
            yield call_of(corner.storm(drop, radius), sites=sites)


def turning_distances(rng, radius):
    """Distances on both sides of where R/r in hundredths changes."""
    some = {1, 2, 999, 1000, 1001, *(rng.randint(1, 1000) for _ in range(24))}
    ends = {100 * radius // m + step for m in some for step in (0, 1)}
    return sorted(r for r in ends | {0, 1, 2, FARTHEST} if r <= FARTHEST)


def ratio_calls(rng):
    radii = {1, 2, 9, 10, 11, 99, 100, 101, 1990, 1999, 2000}
    for radius in sorted(radii | {rng.randint(1, 2000) for _ in range(300)}):
        corner = Corner(rng)
        sites = [corner.site(r) for r in turning_distances(rng, radius)]
        for part in pieces(sites, 65):
            yield call_of(corner.storm(rng.choice((300, 299, 200)), radius), sites=part)


def drop_calls(rng):
    """Every difference of the pressures."""
    for drop in range(301):
        corner = Corner(rng)
        radius = rng.randint(*RADIUS)
        far = (rng.randint(0, min(FARTHEST, 6 * radius)) for _ in range(30))
        yield call_of(corner.storm(drop, radius), sites=[corner.site(r) for r in far])


def root_calls(rng):
    """Every distance, by the least and by the greatest sum of squares there is or
    nearly; the wind of each row is another, so that it tells the distance."""
    for first in range(0, FARTHEST + 1, 48):
        last = min(first + 47, FARTHEST)
        around = range(max(0, first - 1), last + 2)
        winds = list(zip(around, rng.sample(range(2001), len(around))))
        for top in (False, True):
            corner = Corner(rng)
            sites = [corner.site(r, top) for r in range(first, last + 1)]
            for part in pieces(sites, 65):
                yield call_of(corner.storm(300, rng.randint(*RADIUS)), winds, part)


# Winds.


def wind_lists(rng):
    """Lists that rise, fall, go up and down and stay, of 1 to 50 rows."""
    yield (400, 1000), (701, 700)
    for ends in ((0, 2000), (2000, 0), (2000, 1999), (0, 1)):
        yield (0, ends[0]), (30_000, ends[1])
        yield (rng.randint(1, 500), ends[0]), (rng.randint(501, 1500), ends[1])
        yield (7, ends[0]), (8, ends[1])
    for count in (1, 1, 1, 2, 3, 5, 49, 50, 50, 50, rng.randint(3, 48)):
        longest = rng.choice((60, 1000, 30_000))
        radii = sorted(rng.sample(range(longest + 1), count))
        winds = [rng.randint(0, 2000) for _ in radii]
        yield tuple(zip(radii, winds))
        yield tuple(zip(radii, sorted(winds)))
        yield tuple(zip(radii, sorted(winds, reverse=True)))
        yield tuple(zip(radii, [winds[0]] * count))


def distances_of(rng, winds):
    """At each radius, one before and one behind it, and between."""
    radii = [radius for radius, _ in winds]
    around = {r + step for r in radii for step in (-2, -1, 0, 1, 2)}
    draws = range(max(4, 120 // len(radii)))
    between = {rng.randint(a, b) for a, b in zip(radii, radii[1:]) for _ in draws}
    every = around | between | {0, FARTHEST, rng.randint(0, FARTHEST)}
    return sorted(r for r in every if 0 <= r <= FARTHEST)


def wind_calls(rng):
    for winds in wind_lists(rng):
        corner = Corner(rng)
        sites = [corner.site(r) for r in distances_of(rng, winds)]
        for part in pieces(sites, 65):
            yield call_of(corner.storm(rng.randint(0, 300), 350), winds, part)


# Calms.

# Lists of winds of which each has calms: in a row of wind 0 and on both sides of it,
# inside the first radius and beyond the last, and where a wind between two rows is
# rounded down to 0.
CALM_LISTS = (
    ((500, 0),),
    ((100, 0), (400, 900)),
    ((100, 900), (400, 0)),
    ((100, 0), (400, 900), (700, 0)),
    ((0, 700), (300, 0), (600, 700)),
    ((300, 0), (301, 0), (400, 2000)),
    ((50, 0), (100, 1), (150, 0), (200, 2), (250, 0)),
    ((10, 1), (1010, 0)),
    ((10, 0), (1010, 1)),
    ((10, 2), (1010, 0)),
    ((0, 0), (30_000, 1)),
    ((0, 1), (30_000, 0)),
)
CALM_ANGLES = 0, 1, 3599


def calm_calls(rng):
    """Every angle at each distance; then an angle past its limits at each of the
    nearest and the farthest points, of which one at least is calm."""
    for winds in CALM_LISTS:
        corner = Corner(rng)
        distances = distances_of(rng, winds)
        places = [corner.site(r)[:2] for r in distances for _ in CALM_ANGLES]
        sites = [(*xy, CALM_ANGLES[i % 3]) for i, xy in enumerate(places)]
        for part in pieces(sites, 65):
            yield call_of(corner.storm(rng.choice((0, 300)), 350), winds, part, 2)
        call = call_of(corner.storm(300, 350), winds, sites[:6] + sites[-6:])
        for place in range(2, len(call.sites), 3):
            for angle in (-1, 3600, LEAST, GREATEST):
                yield with_number(call, "sites", place, angle)


# Limits and the ends of 64 bits.


def pressure_calls(rng):
    """Both pressures at their limits and off them, and how they differ."""
    for centre in (2499, 2500, 2501, 2900, 3199, 3200, 3201):
        edges = {2499, 2500, 3200, 3201, *(centre + d for d in (-1, 0, 1, 299, 300, 301))}
        for edge in sorted(edges):
            yield SOUND._replace(centre=centre, edge=edge)


LIMITS = {"radius": RADIUS, "x": PLANE, "y": PLANE}
GROUPS = {
    "winds": (hurricane.WIND_RADIUS, march.WIND),
    "sites": (PLANE, PLANE, march.ANGLE),
}


def sides_of(limits):
    return limits[0] - 1, limits[0], limits[1], limits[1] + 1


def limit_calls(rng):
    yield from pressure_calls(rng)
    for field, limits in LIMITS.items():
        for value in sides_of(limits):
            yield SOUND._replace(**{field: value})
    for field, limits in GROUPS.items():
        for place in range(len(getattr(SOUND, field))):
            for value in sides_of(limits[place % len(limits)]):
                yield with_number(SOUND, field, place, value)
    # the wind list's own ends: one row, and the two that leave most between them
    for value in sides_of(hurricane.WIND_RADIUS):
        yield SOUND._replace(winds=(value, 700))
        yield SOUND._replace(winds=(0, 700, value, 800))
        yield SOUND._replace(winds=(value, 700, 30_000, 800))


def far_numbers(value):
    """The ends of 64 bits, and numbers that fewer bits would take for the value."""
    return LEAST, GREATEST, LEAST + value, value + 2**32, value - 2**32, value + 2**16


def end_calls(rng):
    wide = (LEAST, LEAST + 1, -1, 0, 2500, 3000, 3200, GREATEST - 1, GREATEST)
    for centre in wide:
        for edge in wide:
            yield SOUND._replace(centre=centre, edge=edge)
    for field in ("centre", "edge", "radius", "x", "y", "seconds", "tide"):
        for value in far_numbers(abs(getattr(SOUND, field))):
            yield SOUND._replace(**{field: value})
    for field in ("winds", "sites"):
        for place, value in enumerate(getattr(SOUND, field)):
            for other in far_numbers(abs(value)):
                yield with_number(SOUND, field, place, other)
    for value in (LEAST, GREATEST):
        for field in ("winds", "sites"):
            yield SOUND._replace(**{field: (value,) * len(getattr(SOUND, field))})
    for seconds in (LEAST, -1, 0, 1, 3601, GREATEST):
        for tide in (LEAST, -2001, 0, 2001, GREATEST):
            yield SOUND._replace(seconds=seconds, tide=tide)
            yield SOUND._replace(seconds=seconds, tide=tide, radius=0)


# Counts and lengths.


def long_list(count):
    return tuple((20 * i, (700 * i) % 2001) for i in range(count))


def long_sites(count):
    return tuple((30 * i - 400, 17 * i, (311 * i) % 3600) for i in range(count))


def count_calls(rng):
    for count in range(54):
        yield call_of(STORM, winds=long_list(count), spare=2)
    for count in range(69):
        yield call_of(STORM, sites=long_sites(count), spare=2)
    numbers = flat(long_list(60)), flat(long_sites(80))
    for count in range(111):
        yield SOUND._replace(winds=numbers[0][:count])
    for count in (*range(13), *range(190, 204)):
        yield SOUND._replace(sites=numbers[1][:count], room=marked(230))
    for more in (2**8, 2**16, 2**31, 2**32):
        for count in (0, 1, 2, 50):
            yield SOUND._replace(winds=noughts(2 * (more + count)))
            yield SOUND._replace(sites=noughts(3 * (more + count)))


def room_calls(rng):
    """Rooms that fit, that are short, with room to spare and without any."""
    for sites in (SITES[:2], SITES, long_sites(65)):
        call = call_of(STORM, sites=sites)
        full = len(call.room)
        for count in (*range(min(full, 16)), *range(full - 4, full + 8), 2 * full, 500, 3999):
            yield call._replace(room=marked(count))
        for count in (2**16, 2**31, 2**32, 2**32 + 1, 3 * 2**32):
            yield call._replace(room=noughts(count))


def answer_calls(rng):
    """Answers of another length, whatever else is wrong."""
    others = SOUND._replace(radius=0), SOUND._replace(room=()), SOUND._replace(winds=())
    for call in (SOUND, *others):
        for count in (*range(9), 255, 256 + 3, 3999):
            yield call._replace(answer=marked(count))


# Faults. A call with one is refused with 13 in the storm's own numbers, in a row
# of the list or in a point, with 14 or with 8; a lower kind comes first.

IN_STORM, IN_ROW, IN_POINT, IN_RISE, IN_ROOM = range(5)
Fault = namedtuple("Fault", "kind place change")


def refusal_of(fault):
    return march.Refusal((13, 13, 13, 14, 8)[fault.kind], fault.place)


def setting(field, value):
    return lambda call: call._replace(**{field: value})


def placing(field, place, value):
    return lambda call: with_number(call, field, place, value)


def moved_edge(drop):
    return lambda call: call._replace(edge=call.centre + drop)


def resized(field, change):
    return lambda call: call._replace(**{field: change(getattr(call, field))})


def beyond(limits):
    return limits[0] - 1, limits[1] + 1


def storm_faults():
    changes = [setting(f, v) for f in ("centre", "edge") for v in (2499, 3201)]
    changes += [moved_edge(drop) for drop in (-1, 301)]
    changes += [setting(f, v) for f in LIMITS for v in beyond(LIMITS[f])]
    for resize in (lambda w: (), lambda w: flat(long_list(51)), lambda w: w[:2] + (5,)):
        changes.append(resized("winds", resize))
    lengths = (lambda s: (), lambda s: s[:3], lambda s: flat(long_sites(66)))
    for resize in (*lengths, lambda s: s[:6] + (5,), lambda s: s[:6] + (5, 5)):
        changes.append(resized("sites", resize))
    return [Fault(IN_STORM, 0, change) for change in changes]


def group_faults(kind, field, group):
    """Each number of a row or a point past each of its limits."""
    for i, limits in enumerate(GROUPS[field]):
        for value in beyond(limits):
            place = len(GROUPS[field]) * (group - 1) + i
            yield Fault(kind, group, placing(field, place, value))


def row_faults(row):
    return group_faults(IN_ROW, "winds", row)


def point_faults(point):
    return group_faults(IN_POINT, "sites", point)


def rise_faults(row):
    """A radius equal to the one before it, or one less."""
    for step in (0, -1):

        def change(call, step=step):
            return with_number(call, "winds", 2 * row - 2, call.winds[2 * row - 4] + step)

        yield Fault(IN_RISE, row, change)


def room_faults():
    for part in (lambda sites: STRIDE * (len(sites) // 3) - 1, lambda sites: 0):

        def change(call, part=part):
            return call._replace(room=marked(max(0, part(call.sites))))

        yield Fault(IN_ROOM, 0, change)


def faults_of(rows, points):
    """Faults of every kind in the named rows and points."""
    faults = storm_faults()
    for row in rows:
        faults += row_faults(row)
    for point in points:
        faults += point_faults(point)
    for row in rows:
        faults += rise_faults(row) if row > 1 else ()
    return faults + list(room_faults())


def fault_calls(rng):
    """One fault in each of 50 rows and of 65 points."""
    call = call_of(STORM, [(r + 50, w) for r, w in long_list(50)], long_sites(65), 5)
    for fault in faults_of(range(1, 51), range(1, 66)):
        yield fault.change(call)


def fault_pairs():
    """Two faults at once: the calls, and the fault that comes first. That one is
    brought in last, since a fault of counts may leave no row or no point."""
    faults = faults_of((1, 2, 4, 5), (1, 3, 4))
    for i, first in enumerate(faults):
        for second in faults[i:]:
            yield first.change(second.change(SOUND)), first


def pair_calls(rng):
    return (call for call, _ in fault_pairs())


# Random calls.


def any_number(rng, limits):
    return rng.choice(limits) if rng.random() < 0.15 else rng.randint(*limits)


def random_list(rng):
    count = rng.choice((1, 2, 2, 3, 4, 6, 10, 20, 50))
    longest = rng.choice((60, 400, 3000, 30_000))
    radii = sorted(rng.sample(range(longest + 1), count))
    # faint winds are rounded down to a calm in many places
    limits = rng.choice((march.WIND, march.WIND, march.WIND, (0, 2)))
    return [(radius, any_number(rng, limits)) for radius in radii]


def random_sites(rng, winds, storm):
    """Anywhere, or by the storm's centre, or near a radius of the list."""
    sites = []
    for _ in range(rng.choice((2, 2, 3, 4, 6, 10, 30, 65))):
        near = rng.choice((10_000, 2000, rng.choice(winds)[0], 20, 0))
        place = [c + rng.randint(-near, near) for c in (storm.x, storm.y)]
        place = [max(PLANE[0], min(PLANE[1], c)) for c in place]
        sites.append((*place, any_number(rng, march.ANGLE)))
    return sites


def random_call(rng):
    corner = Corner(rng)
    radius = rng.choice((1, 2000, rng.randint(*RADIUS), rng.randint(100, 500)))
    storm = corner.storm(any_number(rng, hurricane.DROP), radius)
    if rng.random() < 0.8:
        storm = storm._replace(x=rng.randint(*PLANE), y=rng.randint(*PLANE))
    winds = random_list(rng)
    sites = random_sites(rng, winds, storm)
    passed_on = [rng.choice((0, 3600, rng.randint(-(10**10), 10**10))) for _ in "st"]
    return call_of(storm, winds, sites, rng.choice((0, 0, 1, 2, 3, 50)), *passed_on)


def random_faulty(rng):
    """Up to three faults in one row and one point, the last kind first."""
    call = random_call(rng)
    row, point = (rng.randint(1, len(n) // w) for n, w in ((call.winds, 2), (call.sites, 3)))
    faults = faults_of([row], [point])
    for kind in sorted(rng.choices(range(5), k=rng.choice((1, 2, 3))), reverse=True):
        fitting = [fault for fault in faults if fault.kind == kind]
        call = rng.choice(fitting).change(call) if fitting else call
    return call


def random_calls(rng, count):
    for _ in range(count):
        yield random_faulty(rng) if rng.random() < 0.3 else random_call(rng)


FIXED = {
    "table": table_calls,
    "ratio": ratio_calls,
    "drop": drop_calls,
    "root": root_calls,
    "wind": wind_calls,
    "calm": calm_calls,
    "limit": limit_calls,
    "end": end_calls,
    "count": count_calls,
    "room": room_calls,
    "answer": answer_calls,
    "fault": fault_calls,
    "pair": pair_calls,
}
