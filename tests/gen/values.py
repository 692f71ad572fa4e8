# Runs whose text is sound: ordinary and extreme storms, storms with calms, storms
# whose fluxes come to their limit, runs at the edge of a limit, runs with faults in
# their values (refusals 5 to 12 and 18).

from model import fast, forcing, march

from .run import Run


def log_uniform(rng, low, high):
    return int(round(low * (high / low) ** rng.random()))


def small_count(rng):
    """Segments: mostly few, now and then up to 64."""
    return rng.choice((1, 1, 2, 2, 3, 3, 4, 5, 6, 8, 12, 20, 64))


def angle_for(wind, angle):
    """The angle that a sound point carries with this wind: a calm has none."""
    return angle if wind else 0


def distances(rng, segments, longest=100):
    steps = [rng.randint(1, longest) for _ in range(segments)]
    return [sum(steps[i:]) for i in range(segments + 1)]


def sloping_points(rng, segments, longest):
    """A shelf that grows shallow shoreward, with some unevenness."""
    deep = log_uniform(rng, 400, 6000)
    shallow = rng.randint(80, 250)
    depths = []
    for i in range(segments + 1):
        slope = deep + (shallow - deep) * i / segments
        depths.append(max(60, min(9500, int(slope * rng.uniform(0.85, 1.15)))))
    return [list(p) for p in zip(distances(rng, segments, longest), depths)]


def storm_winds(rng, points, records, strongest, spread):
    """A wind that rises, turns and falls, a little different at each point."""
    peak = rng.randint(strongest // 3, strongest)
    angle = rng.randrange(3600)
    turn = rng.randint(-150, 150)
    deficit = rng.randint(0, 300)
    made = []
    for k in range(records):
        share = 1 - abs(2 * (k + 1) / (records + 1) - 1)
        field = []
        for _ in range(points):
            wind = int(peak * share * rng.uniform(1 - spread, 1))
            way = (angle + k * turn + rng.randint(-100, 100)) % 3600
            low = int(deficit * share * rng.uniform(0.9, 1))
            field.append([wind, angle_for(wind, way), low])
        made.append(field)
    return made


def storm_records(rng, fields, tide_range):
    tide = rng.randint(-tide_range, tide_range)
    step = rng.choice((60, 600, 900, 1800, 3600, rng.randint(1, 3600)))
    records = []
    for k, field in enumerate(fields):
        tide = max(-2000, min(2000, tide + rng.randint(-60, 60)))
        records.append([step if k else 0, tide] + field)
    return records


def ordinary(rng, segments=None, records=None):
    segments = segments or small_count(rng)
    records = records or rng.choice((1, 1, 2, 3, 4, 5, 8, 12))
    longest = 100 if segments < 8 else max(2, 700 // segments)
    points = sloping_points(rng, segments, longest)
    fields = storm_winds(rng, segments + 1, records, 1100, 0.3)
    rows = storm_records(rng, fields, 300)
    latitude = rng.choice((0, 900, rng.randint(0, 900), rng.randint(250, 450)))
    return Run(latitude, rng.randint(10, 50), rng.randint(-200, 300), points, rows)


def extreme(rng, segments=None, records=None):
    """Anything within the limits, ends of the limits more often than not."""
    segments = segments or small_count(rng)
    records = records or rng.choice((1, 2, 3, 4, 6))

    def pick(limits):
        if rng.random() < 0.3:
            return rng.choice(limits)
        return rng.randint(*limits)

    def pick_point():
        wind, angle, deficit = map(pick, (march.WIND, march.ANGLE, march.DEFICIT))
        return [wind, angle_for(wind, angle), deficit]

    points = [[d, pick(march.DEPTH)] for d in distances(rng, segments)]
    rows = []
    for k in range(records):
        seconds = pick(march.LATER_SECONDS) if k else 0
        field = [pick_point() for _ in range(segments + 1)]
        rows.append([seconds, pick(march.TIDE)] + field)
    head = [pick(march.LATITUDE), pick(march.FRICTION), pick(march.INITIAL)]
    return Run(*head, points, rows)


def deep_water(rng, segments=None, records=None):
    """Strong cross wind over deep water: flux grows to its limit or near it."""
    segments = segments or rng.choice((1, 1, 2, 3))
    records = records or rng.randint(8, 18)
    points = [[d, rng.randint(8000, 9700)] for d in distances(rng, segments, 10)]
    way = rng.choice((900, 2700))
    strongest = rng.randint(1700, 2000)
    rows = []
    for k in range(records):
        field = [
            [rng.randint(strongest - 50, strongest), way + rng.randint(-80, 80), 0]
            for _ in range(segments + 1)
        ]
        rows.append([3600 if k else 0, rng.randint(-100, 100)] + field)
    return Run(rng.choice((0, 300, 900)), rng.randint(10, 15), 0, points, rows)


def shallow_water(rng, segments=None, records=None):
    """Depths of a few feet under strong wind: depth and setup near limits."""
    segments = segments or rng.choice((1, 2, 3, 4, 6))
    records = records or rng.randint(1, 4)
    points = [[d, rng.randint(5, 150)] for d in distances(rng, segments)]
    fields = storm_winds(rng, segments + 1, records, 2000, 0.3)
    way = rng.choice((0, 1800, rng.randrange(3600)))
    for field in fields:
        for point in field:
            point[1] = angle_for(point[0], (way + rng.randint(-200, 200)) % 3600)
    rows = storm_records(rng, fields, 200)
    return Run(rng.choice((0, 450, 900)), rng.randint(10, 50), 0, points, rows)


def seconds_to_limit(rng, run, field, damping):
    """A step in which the damping of the limiting flux c, drag times c over the square of
    the depth, is so much at some segment. At 2 a flux from nought comes to its limit."""
    place = rng.randrange(len(run.points) - 1)
    total = sum(forcing.cross(wind, angle) for wind, angle, _ in field[place : place + 2])
    speed = fast.limiting_speed(run.head[1], total)
    depth = 5 * (run.points[place][1] + run.points[place + 1][1])
    wanted = damping * 100_000 * depth / (run.head[1] * max(1, speed))
    return max(1, min(3600, int(wanted)))


def next_wind(rng, wind, way):
    """Another wind across: less or more, from the other side, faint, along or none."""
    kind = rng.random()
    if kind < 0.3:
        return int(wind * rng.uniform(0.1, 0.8)), way
    if kind < 0.5:
        return rng.randint(300, 1300), way
    if kind < 0.7:
        return wind, (way + 1800) % 3600
    if kind < 0.8:
        return rng.randint(1, 12), rng.choice((way, rng.randrange(3600)))
    return (0, 0) if kind < 0.85 else (min(wind, 500), rng.choice((0, 1800)))


def field_of(rng, count, wind, way):
    spread = 0 if way in (0, 1800) else rng.choice((0, 0, 60))
    field = []
    for _ in range(count):
        here = min(2000, int(wind * rng.uniform(0.9, 1.1)))
        field.append([here, angle_for(here, (way + rng.randint(-spread, spread)) % 3600), 0])
    return field


def turning_cross(rng, segments=None, records=None):
    """A wind across that holds for a while, then drops, turns round, comes along the axis or
    stops: fluxes that come to their limit from below, where it binds one end before the
    other, that a lower limit cuts, and that are 0 at once."""
    segments = segments or rng.choice((1, 1, 2, 3, 5, 8))
    records = records or rng.randint(4, 14)
    points = sloping_points(rng, segments, rng.choice((10, 40, 100)))
    run = Run(rng.choice((300, 450, 900)), rng.randint(10, 50), 0, points, [])
    wind, way = rng.randint(200, 1200), rng.choice((900, 2700))
    field = field_of(rng, segments + 1, wind, way)
    # the flux goes to its limit in some steps
    step = seconds_to_limit(rng, run, field, rng.uniform(0.1, 1.2))
    tide = rng.choice((0, 0, 20))
    for k in range(records):
        run.records.append([step if k else 0, rng.randint(-tide, tide)] + [list(point) for point in field])
        if rng.random() < 0.3:
            wind, way = next_wind(rng, wind or rng.randint(200, 1200), way if wind else rng.choice((900, 2700)))
            field = field_of(rng, segments + 1, wind, way)
    return run


def near_nought(rng):
    """Shallow water, faint cross winds from both sides until the flux range holds
    nought inside, then strong ones: v = 0 gives the range's end there, where the step
    is long enough to damp the ends of v and too short to hold the flux of each."""
    segments = rng.choice((1, 1, 2, 4))
    points = [[d, rng.randint(12, 60)] for d in distances(rng, segments, 20)]
    run = Run(rng.choice((100, 450, 900)), rng.randint(10, 50), 0, points, [])
    faint = rng.randint(1, 8)
    way = rng.choice((900, 2700))
    for k in range(faint + rng.randint(1, 3)):
        strongest = 60 if k < faint else rng.randint(600, 2000)
        # a force below one unit to one side and the other widens the range on both
        way = 3600 - way if rng.random() < 0.75 else way
        winds = [rng.randint(0, strongest) for _ in range(segments + 1)]
        field = [[wind, angle_for(wind, way), 0] for wind in winds]
        seconds = rng.choice((60, 60, 60, 900, 3600)) if k else 0
        if k >= faint and rng.random() < 0.7:
            seconds = seconds_to_limit(rng, run, field, rng.uniform(1.3, 2.4))
        run.records.append([seconds, 0] + field)
    return run


def calm_edge(rng):
    """No wind: the water depth is a whole number at a limit or one off it."""
    total, tide = rng.choice(((20, 0), (20, -1), (20_000, 0), (20_000, 1), (20, 1)))
    first = rng.randint(max(0, total - 10_000), min(10_000, total))
    points = [[rng.randint(1, 100), first], [0, total - first]]
    field = [[0, 0, 0], [0, 0, 0]]
    return Run(300, 25, 0, points, [[0, tide] + field, [3600, tide] + field])


def with_calms(rng):
    """Calms among the winds, at single points and over whole records; in some runs
    one of them keeps a direction."""
    run = rng.choice((ordinary, extreme, shallow_water))(rng)
    for record in run.records:
        share = rng.choice((0.2, 0.2, 0.5, 1))
        for point in record[2:]:
            if rng.random() < share:
                point[:2] = [0, 0]
    if rng.random() < 0.2:
        fault_calm_angle(rng, run)
    return run


STYLES = (
    (ordinary, 40),
    (extreme, 25),
    (shallow_water, 15),
    (deep_water, 12),
    (near_nought, 12),
    (with_calms, 12),
    (turning_cross, 30),
    (calm_edge, 3),
)


def sound(rng):
    """A run of some style, accepted or not."""
    style = rng.choices([s for s, _ in STYLES], [w for _, w in STYLES])[0]
    return style(rng)


def outcome_with(run, place, value):
    holder, index = place
    kept = holder[index]
    holder[index] = value
    outcome = run.outcome()
    holder[index] = kept
    return outcome


def split_at(run, place, near, far):
    """Both sides of the change of outcome between two values of one number."""
    here = outcome_with(run, place, near)
    while abs(far - near) > 1:
        middle = (near + far) // 2
        if outcome_with(run, place, middle) == here:
            near = middle
        else:
            far = middle
    pair = []
    for value in (near, far):
        place[0][place[1]] = value
        pair.append(run.copy())
    return pair


def neighbours(rng, run):
    """Two runs that differ by one unit in one number and have different
    outcomes, on both sides of whatever limit lies that way; or none."""
    run = run.copy()
    holder, index, limits = rng.choice(run.places())
    place = (holder, index)
    near = holder[index]
    far = rng.choice((limits[0] - 1, limits[1] + 1, limits[0], limits[1]))
    if outcome_with(run, place, far) == outcome_with(run, place, near):
        return []
    return split_at(run, place, near, far)


# Faults in values. Each changes the run where it stands.


def outside(rng, limits):
    low, high = limits
    return rng.choice((low - 1, high + 1, -999999999, 999999999, high + 256, low - 65536))


def fault_few_points(rng, run):
    del run.points[1:]


def fault_many_points(rng, run):
    run.points = [[i, 500] for i in range(rng.choice((66, 67, 100)))][::-1]


def fault_head(rng, run):
    place = rng.randrange(3)
    limits = (march.LATITUDE, march.FRICTION, march.INITIAL)[place]
    run.head[place] = outside(rng, limits)


def fault_distance_value(rng, run):
    rng.choice(run.points)[0] = outside(rng, march.DISTANCE)


def fault_depth_value(rng, run):
    rng.choice(run.points)[1] = outside(rng, march.DEPTH)


def fault_distance_rule(rng, run):
    """A step of 0, of 101 or backward at one pair; the rest keeps its steps."""
    pair = rng.randrange(len(run.points) - 1) if len(run.points) > 1 else 0
    change = rng.choice((0, 101, -1, 200))
    inner = run.points[min(pair + 1, len(run.points) - 1)][0]
    shift = inner + change - run.points[pair][0]
    for point in run.points[: pair + 1]:
        point[0] += shift


def fault_shore_distance(rng, run):
    for point in run.points:
        point[0] += rng.choice((1, 1, 5))


def fault_last_distance(rng, run):
    run.points[-1][0] = rng.choice((1, 2, -1))


def fault_seconds(rng, run):
    number = rng.randrange(len(run.records))
    bad = outside(rng, march.LATER_SECONDS)
    run.records[number][0] = bad if number else rng.choice((1, -1, 3600, 600))


def fault_tide(rng, run):
    rng.choice(run.records)[1] = outside(rng, march.TIDE)


def fault_field(rng, run):
    point = rng.choice(rng.choice(run.records)[2:])
    place = rng.randrange(3)
    point[place] = outside(rng, (march.WIND, march.ANGLE, march.DEFICIT)[place])


def fault_calm_angle(rng, run):
    """A calm that has a direction, mostly the one left beside its wind: refusal 18."""
    record = rng.choice(run.records)
    point = rng.choice((record[2], record[-1], rng.choice(record[2:])))
    point[:2] = [0, rng.choice((point[1] or 900, point[1] or 900, 1, 3599))]


def fault_shallow(rng, run):
    """Depths that leave too little water at one segment: refusal 10."""
    pair = rng.randrange(max(1, len(run.points) - 1))
    for point in run.points[pair : pair + 2]:
        point[1] = 0


def fault_deep(rng, run):
    pair = rng.randrange(max(1, len(run.points) - 1))
    for point in run.points[pair : pair + 2]:
        point[1] = 10_000
    rng.choice(run.records)[1] = 2000


def fault_flux(rng, run):
    """Long strong cross winds over deep water: refusal 11 some records on."""
    run.head = [0, 10, 0]
    way = rng.choice((900, 2700))
    for point in run.points:
        point[1] = rng.randint(9000, 9900)
    count = len(run.records[0]) - 2
    run.records = [
        [3600 if k else 0, 0] + [[2000, way, 0] for _ in range(count)] for k in range(14)
    ]


def fault_setup(rng, run):
    """Strong onshore or offshore wind over a long shallow segment: refusal 12."""
    pair = rng.randrange(max(1, len(run.points) - 1))
    if len(run.points) > 1:
        shift = run.points[pair + 1][0] + 100 - run.points[pair][0]
        for point in run.points[: pair + 1]:
            point[0] += shift
    for point in run.points[pair : pair + 2]:
        point[1] = rng.randint(20, 45)
    record = rng.choice(run.records)
    way = rng.choice((0, 1800))
    for point in record[2:]:
        point[:2] = [rng.randint(1900, 2000), way]


TRAVERSE_FAULTS = (
    fault_few_points,
    fault_many_points,
    fault_head,
    fault_distance_value,
    fault_depth_value,
    fault_distance_rule,
    fault_shore_distance,
    fault_last_distance,
)
RECORD_FAULTS = (
    fault_seconds,
    fault_tide,
    fault_field,
    fault_field,
    fault_calm_angle,
    fault_shallow,
    fault_deep,
    fault_flux,
    fault_setup,
)


def faulty(rng, faults):
    """An ordinary run with that many faults, in any order."""
    run = ordinary(rng, rng.choice((1, 2, 3, 5)), rng.choice((1, 2, 3)))
    pool = RECORD_FAULTS if rng.random() < 0.5 else TRAVERSE_FAULTS + RECORD_FAULTS
    for fault in rng.choices(pool, k=faults):
        fault(rng, run)
    return run


def limit_runs(rng):
    """Every limit of every value from both sides, at the first, a middle and
    the last point, in the first and in a later record; one change a run, and a
    wind of 0 with angle 0 besides."""
    base = ordinary(rng, 4, 3)
    while base.outcome() is not None:
        base = ordinary(rng, 4, 3)
    for index, (_, _, limits) in enumerate(base.places()):
        for value in (limits[0] - 1, limits[0], limits[1], limits[1] + 1):
            run = base.copy()
            holder, place, _ = run.places()[index]
            holder[place] = value
            yield run
            if limits is march.WIND and value == 0:
                calm = run.copy()
                calm.places()[index][0][1] = 0
                yield calm
    for point in range(5):
        for value in (-1, 0, 6400, 6401):
            run = base.copy()
            run.points[point][0] = value
            yield run


def step_runs(rng):
    """Each step between neighbours 0, 1, 100, 101 and backward; shore not at 0."""
    for pair in range(3):
        for change in (-1, 0, 1, 100, 101):
            run = ordinary(rng, 3, 1)
            shift = run.points[pair + 1][0] + change - run.points[pair][0]
            for point in run.points[: pair + 1]:
                point[0] += shift
            yield run
    for shift in (-1, 1, 100):
        run = ordinary(rng, 3, 1)
        for point in run.points:
            point[0] += shift
        yield run
    run = ordinary(rng, 64, 1)
    for i, point in enumerate(run.points):
        point[0] = 100 * (64 - i)
    yield run
    run = run.copy()
    run.points[0][0] += 1
    yield run
