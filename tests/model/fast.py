# A second, faster path for the ranges in plain whole numbers, for long storms
# only. It has the names of ranges.py and forcing.py that the march calls;
# selftest.py compares it with them on many random cases. Least of the floors
# and greatest of the ceilings are those of the least and greatest fraction; a
# floor of the lesser of two is the lesser of their floors.

from .forcing import limiting_speed


def outward_div(low, high, divisor):
    return low // divisor, -(-high // divisor)


def depth_range(depths, level, deficits, setup):
    known = 500 * depths + 100 * level + 57 * deficits
    return outward_div(known + setup[0], known + setup[1], 100)


def force_range(seconds, old_sum, new_sum):
    value = seconds * (old_sum + new_sum) * 121
    return outward_div(value, value, 22_500_000_000_000)


def held_range(speed, v, force, drag, depth):
    """Where v + F is not negative the held flux is the lesser of two that do not fall
    with the depth, else the greater of two that do not rise: that tells its depth."""
    v_low, v_high = v
    f_low, f_high = force
    shallow = 100 * depth[0] * depth[0]
    deep = 100 * depth[1] * depth[1]
    least_limit = speed * depth[0] // 1000
    greatest_limit = -(-speed * depth[1] // 1000)
    lows = []
    highs = []
    for a in {v_low, v_high, 0} if v_low < 0 < v_high else {v_low, v_high}:
        resistance = drag * abs(a)
        least = a + f_low
        if least >= 0:
            lows.append(min(least_limit, least * shallow // (shallow + resistance)))
        else:
            lows.append(max(-greatest_limit, least * deep // (deep + resistance)))
        greatest = a + f_high
        if greatest >= 0:
            highs.append(min(greatest_limit, -(-greatest * deep // (deep + resistance))))
        else:
            highs.append(max(-least_limit, -(-greatest * shallow // (shallow + resistance))))
    return min(lows), max(highs)


def flux_range(*given):
    """The step before the limit: no flux comes near what this speed allows."""
    return held_range(10**9, *given)


def gain_range(length, sine, v, onshore, depth):
    stress = 2_030 * onshore
    least = length * (2_748_816 * sine * v[0] + stress)
    greatest = length * (2_748_816 * sine * v[1] + stress)
    low = least // (10**9 * (depth[1] if least >= 0 else depth[0]))
    high = -(-greatest // (10**9 * (depth[0] if greatest >= 0 else depth[1])))
    return low, high
