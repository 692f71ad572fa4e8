# The exact march of document 01: fractions, never rounded; its flux is held by
# the limit of document 02, request Q-6, "in the exact march alike". It is fed the
# traverse, the records and whether each was accepted, and nothing else.
# Fractions grow without bound: keep to few segments and few records.

from collections import namedtuple
from fractions import Fraction

from . import forcing, ranges
from .sine import sine

# v and setup after each segment, the depth it met, and the shore height.
Exact = namedtuple("Exact", "flux setup depth height")


class ExactMarch:
    def __init__(self, traverse):
        self.traverse = traverse
        segments = len(traverse.points) - 1
        self.flux = [Fraction(0)] * segments
        self.sums = [0] * segments
        self.first_accepted = False

    def take(self, record, accepted):
        """The exact numbers of an accepted record; None for a refused one."""
        if not accepted:
            return None
        traverse = self.traverse
        setup = Fraction(0)
        flux, sums, setups, met = [], [], [], []
        for i in range(len(traverse.points) - 1):
            (outer, outer_depth), (inner, inner_depth) = traverse.points[i : i + 2]
            ends = record.points[i : i + 2]
            depth = ranges.depth_value(
                outer_depth + inner_depth,
                traverse.initial + record.tide,
                ends[0][2] + ends[1][2],
                setup,
            )
            total = sum(forcing.cross(wind, angle) for wind, angle, _ in ends)
            v = self.flux[i]
            if self.first_accepted:
                force = forcing.force(record.seconds, self.sums[i], total)
                drag = traverse.friction * record.seconds
                speed = forcing.limiting_speed(traverse.friction, total)
                v = ranges.held_value(speed, v, force, drag, depth)
            onshore = sum(forcing.onshore(wind, angle) for wind, angle, _ in ends)
            setup += ranges.gain_value(
                outer - inner, sine(traverse.latitude), v, onshore, depth
            )
            flux.append(v)
            sums.append(total)
            setups.append(setup)
            met.append(depth)
        self.flux, self.sums, self.first_accepted = flux, sums, True
        rise = 100 * (traverse.initial + record.tide) + 114 * record.points[-1][2]
        return Exact(flux, setups, met, setup + rise)
