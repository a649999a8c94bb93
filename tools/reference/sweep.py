"""Sweeps of one sample: scalar_rule/specs/Sweep.antt."""
from collections import namedtuple

from reference.words import slice_index_or, slice_set, steps
from reference.stream import advanced, draw
from reference.lattice import colour, half_plane, place_in_plane, volume, z_of
from reference.site_rule import new_spin
from reference.sums import aligned, satisfied, spin

Dynamics = namedtuple("Dynamics", "size rule thresholds bonds")
Configuration = namedtuple("Configuration", "spins words")


def site_draw(l, words, i):
    return draw(slice_index_or(words, colour(l, i) * l + z_of(l, i), ()), place_in_plane(l, i))


def visit(d, words, c, i, spins):
    if colour(d.size, i) != c:
        return spins
    updated = new_spin(d.rule, d.thresholds, aligned(d.size, d.bonds, spins, i),
                       satisfied(d.size, d.bonds, spins, i), site_draw(d.size, words, i), spin(spins, i))
    return slice_set(spins, i, updated)


def plane_drawn(l, c, z, words):
    return slice_set(words, c * l + z, advanced(slice_index_or(words, c * l + z, ()), half_plane(l)))


def half_sweep(d, c, s):
    return Configuration(
        tuple(steps(lambda i, spins: visit(d, s.words, c, i, spins), 0, volume(d.size), list(s.spins))),
        steps(lambda z, words: plane_drawn(d.size, c, z, words), 0, d.size, s.words))


def sweep(d, s):
    return half_sweep(d, 1, half_sweep(d, 0, s))


def sweeps(d, n, s):
    return steps(lambda _, t: sweep(d, t), 0, n, s)
