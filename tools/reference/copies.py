"""Overlap fields of one replica at two times, and of the four copies of two states: quenched_states/specs/Copies.antt."""
from collections import namedtuple

from reference.planes import site_overlap


def copy_of(slot, a):
    return slot.first if a == 0 else slot.second


def two_time_field(earlier, later, a):
    return site_overlap(copy_of(earlier, a).spins, copy_of(later, a).spins)


def copy_among(first, second, a):
    """Copies 0 and 1 are those of the first slot, 2 and 3 those of the second."""
    return copy_of(first, a) if a < 2 else copy_of(second, a - 2)


# Two of the four copies.
CopyPair = namedtuple("CopyPair", "one other")


def pair_of(a, b):
    return CopyPair(a, b)


copy_pairs = tuple(pair_of(a, b) for a in range(4) for b in range(a + 1, 4))


def pair_field(first, second, pair):
    return site_overlap(copy_among(first, second, pair.one).spins, copy_among(first, second, pair.other).spins)


def turned(a):
    """The number that a copy has where the two states change places."""
    return (a + 2) % 4
