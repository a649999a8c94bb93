"""Neighbours, energy and overlap: scalar_rule/specs/Neighbours.antt and Sums.antt."""
from functools import lru_cache

from reference.words import count_below, one_if, slice_index_or
from reference.lattice import backward, bond, bond_count, forward, volume


def spin(spins, i):
    return slice_index_or(spins, i, False)


def coupled(negative, s):
    return not s if negative else s


def agree(a, b):
    return b if a else not b


@lru_cache(maxsize=None)
def neighbours(l, i):
    ahead = [(forward(l, i, d), bond(i, d)) for d in range(3)]
    behind = [(backward(l, i, d), bond(backward(l, i, d), d)) for d in range(3)]
    return ahead + behind


def pull(bonds, spins, n):
    return coupled(bonds(n[1]), spin(spins, n[0]))


def aligned(l, bonds, spins, i):
    return sum(one_if(pull(bonds, spins, n)) for n in neighbours(l, i))


def satisfied(l, bonds, spins, i):
    return sum(one_if(agree(pull(bonds, spins, n), spin(spins, i))) for n in neighbours(l, i))


def is_unsatisfied(l, bonds, spins, n):
    return not agree(coupled(bonds(n), spin(spins, forward(l, n // 3, n % 3))), spin(spins, n // 3))


def unsatisfied(l, bonds, spins):
    return count_below(lambda n: is_unsatisfied(l, bonds, spins, n), bond_count(l))


def energy(l, bonds, spins):
    return 2 * unsatisfied(l, bonds, spins) - bond_count(l)


def agreeing(l, a, b):
    return count_below(lambda i: agree(spin(a, i), spin(b, i)), volume(l))


def overlap(l, a, b):
    return 2 * agreeing(l, a, b) - volume(l)
