"""Overlap fields, families of planes and their correlations: measured_sums/specs/OverlapField.antt, PlaneFamilies.antt and
PlaneCorrelations.antt. A field is a function from a site's number to +1 or -1."""
from enum import Enum
from functools import lru_cache

from reference.words import monus, steps, table
from reference.lattice import forward, volume, x_of, y_of, z_of
from reference.sums import agree, spin


def site_overlap(first, second):
    return tuple(1 if agree(spin(first, i), spin(second, i)) else -1 for i in range(len(first))).__getitem__


def total_overlap(l, q):
    return sum(q(i) for i in range(volume(l)))


def steps_ahead(l, i, d, r):
    return steps(lambda _, k: forward(l, k, d), 0, r, i)


def distance_correlation(l, q, r):
    return sum(q(i) * q(steps_ahead(l, i, d, r)) for d in range(3) for i in range(volume(l)))


def link_overlap(l, q):
    return distance_correlation(l, q, 1)


class Family(Enum):
    ALONG_X, ALONG_Y, ALONG_Z, SUM_XY, DIFFERENCE_XY, SUM_XZ, DIFFERENCE_XZ, SUM_YZ, DIFFERENCE_YZ = range(9)


axes = (Family.ALONG_X, Family.ALONG_Y, Family.ALONG_Z)
face_diagonals = (Family.SUM_XY, Family.DIFFERENCE_XY, Family.SUM_XZ, Family.DIFFERENCE_XZ, Family.SUM_YZ, Family.DIFFERENCE_YZ)


def plane_at(l, family, x, y, z):
    if family in axes:
        return (x, y, z)[axes.index(family)]
    a, b = ((x, y), (x, z), (y, z))[face_diagonals.index(family) // 2]
    return (a + b) % l if face_diagonals.index(family) % 2 == 0 else monus(a + l, b) % l


@lru_cache(maxsize=None)
def plane_of(l, family, i):
    return plane_at(l, family, x_of(l, i), y_of(l, i), z_of(l, i))


def plane_sum(l, q, family, m):
    return sum(q(i) for i in range(volume(l)) if plane_of(l, family, i) == m)


def plane_correlation(l, q, family, r):
    planes = table(lambda m: plane_sum(l, q, family, m), l)
    return sum(planes[m] * planes[(m + r) % l] for m in range(l))


def over_families(families, number):
    return sum(map(number, families))


def axis_correlation(l, q, r):
    return over_families(axes, lambda family: plane_correlation(l, q, family, r))


def face_correlation(l, q, r):
    return over_families(face_diagonals, lambda family: plane_correlation(l, q, family, r))
