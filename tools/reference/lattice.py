"""Sites, neighbours, colours and compact order: spin_model/specs/Lattice.antt."""
from functools import lru_cache

from reference.words import monus


def is_lawful_size(l):
    return 4 <= l <= 64 and l % 2 == 0


def volume(l):
    return l * l * l


def site_at(l, x, y, z):
    return x + l * y + l * l * z


def x_of(l, i):
    return i % l


def y_of(l, i):
    return i // l % l


def z_of(l, i):
    return i // (l * l)


def next_(l, x):
    return (x + 1) % l


def previous(l, x):
    return monus(x + l, 1) % l


@lru_cache(maxsize=None)
def forward(l, i, d):
    x, y, z = x_of(l, i), y_of(l, i), z_of(l, i)
    if d == 0:
        return site_at(l, next_(l, x), y, z)
    if d == 1:
        return site_at(l, x, next_(l, y), z)
    return site_at(l, x, y, next_(l, z))


@lru_cache(maxsize=None)
def backward(l, i, d):
    x, y, z = x_of(l, i), y_of(l, i), z_of(l, i)
    if d == 0:
        return site_at(l, previous(l, x), y, z)
    if d == 1:
        return site_at(l, x, previous(l, y), z)
    return site_at(l, x, y, previous(l, z))


def bond(i, d):
    return 3 * i + d


def bond_count(l):
    return 3 * volume(l)


@lru_cache(maxsize=None)
def colour(l, i):
    return (x_of(l, i) + y_of(l, i) + z_of(l, i)) % 2


def half_plane(l):
    return l * (l // 2)


def half_volume(l):
    return l * half_plane(l)


@lru_cache(maxsize=None)
def place_in_plane(l, i):
    return y_of(l, i) * (l // 2) + x_of(l, i) // 2


def compact(l, i):
    return colour(l, i) * half_volume(l) + z_of(l, i) * half_plane(l) + place_in_plane(l, i)


def from_compact(l, place):
    c = place // half_volume(l)
    z = place % half_volume(l) // half_plane(l)
    y = place % half_plane(l) // (l // 2)
    x = 2 * (place % (l // 2)) + (c + y + z) % 2
    return site_at(l, x, y, z)
