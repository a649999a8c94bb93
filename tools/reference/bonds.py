"""Couplings of a sample, as a function from a bond's number to "J is -1": spin_model/specs/Couplings.antt; and of 64
samples in words: coupling_set/specs/CouplingWords.antt."""
from collections import namedtuple
from functools import lru_cache

from reference.words import is_set, slice_index
from reference.stream import draw
from reference.seeding import coupling_words
from reference.lattice import bond, bond_count, compact, volume


def plus(sample):
    return lambda n: False


def random(seed, sample):
    words = coupling_words(seed, sample)
    return lambda n: is_set(draw(words, n), 31)


CouplingsView = namedtuple("CouplingsView", "size words")


def place_of(l, i, d):
    return d * volume(l) + compact(l, i)


def bond_word(couplings, i, d):
    return slice_index(couplings.words, place_of(couplings.size, i, d))


def bonds_of(couplings, b):
    """As a list, made once: bond n joins site n div 3 to its neighbour in direction n mod 3."""
    return bonds_list(couplings, b).__getitem__


@lru_cache(maxsize=8)
def bonds_list(couplings, b):
    return [is_set(bond_word(couplings, n // 3, n % 3), b) for n in range(bond_count(couplings.size))]


def couplings_view(l, signs):
    """The words that have the bonds signs[b] for each sample b of the dict, and J = +1 elsewhere."""
    words = [0] * bond_count(l)
    for b, bonds in signs.items():
        for i in range(volume(l)):
            for d in range(3):
                if bonds(bond(i, d)):
                    words[place_of(l, i, d)] |= 1 << b
    return CouplingsView(l, tuple(words))


def of_bank(signs, bank):
    """The bonds of a bank's 64 samples by their bits, where `signs` has those of each sample of the whole."""
    return {m: signs(64 * bank + m) for m in range(64)}
