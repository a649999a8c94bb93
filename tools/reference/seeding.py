"""Seeded words: spin_model/specs/Seeding.antt."""
import hashlib
from functools import lru_cache

from reference.words import big_bytes, table


def block_message(seed, kind, a, b, c, j):
    return (big_bytes(8, seed) + big_bytes(4, kind) + big_bytes(4, a) + big_bytes(4, b)
            + big_bytes(4, c) + big_bytes(4, j))


def digest_words(digest):
    return table(lambda n: int.from_bytes(digest[4 * n:4 * n + 4], "big"), 8)


@lru_cache(maxsize=None)
def seeded(seed, kind, a, b, c):
    words = ()
    for j in range(8):
        words += digest_words(hashlib.sha256(block_message(seed, kind, a, b, c, j)).digest())
    return words[:61]


def sweep_words(seed, slot, replica, colour, z):
    return seeded(seed, 1, slot, 2 * replica + colour, z)


def exchange_words(seed, pair, replica, bank):
    return seeded(seed, 2, pair, replica, bank)


def coupling_words(seed, sample):
    return seeded(seed, 3, sample, 0, 0)


def start_words(seed, slot, replica, bank):
    return seeded(seed, 4, slot, replica, bank)
