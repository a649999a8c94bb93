"""The bytes of checkpoints: run_checkpoint/specs/Kinds.antt, Encoding.antt and Lengths.antt.

`states` is a function from a sample's number to its state, as in the definitions."""
from collections import namedtuple
from hashlib import sha256

from reference.words import big_bytes, monus, slice_index_or, table, words_32, words_64
from reference.lattice import from_compact, half_plane, half_volume
from reference.sums import spin
from reference.opening import slots_of
from reference.epoch import pair_at, slot_at
from reference.plan_bytes import canonical


def word_of(test, n):
    return sum(1 << k for k in range(n) if test(k))


def site_of(l, c, z, k):
    return from_compact(l, c * half_volume(l) + z * half_plane(l) + k)


def spin_word(spins, site):
    return word_of(lambda b: spin(spins(b), site), 64)


def plane_bytes(l, copies, k):
    sites = table(lambda j: spin_word(lambda b: copies(b).spins, site_of(l, k // l, k % l, j)), half_plane(l))
    return words_32(slice_index_or(copies(0).wheels, k, ())) + words_64(sites)


def replica_bytes(l, copies):
    return bytes(copies(b).replica for b in range(64)) + b"".join(plane_bytes(l, copies, k) for k in range(2 * l))


def slot_bytes(l, slots):
    return replica_bytes(l, lambda b: slots(b).first) + replica_bytes(l, lambda b: slots(b).second)


def pair_bytes(pair):
    return words_32(pair.first) + words_32(pair.second)


def contents(l, n, slots, pairs):
    return (b"".join(slot_bytes(l, lambda b: slot_at(slots(b), t)) for t in range(n))
            + b"".join(pair_bytes(pair_at(pairs, k)) for k in range(n - 1)))


def sealed(stored):
    return stored + sha256(stored).digest()


def position_bytes(p):
    return big_bytes(8, p.epoch) + bytes([2 if p.waits else 0])


def signed_bytes(z):
    return big_bytes(4, z % 2 ** 32)


def record_bytes(r):
    return (signed_bytes(r.first_energy) + signed_bytes(r.second_energy) + signed_bytes(r.overlap)
            + bytes([r.first_replica, r.second_replica]))


Level = namedtuple("Level", "epoch")
Uneven = namedtuple("Uneven", "samples every positions pending")
Standing = (Level, Uneven)
PlainBank = namedtuple("PlainBank", "standing slots pairs")
level_kind = b"GLASSCK1"
uneven_kind = b"GLASSCK2"


def letters(standing):
    return level_kind if isinstance(standing, Level) else uneven_kind


def shape(plan):
    return big_bytes(4, plan.size) + big_bytes(4, slots_of(plan))


def front(plan, standing):
    if isinstance(standing, Level):
        return big_bytes(8, standing.epoch) + shape(plan)
    return (shape(plan) + big_bytes(4, standing.samples) + big_bytes(8, standing.every) + big_bytes(4, len(standing.pending))
            + b"".join(map(position_bytes, standing.positions)))


def kept(standing):
    return b"" if isinstance(standing, Level) else b"".join(map(record_bytes, standing.pending))


def header(plan, standing):
    return letters(standing) + sha256(canonical(plan)).digest() + front(plan, standing)


def bank_encoding(plan, bank):
    return sealed(header(plan, bank.standing) + contents(plan.size, slots_of(plan), bank.slots, bank.pairs) + kept(bank.standing))


def level_bank(states):
    return PlainBank(Level(states(0).epoch), lambda b: states(b).slots, states(0).pairs)


def uneven_bank(samples, every, states, pending):
    return PlainBank(Uneven(samples, every, states(0).positions, pending), lambda b: states(b).slots, states(0).pairs)


def encoding(plan, states):
    return bank_encoding(plan, level_bank(states))


def uneven_encoding(plan, samples, every, states, pending):
    return bank_encoding(plan, uneven_bank(samples, every, states, pending))


generator_len = 244
pair_len = 488
position_len = 9
record_len = 14


def plane_len(l):
    return generator_len + 8 * half_plane(l)


def replica_len(l):
    return 64 + plane_len(l) * (2 * l)


def slot_len(l):
    return 2 * replica_len(l)


def contents_len(l, n):
    return slot_len(l) * n + pair_len * monus(n, 1)


def encoding_len(l, n):
    return 56 + contents_len(l, n) + 32


longest_encoding = encoding_len(64, 32)
longest_checkpoint = 44 + 4 * longest_encoding


def uneven_len(l, n, count):
    return 64 + position_len * n + contents_len(l, n) + record_len * count + 32


def standing_len(plan, standing):
    n = slots_of(plan)
    return encoding_len(plan.size, n) if isinstance(standing, Level) else uneven_len(plan.size, n, len(standing.pending))
