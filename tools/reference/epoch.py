"""One epoch, and many: scalar_rule/specs/Epoch.antt, Serial.antt and Records.antt."""
from functools import lru_cache

from reference.words import monus, slice_index_or, steps, table
from reference.bonds import bonds_of
from reference.sums import energy, overlap
from reference.sweep import Configuration, sweeps
from reference.opening import PlainCopy, PlainPair, PlainSlot, Record, Sample, dynamics_of, pairs_of, slots_of
from reference.exchange import cold_side, drawn_pair, hot_side

NOTHING = PlainCopy((), (), 0)
no_record = Record(0, 0, 0, 0, 0)


def slot_at(slots, t):
    return slice_index_or(slots, t, PlainSlot(NOTHING, NOTHING))


def pair_at(pairs, k):
    return slice_index_or(pairs, k, PlainPair((), ()))


def swept_copy(plan, b, t, copy):
    s = sweeps(dynamics_of(plan, b, t), plan.sweeps, Configuration(copy.spins, copy.wheels))
    return PlainCopy(s.spins, s.words, copy.replica)


@lru_cache(maxsize=256)
def swept_slot(plan, b, t, slot):
    return PlainSlot(swept_copy(plan, b, t, slot.first), swept_copy(plan, b, t, slot.second))


def record_of(plan, b, slot):
    bonds = bonds_of(plan.couplings, b)
    return Record(energy(plan.size, bonds, slot.first.spins), energy(plan.size, bonds, slot.second.spins),
                  overlap(plan.size, slot.first.spins, slot.second.spins), slot.first.replica, slot.second.replica)


def has_turn(k, e):
    return (k + e) % 2 == 0


def has_partner(n, t, e):
    return t + 1 < n if has_turn(t, e) else 0 < t


def pair_of(t, e):
    return t if has_turn(t, e) else monus(t, 1)


def partner(t, e):
    return t + 1 if has_turn(t, e) else monus(t, 1)


def side(plan, b, e, t, pair, own, other):
    if has_turn(t, e):
        return cold_side(plan, b, pair_of(t, e), pair, own, other)
    return hot_side(plan, b, pair_of(t, e), pair, other, own)


def exchanged(plan, b, e, pairs, slots, t):
    if has_partner(slots_of(plan), t, e):
        return side(plan, b, e, t, pair_at(pairs, pair_of(t, e)), slot_at(slots, t), slot_at(slots, partner(t, e)))
    return slot_at(slots, t)


def swept_slots(plan, s):
    return table(lambda t: swept_slot(plan, s.bit, t, slot_at(s.slots, t)), slots_of(plan))


def epoch(plan, s):
    slots = swept_slots(plan, s)
    return Sample(s.bit, s.epoch + 1,
                  table(lambda t: exchanged(plan, s.bit, s.epoch, s.pairs, slots, t), slots_of(plan)),
                  table(lambda k: drawn_pair(pair_at(s.pairs, k)) if has_turn(k, s.epoch)
                        else pair_at(s.pairs, k), pairs_of(plan)))


def epoch_records(plan, s):
    slots = swept_slots(plan, s)
    return table(lambda t: record_of(plan, s.bit, slot_at(slots, t)), slots_of(plan))




def serial(plan, s, e):
    return steps(lambda _, t: epoch(plan, t), s.epoch, monus(e, s.epoch), s)


def is_recorded(every, e):
    return e % every == monus(every, 1)


def record_at(records, j):
    return slice_index_or(records, j, no_record)


def records_at(measured, samples, e):
    return [record for b in range(samples) for record in measured(b, e)]


def in_order(measured, samples, every, c, e):
    return [record for f in range(c, e) if is_recorded(every, f) for record in records_at(measured, samples, f)]


def measured_from(plan, start, b, e):
    return epoch_records(plan, serial(plan, start(b), e))


def records_until(plan, start, samples, every, e):
    return in_order(lambda b, f: measured_from(plan, start, b, f), samples, every, start(0).epoch, e)
