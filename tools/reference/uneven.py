"""Slots at epochs of their own: scalar_rule/specs/Ragged.antt."""
from collections import namedtuple

from reference.words import slice_index_or, table
from reference.opening import Sample, pairs_of, slots_of
from reference.exchange import drawn_pair
from reference.epoch import has_partner, has_turn, pair_at, pair_of, partner, side, slot_at, swept_slot

Position = namedtuple("Position", "epoch waits")
UnevenState = namedtuple("UnevenState", "bit positions slots pairs")


def position_at(s, t):
    return slice_index_or(s.positions, t, Position(0, False))


def generators(plan, s, k, e):
    if e == 0:
        return pair_at(s.pairs, k)
    rest = generators(plan, s, k, e - 1)
    return drawn_pair(rest) if has_turn(k, e - 1) and position_at(s, k).epoch <= e - 1 else rest


def waiting_from(plan, s, e, t, rest):
    """`rest` is a function without arguments, so that only what is asked for is computed."""
    if position_at(s, t).waits and position_at(s, t).epoch == e:
        return slot_at(s.slots, t)
    return swept_slot(plan, s.bit, t, rest())


def ready(plan, s, e, t):
    if e == 0:
        return slot_at(s.slots, t)
    e -= 1
    if not position_at(s, t).waits and position_at(s, t).epoch == e + 1:
        return slot_at(s.slots, t)
    own = waiting_from(plan, s, e, t, lambda: ready(plan, s, e, t))
    if has_partner(slots_of(plan), t, e):
        p = partner(t, e)
        return side(plan, s.bit, e, t, generators(plan, s, pair_of(t, e), e), own,
                    waiting_from(plan, s, e, p, lambda: ready(plan, s, e, p)))
    return own


def arrived(plan, s, e, t):
    return waiting_from(plan, s, e, t, lambda: ready(plan, s, e, t))


def all_ready(plan, s, e):
    """The state with every slot at rest at epoch e."""
    return Sample(s.bit, e, table(lambda t: ready(plan, s, e, t), slots_of(plan)),
                  table(lambda k: generators(plan, s, k, e), pairs_of(plan)))
