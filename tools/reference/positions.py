"""Positions of slots at epochs of their own, and the records kept ahead: scalar_rule/specs/Positions.antt."""
from reference.words import count_below, one_if, slice_index_or, table
from reference.opening import Record, slots_of
from reference.epoch import in_order, is_recorded, record_of
from reference.uneven import Position, arrived, position_at, ready


def least(f, n):
    return min(f(k) for k in range(max(n, 1)))


def greatest(f, n):
    return max(f(k) for k in range(max(n, 1)))


def done(p):
    return p.epoch + one_if(p.waits)


def content(plan, s, t, e, waits):
    return arrived(plan, s, e, t) if waits else ready(plan, s, e, t)


def position_in(ps, t):
    return slice_index_or(ps, t, Position(0, False))


def floor_of(ps):
    return least(lambda t: done(position_in(ps, t)), len(ps))


def deepest_of(ps):
    return greatest(lambda t: done(position_in(ps, t)), len(ps))


def cell_number(c, samples, n, f, b, t):
    return ((f - c) * samples + b) * n + t


def cell_epoch(c, samples, n, i):
    return c + i // n // samples


def is_pending(past, c, samples, every, n, i):
    return is_recorded(every, cell_epoch(c, samples, n, i)) and cell_epoch(c, samples, n, i) < past(i % n)


def pending_before(samples, every, ps, i):
    return count_below(lambda j: is_pending(lambda t: done(position_in(ps, t)), floor_of(ps), samples, every, len(ps), j), i)


def pending_count(samples, every, ps):
    return pending_before(samples, every, ps, (deepest_of(ps) - floor_of(ps)) * samples * len(ps))


def pending_record(samples, every, ps, pending, b, f, t):
    place = cell_number(floor_of(ps), samples, len(ps), f, b, t)
    return slice_index_or(pending, pending_before(samples, every, ps, place), Record(0, 0, 0, 0, 0))


def uneven_record(plan, states, pending, samples, every, b, f, t):
    if f < done(position_at(states(0), t)):
        return pending_record(samples, every, states(0).positions, pending, b, f, t)
    return record_of(plan, b, arrived(plan, states(b), f, t))


def uneven_records(plan, states, pending, samples, every, e):
    return in_order(lambda b, f: table(lambda t: uneven_record(plan, states, pending, samples, every, b, f, t), slots_of(plan)),
                    samples, every, floor_of(states(0).positions), e)
