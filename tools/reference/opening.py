"""Plan and opening states: scalar_rule/specs/Plan.antt, Opening.antt and PlainRun.antt."""
from collections import namedtuple

from reference.words import is_set, monus, slice_index_or, table
from reference.stream import draw
from reference.seeding import exchange_words, start_words, sweep_words
from reference.lattice import volume
from reference.bonds import bonds_of, plus
from reference.sweep import Configuration, Dynamics, sweeps

Plan = namedtuple("Plan", "size rule rows swaps couplings sweeps seed")
PlainCopy = namedtuple("PlainCopy", "spins wheels replica")
PlainSlot = namedtuple("PlainSlot", "first second")
PlainPair = namedtuple("PlainPair", "first second")
Sample = namedtuple("Sample", "bit epoch slots pairs")
Record = namedtuple("Record", "first_energy second_energy overlap first_replica second_replica")


def slots_of(plan):
    return len(plan.rows)


def pairs_of(plan):
    return monus(slots_of(plan), 1)


def dynamics_of(plan, b, slot):
    return Dynamics(plan.size, plan.rule, slice_index_or(plan.rows, slot, ()), bonds_of(plan.couplings, b))


def all_up(l):
    return (True,) * volume(l)


def random_spins(l, words, b):
    return table(lambda i: is_set(draw(words, 2 * i + b // 32), b % 32), volume(l))


def seeded_words(l, seed, slot, replica):
    return table(lambda k: sweep_words(seed, slot, replica, k // l, k % l), 2 * l)


def start_spins(plan, start, bank, b, slot, replica):
    if start == "up":
        return all_up(plan.size)
    return random_spins(plan.size, start_words(plan.seed, slot, replica, bank), b)


def opening_copy(plan, start, bank, b, slot, replica):
    return PlainCopy(start_spins(plan, start, bank, b, slot, replica),
                     seeded_words(plan.size, plan.seed, slot, replica), slot)


def opening_slot(plan, start, bank, b, slot):
    return PlainSlot(opening_copy(plan, start, bank, b, slot, 0), opening_copy(plan, start, bank, b, slot, 1))


def opening_pair(plan, bank, pair):
    return PlainPair(exchange_words(plan.seed, pair, 0, bank), exchange_words(plan.seed, pair, 1, bank))


def opening(plan, start, bank, b):
    return Sample(b, 0, table(lambda t: opening_slot(plan, start, bank, b, t), slots_of(plan)),
                  table(lambda k: opening_pair(plan, bank, k), pairs_of(plan)))


def plain_configuration(l, count, seed, thresholds):
    return sweeps(Dynamics(l, "heat", thresholds, plus(0)), count,
                  Configuration(all_up(l), seeded_words(l, seed, 0, 0)))
