"""The exchange of two slots: scalar_rule/specs/Exchange.antt."""
from reference.words import monus, slice_index, slice_index_or
from reference.stream import advanced, draw
from reference.bonds import bonds_of
from reference.sums import unsatisfied
from reference.opening import PlainCopy, PlainPair, PlainSlot


def is_swapped(entries, draw_, cold, hot):
    return hot <= cold or draw_ < slice_index(entries, monus(monus(hot, cold), 1) // 2)


def decision(plan, b, k, words, cold, hot):
    bonds = bonds_of(plan.couplings, b)
    return is_swapped(slice_index_or(plan.swaps, k, ()), draw(words, b),
                      unsatisfied(plan.size, bonds, cold.spins), unsatisfied(plan.size, bonds, hot.spins))


def traded(swap, own, other):
    return PlainCopy(other.spins, own.wheels, other.replica) if swap else own


def cold_side(plan, b, k, pair, cold, hot):
    return PlainSlot(traded(decision(plan, b, k, pair.first, cold.first, hot.first), cold.first, hot.first),
                     traded(decision(plan, b, k, pair.second, cold.second, hot.second), cold.second, hot.second))


def hot_side(plan, b, k, pair, cold, hot):
    return PlainSlot(traded(decision(plan, b, k, pair.first, cold.first, hot.first), hot.first, cold.first),
                     traded(decision(plan, b, k, pair.second, cold.second, hot.second), hot.second, cold.second))


def drawn_pair(pair):
    return PlainPair(advanced(pair.first, 64), advanced(pair.second, 64))
