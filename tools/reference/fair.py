"""Means in equilibrium and after decisions: fair_runs/specs/Equilibrium.antt and Places.antt, over model_laws/specs/Weights.antt. The number
of equally likely draws is a parameter, 2^32 in the definitions."""
from math import prod

from reference.lattice import bond_count, volume
from reference.bonds import bonds_of
from reference.sums import unsatisfied
from reference.chance import after, over_spin, sum_lists, sum_to
from reference.decisions import Exchange, decide, places_of, slot_of, spins_at


def weight(a, b, l, bonds, spins):
    pairs = unsatisfied(l, bonds, spins) // 2
    return a ** pairs * b ** (bond_count(l) - pairs)


def over_configurations(v, f):
    return sum_lists(over_spin, v, f)


def over_states(plan, f):
    return sum_lists(lambda each: over_configurations(volume(plan.size), each), places_of(plan), f)


def product_to(n, factor):
    return prod(factor(k) for k in range(n))


def state_weight(n, weights, state):
    return product_to(n, lambda place: weights(place, spins_at(state, place)))


def boltzmann(a, b, plan, bit, state):
    """a(t) / b(t) is exp(-4 beta) of slot t."""
    bonds = bonds_of(plan.couplings, bit)
    return state_weight(places_of(plan), lambda place, spins: weight(
        a(slot_of(plan, place)), b(slot_of(plan, place)), plan.size, bonds, spins), state)


def partition(a, b, plan, bit):
    return over_states(plan, lambda x: boltzmann(a, b, plan, bit, x))


def total(a, b, plan, bit, g):
    return over_states(plan, lambda x: boltzmann(a, b, plan, bit, x) * g(x))


def over_draws(k, f, draws=2 ** 32):
    return sum_lists(lambda term: sum_to(draws, term), k, f)


def total_after(a, b, plan, bit, decisions, g, draws=2 ** 32):
    def act(decision, u, x):
        return decide(plan, bit, decision, u, x)
    return over_states(plan, lambda x: boltzmann(a, b, plan, bit, x) * over_draws(
        len(decisions), lambda us: g(after(act, decisions, us, x)), draws))


def first_place(decision):
    return decision.place


def last_place(decision):
    return decision.place + 1 if isinstance(decision, Exchange) else decision.place


def count_about(chosen, decisions):
    return sum(chosen(first_place(decision)) for decision in decisions)
