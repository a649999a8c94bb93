"""A run as decisions, each by a draw of its own: run_decisions/specs/Decisions.antt."""
from collections import namedtuple

from reference.words import count_below, slice_index_or, slice_set, table
from reference.stream import draw
from reference.seeding import block_message
from reference.lattice import colour, half_plane, place_in_plane, volume, z_of
from reference.bonds import bonds_of
from reference.site_rule import new_spin
from reference.sums import aligned, satisfied, spin, unsatisfied
from reference.opening import dynamics_of, slots_of
from reference.exchange import is_swapped
from reference.epoch import has_turn, pair_at, slot_at, swept_slots

Update = namedtuple("Update", "place sweep site")
Exchange = namedtuple("Exchange", "place turn")
Decision = (Update, Exchange)
SweepGenerator = namedtuple("SweepGenerator", "place colour plane")
ExchangeGenerator = namedtuple("ExchangeGenerator", "place")
Generator = (SweepGenerator, ExchangeGenerator)
Address = namedtuple("Address", "generator number")
Label = namedtuple("Label", "kind part_a part_b part_c")


def places_of(plan):
    return 2 * slots_of(plan)


def replica_of(plan, place):
    return 0 if place < slots_of(plan) else 1


def slot_of(plan, place):
    return place - replica_of(plan, place) * slots_of(plan)


def copy_in(plan, slots, place):
    return slot_at(slots, slot_of(plan, place))[replica_of(plan, place)]


def copy_at(plan, s, place):
    return copy_in(plan, s.slots, place)


def state_of(plan, s):
    return table(lambda place: copy_at(plan, s, place).spins, places_of(plan))


def swept_state(plan, s):
    slots = swept_slots(plan, s)
    return table(lambda place: copy_in(plan, slots, place).spins, places_of(plan))


def spins_at(state, place):
    return slice_index_or(state, place, ())


def updated_by(d, spins, i, u):
    """What a visit of site i by draw u leaves."""
    return slice_set(spins, i, new_spin(d.rule, d.thresholds, aligned(d.size, d.bonds, spins, i),
                                        satisfied(d.size, d.bonds, spins, i), u, spin(spins, i)))


def decide(plan, b, decision, u, state):
    place = decision.place
    own = spins_at(state, place)
    if isinstance(decision, Update):
        return slice_set(state, place, updated_by(dynamics_of(plan, b, slot_of(plan, place)), own, decision.site, u))
    other, bonds = spins_at(state, place + 1), bonds_of(plan.couplings, b)
    entries = slice_index_or(plan.swaps, slot_of(plan, place), ())
    if is_swapped(entries, u, unsatisfied(plan.size, bonds, own), unsatisfied(plan.size, bonds, other)):
        return slice_set(slice_set(state, place, other), place + 1, own)
    return state


def address_of(plan, b, decision):
    if isinstance(decision, Exchange):
        return Address(ExchangeGenerator(decision.place), decision.turn * 64 + b)
    l, i = plan.size, decision.site
    return Address(SweepGenerator(decision.place, colour(l, i), z_of(l, i)),
                   decision.sweep * half_plane(l) + place_in_plane(l, i))


def words_of(plan, s, generator):
    if isinstance(generator, ExchangeGenerator):
        return pair_at(s.pairs, slot_of(plan, generator.place))[replica_of(plan, generator.place)]
    return slice_index_or(copy_at(plan, s, generator.place).wheels, generator.colour * plan.size + generator.plane, ())


def draw_at(plan, s, address):
    return draw(words_of(plan, s, address.generator), address.number)


def sites_of(l, c):
    return [i for i in range(volume(l)) if colour(l, i) == c]


def sweep_decisions(plan, place, j):
    return [Update(place, j, i) for c in (0, 1) for i in sites_of(plan.size, c)]


def sweeps_decisions(plan, first, n, place):
    return [d for j in range(n) for d in sweep_decisions(plan, place, first + j)]


def exchanges(plan, e, place):
    return has_turn(slot_of(plan, place), e) and slot_of(plan, place) + 1 < slots_of(plan)


def turns_of(plan, start, n, place):
    return count_below(lambda k: has_turn(slot_of(plan, place), start + k), n)


def epoch_sweeps(plan, k):
    return [d for place in range(places_of(plan)) for d in sweeps_decisions(plan, k * plan.sweeps, plan.sweeps, place)]


def epoch_decisions(plan, start, k):
    return epoch_sweeps(plan, k) + [Exchange(place, turns_of(plan, start, k, place))
                                    for place in range(places_of(plan)) if exchanges(plan, start + k, place)]


def run_decisions(plan, start, n):
    return [d for k in range(n) for d in epoch_decisions(plan, start, k)]


def measured_decisions(plan, start, n):
    return run_decisions(plan, start, n) + epoch_sweeps(plan, n)


def drawn(plan, s, decisions):
    return [draw_at(plan, s, address_of(plan, s.bit, d)) for d in decisions]


def label_of(plan, bank, generator):
    place = generator.place
    if isinstance(generator, SweepGenerator):
        return Label(1, slot_of(plan, place), 2 * replica_of(plan, place) + generator.colour, generator.plane)
    return Label(2, slot_of(plan, place), replica_of(plan, place), bank)


def message_of(plan, bank, generator, j):
    return block_message(plan.seed, *label_of(plan, bank, generator), j)
