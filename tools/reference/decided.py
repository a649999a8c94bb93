#!/usr/bin/env python3
"""Runs as decisions, computed: the laws of the crate run_decisions at small runs, held to the program on a grid too.

    python3 tools/reference/decided.py              the laws at several small runs
    python3 tools/reference/decided.py --self-test  also sixteen wrong definitions of the dynamics, each put in place of the
                                                    right one, and the laws that are then false of a run

Some seconds. Status 1 where a law is false of a run, or where a wrong definition breaks no law."""
import random as rng
import sys
from itertools import combinations
from pathlib import Path

sys.path.insert(0, str(Path(__file__).resolve().parents[1]))
sys.dont_write_bytecode = True
from reference import decisions as listed, epoch, exchange, opening, sweep  # noqa: E402
from reference.bonds import bonds_of, couplings_view, random  # noqa: E402
from reference.chance import after  # noqa: E402
from reference.decisions import ExchangeGenerator, SweepGenerator, Update  # noqa: E402
from reference.epoch import epoch_records, serial  # noqa: E402
from reference.grid import Tempering  # noqa: E402
from reference.lattice import volume  # noqa: E402
from reference.opening import Plan, PlainCopy, PlainPair, PlainSlot, Sample, dynamics_of  # noqa: E402
from reference.seeding import seeded  # noqa: E402
from reference.stream import advanced, draw  # noqa: E402
from reference.sums import energy, overlap  # noqa: E402
from reference.words import slice_index_or, slice_set, steps, table  # noqa: E402

FULL = 2 ** 32


class Case:
    """A run of one sample: its plan and its opening state by the definitions, and the same on the grid."""

    def __init__(self, name, rule, slots, sample, sweeps, epochs, size=4):
        source = rng.Random(name)
        width = 7 if rule == "heat" else 3
        rows = tuple(tuple(sorted((source.randrange(FULL) for _ in range(width)), reverse=rule != "heat")) for _ in range(slots))
        swaps = tuple(tuple(source.randrange(FULL) for _ in range(40)) for _ in range(slots - 1))
        self.name, self.bank, self.bit, self.epochs = name, sample // 64, sample % 64, epochs
        seed = source.randrange(2 ** 63)
        self.plan = Plan(size, rule, rows, swaps, couplings_view(size, {self.bit: random(seed, sample)}), sweeps, seed)
        self.opened = opening.opening(self.plan, "random", self.bank, self.bit)
        self.own = Tempering(size, rule, rows, swaps, sweeps, seed, sample, "random", self.bit, self.bank)


CASES = (("heat bath, three slots, two sweeps", "heat", 3, 5, 2, 3), ("Metropolis, three slots", "metropolis", 3, 100, 1, 3),
         ("heat bath, one slot", "heat", 1, 63, 1, 2), ("Metropolis, two slots, three sweeps", "metropolis", 2, 201, 3, 2),
         ("heat bath, size 6", "heat", 2, 17, 1, 2, 6))


# ---------------------------------------------------------------- the laws


def made(case, s, decided):
    """What the decisions make of the spins of s, each by the draw at its address."""
    return after(lambda d, u, x: listed.decide(case.plan, case.bit, d, u, x), decided,
                 listed.drawn(case.plan, s, decided), listed.state_of(case.plan, s))


def starts(case):
    """The opening state, with all epochs to come, and that after one epoch, with the others."""
    yield case.opened, case.epochs
    yield serial(case.plan, case.opened, 1), case.epochs - 1


def runs_are_decisions(case):
    return all(listed.state_of(case.plan, serial(case.plan, s, s.epoch + n))
               == made(case, s, listed.run_decisions(case.plan, s.epoch, n)) for s, n in starts(case))


def swept_states_are_decisions(case):
    return all(listed.swept_state(case.plan, serial(case.plan, s, s.epoch + n))
               == made(case, s, listed.measured_decisions(case.plan, s.epoch, n)) for s, n in starts(case))


def records_are_of_swept_states(case):
    plan, bonds, slots = case.plan, bonds_of(case.plan.couplings, case.bit), len(case.plan.rows)
    state = listed.swept_state(plan, case.opened)
    wanted = [(energy(plan.size, bonds, state[t]), energy(plan.size, bonds, state[slots + t]),
               overlap(plan.size, state[t], state[slots + t])) for t in range(slots)]
    return [tuple(record[:3]) for record in epoch_records(plan, case.opened)] == wanted


def draws_are_own(case):
    decided = listed.measured_decisions(case.plan, 0, case.epochs)
    addresses = [listed.address_of(case.plan, case.bit, d) for d in decided]
    return len(set(addresses)) == len(addresses)


def decisions_are_lawful(case):
    plan, slots = case.plan, len(case.plan.rows)
    return all(0 <= d.site < volume(plan.size) and d.place < 2 * slots if isinstance(d, Update)
               else d.place % slots + 1 < slots and d.place < 2 * slots
               for d in listed.measured_decisions(plan, 0, case.epochs))


def sweeps_visit_each_once(case):
    return sorted(d.site for d in listed.sweep_decisions(case.plan, 0, 0)) == list(range(volume(case.plan.size)))


def turns_alternate(case):
    slots = len(case.plan.rows)
    return all(listed.exchanges(case.plan, e, p) != listed.exchanges(case.plan, e + 1, p)
               for e in range(4) for p in range(2 * slots) if p % slots + 1 < slots)


def decisions_are_counted(case):
    plan, n = case.plan, case.epochs
    return len(listed.run_decisions(plan, 0, n)) <= n * 2 * len(plan.rows) * (plan.sweeps * volume(plan.size) + 1)


def generators_of(plan):
    slots = len(plan.rows)
    sweeping = [SweepGenerator(p, c, z) for p in range(2 * slots) for c in range(2) for z in range(plan.size)]
    return sweeping + [ExchangeGenerator(p) for p in range(2 * slots) if p % slots + 1 < slots]


def generators_are_labelled(case):
    return all(listed.words_of(case.plan, case.opened, it) == seeded(case.plan.seed, *listed.label_of(case.plan, case.bank, it))
               for it in generators_of(case.plan))


def labels_are_own(case):
    labels = [listed.label_of(case.plan, case.bank, it) for it in generators_of(case.plan)]
    return all(one != other for one, other in combinations(labels, 2))


def sweeps_alone_are_decisions(case):
    plan, n = case.plan, 2
    for place in range(2 * len(plan.rows)):
        decided = listed.sweeps_decisions(plan, 0, n, place)
        copy = listed.copy_at(plan, case.opened, place)
        swept = sweep.sweeps(dynamics_of(plan, case.bit, listed.slot_of(plan, place)), n, sweep.Configuration(copy.spins, copy.wheels))
        if tuple(swept.spins) != listed.spins_at(made(case, case.opened, decided), place):
            return False
    return True


def messages_are_own(case):
    messages = [listed.message_of(case.plan, case.bank, it, j) for it in generators_of(case.plan) for j in range(8)]
    return len(set(messages)) == len(messages)


LAWS = (runs_are_decisions, swept_states_are_decisions, records_are_of_swept_states, draws_are_own, decisions_are_lawful,
        sweeps_visit_each_once, turns_alternate, decisions_are_counted, generators_are_labelled, labels_are_own,
        messages_are_own, sweeps_alone_are_decisions)


def broken(case):
    """The laws that are false of a run."""
    return [law.__name__ for law in LAWS if not law(case)]


def grid_agrees(case):
    """Whether the decisions make of the opening what the program on a grid comes to, epoch by epoch."""
    for n in range(1, case.epochs + 1):
        case.own.step()
        if made(case, case.opened, listed.run_decisions(case.plan, 0, n)) != listed.state_of(case.plan, case.own.state()):
            return False
    return True


# ---------------------------------------------------------------- wrong definitions


def site_drawn(c_of, number_of):
    """The draw of a site by a generator of another colour, or by another number."""
    def site_draw(l, words, i):
        return draw(slice_index_or(words, c_of(sweep.colour(l, i)) * l + sweep.z_of(l, i), ()), number_of(l, i))
    return site_draw


def plane_moved(numbers):
    """The words of a plane after so many numbers in place of half a plane."""
    return lambda l, c, z, words: slice_set(words, c * l + z, advanced(slice_index_or(words, c * l + z, ()), numbers(l)))


def decided_by(pair, number):
    """A decision by the record of another pair, or by another number of the words."""
    def decision(plan, b, k, words, cold, hot):
        bonds = bonds_of(plan.couplings, b)
        return exchange.is_swapped(slice_index_or(plan.swaps, pair(k), ()), draw(words, number(b)),
                                   exchange.unsatisfied(plan.size, bonds, cold.spins),
                                   exchange.unsatisfied(plan.size, bonds, hot.spins))
    return decision


def one_side(of_hot):
    """A side of an exchange whose second replica goes by the first one's words."""
    def side(plan, b, k, pair, cold, hot):
        def copy(one, other):
            swap = exchange.decision(plan, b, k, pair.first, one, other)
            return exchange.traded(swap, other, one) if of_hot else exchange.traded(swap, one, other)
        return PlainSlot(copy(cold.first, hot.first), copy(cold.second, hot.second))
    return side


def without_sweeps(plan, s):
    """An epoch whose exchange takes the spins from before the sweeps, with the words from after them."""
    slots = table(lambda t: PlainSlot(*[PlainCopy(old.spins, new.wheels, old.replica) for old, new in zip(
        epoch.slot_at(s.slots, t), epoch.slot_at(epoch.swept_slots(plan, s), t))]), len(plan.rows))
    return Sample(s.bit, s.epoch + 1,
                  table(lambda t: epoch.exchanged(plan, s.bit, s.epoch, s.pairs, slots, t), len(plan.rows)),
                  table(lambda k: exchange.drawn_pair(epoch.pair_at(s.pairs, k)) if epoch.has_turn(k, s.epoch)
                        else epoch.pair_at(s.pairs, k), len(plan.rows) - 1))


def by_slot_0(plan, b, t, copy):
    s = sweep.sweeps(dynamics_of(plan, b, 0), plan.sweeps, sweep.Configuration(copy.spins, copy.wheels))
    return PlainCopy(s.spins, s.words, copy.replica)


RUNS, TURNS = "runs_are_decisions", "turns_alternate"
# What is wrong, the definitions that are replaced, and a law that must then be false.
WRONG = (
    ("colour 0 twice", [(sweep, "sweep", lambda d, s: sweep.half_sweep(d, 0, sweep.half_sweep(d, 0, s)))], RUNS),
    ("colour 1 first", [(sweep, "sweep", lambda d, s: sweep.half_sweep(d, 0, sweep.half_sweep(d, 1, s)))], RUNS),
    ("each site by number 0", [(sweep, "site_draw", site_drawn(lambda c: c, lambda l, i: 0))], RUNS),
    ("words never advance", [(sweep, "plane_drawn", plane_moved(lambda l: 0))], RUNS),
    ("words advance by one too many", [(sweep, "plane_drawn", plane_moved(lambda l: sweep.half_plane(l) + 1))], RUNS),
    ("one sweep too few", [(epoch, "sweeps", lambda d, n, s: steps(lambda _, t: sweep.sweep(d, t), 0, n - 1, s))], RUNS),
    ("the generator of the other colour", [(sweep, "site_draw", site_drawn(lambda c: 1 - c, sweep.place_in_plane))], RUNS),
    ("every slot by the thresholds of slot 0", [(epoch, "swept_copy", by_slot_0)], RUNS),
    ("a pair never has its turn", [(it, "has_turn", lambda k, e: False) for it in (epoch, listed)], TURNS),
    ("a turn by the pair's number alone", [(it, "has_turn", lambda k, e: k % 2 == 0) for it in (epoch, listed)], TURNS),
    ("the record of another pair", [(exchange, "decision", decided_by(lambda k: k + 1, lambda b: b))], RUNS),
    ("number 0 for every sample", [(exchange, "decision", decided_by(lambda k: k, lambda b: 0))], RUNS),
    ("a pair's words never advance", [(epoch, "drawn_pair", lambda pair: pair)], RUNS),
    ("the second replica by the first one's words", [(epoch, "cold_side", one_side(False)), (epoch, "hot_side", one_side(True))], RUNS),
    ("a swap that copies", [(epoch, "hot_side", lambda plan, b, k, pair, cold, hot: hot)], RUNS),
    ("an exchange without the sweeps", [(epoch, "epoch", without_sweeps)], RUNS),
)


def broken_with(replaced):
    """The laws that are false of the first run that breaks one, where definitions are replaced."""
    kept = [(module, name, getattr(module, name)) for module, name, _ in replaced]
    try:
        for module, name, wrong in replaced:
            setattr(module, name, wrong)
        epoch.swept_slot.cache_clear()
        return next((laws for laws in (broken(Case(*words)) for words in CASES) if laws), [])
    finally:
        for module, name, right in kept:
            setattr(module, name, right)
        epoch.swept_slot.cache_clear()


def self_test():
    failed = 0
    for what, replaced, wanted in WRONG:
        laws = broken_with(replaced)
        print(f"{what}: " + (", ".join(laws) or "no law is false"))
        failed += wanted not in laws
    print(f"decided: {len(WRONG)} wrong definitions, {failed} not refuted")
    return 1 if failed else 0


def main(words):
    if words not in ([], ["--self-test"]):
        print("decided: --self-test is the one word; the head of the file says more", file=sys.stderr)
        return 2
    for words_of_case in CASES:
        case = Case(*words_of_case)
        false = broken(case) + ([] if grid_agrees(case) else ["the program on a grid"])
        if false:
            print(f"decided: {case.name}: {', '.join(false)}", file=sys.stderr)
            return 1
    print(f"decided: {len(LAWS)} laws hold of {len(CASES)} runs, and the grid agrees")
    return self_test() if words else 0


if __name__ == "__main__":
    sys.exit(main(sys.argv[1:]))
