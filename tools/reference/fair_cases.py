#!/usr/bin/env python3
"""The laws of fair_runs at a lattice so small that all states and all draws can be gone through.

    python3 tools/reference/fair_cases.py --self-test

Size 2 has 8 sites, 24 bonds and 256 configurations, and a draw is one of 8 in place of 2^32: two slots of a replica, or two
replicas of a slot, are 65536 states. Weights are whole numbers, so every comparison is exact. Half a minute."""
import random as rng
import sys
from collections import Counter
from fractions import Fraction
from functools import lru_cache
from itertools import product
from pathlib import Path

sys.path.insert(0, str(Path(__file__).resolve().parents[1]))
sys.dont_write_bytecode = True
from make_tables import Checks  # noqa: E402
from reference import decisions as listed, fair  # noqa: E402
from reference.bonds import bonds_of, couplings_view  # noqa: E402
from reference.decisions import Exchange, Update  # noqa: E402
from reference.lattice import volume, x_of, y_of, z_of  # noqa: E402
from reference.opening import Plan, dynamics_of  # noqa: E402
from reference.sums import unsatisfied  # noqa: E402
from reference.sweep import Configuration, Dynamics, sweep  # noqa: E402

SIZE, DRAWS = 2, 8
CONFIGURATIONS = tuple(product((False, True), repeat=SIZE ** 3))
# exp(-4 beta) of slots 0 and 1.
RATIOS = (Fraction(1, 3), Fraction(2, 3))


def nearest(exact):
    return int(exact + Fraction(1, 2))


def exact_row(rule, ratio):
    if rule == "heat":
        return [DRAWS / (1 + ratio ** (j - 3)) for j in range(7)]
    return [DRAWS * ratio ** (k - 3) for k in (4, 5, 6)]


def exact_entries():
    return [DRAWS * (RATIOS[0] / RATIOS[1]) ** m for m in range(1, 3 * SIZE ** 3 // 2 + 1)]


class Case:
    """A plan of size 2 with rounded tables, and the greatest rounding of them in draws of 8."""

    def __init__(self, rule, slots, seed, off=0, ratios=RATIOS):
        source = rng.Random(seed)
        self.ratios = ratios
        bonds = [source.random() < 0.5 for _ in range(24)]
        exact = [exact_row(rule, ratio) for ratio in ratios[:slots]]
        rows = [[nearest(it) for it in row] for row in exact]
        rows[0][-1] += off
        entries = [exact_entries()] if slots == 2 else []
        swaps = [[nearest(it) for it in record] for record in entries]
        self.rounding = max(abs(one - other) for made, of in zip(rows + swaps, exact + entries) for one, other in zip(made, of))
        self.plan = Plan(SIZE, rule, tuple(map(tuple, rows)), tuple(map(tuple, swaps)),
                         couplings_view(SIZE, {0: bonds.__getitem__}), 1, 0)
        weighed = [{spins: self.weight(min(place, slots - 1), spins) for spins in CONFIGURATIONS} for place in range(2)]
        self.kept = {}
        self.weights = Counter({(one, other): a * b for one, a in weighed[0].items() for other, b in weighed[1].items()})

    def weight(self, slot, spins):
        ratio = self.ratios[slot]
        return fair.weight(ratio.numerator, ratio.denominator, SIZE, bonds_of(self.plan.couplings, 0), spins)

    def leads_to(self, decision, state):
        """The states that the draws make of one, with how many of them. What an update makes of its place is kept, and how many
        draws exchange two configurations of these energies."""
        place, own = decision.place, state[decision.place]
        if isinstance(decision, Exchange):
            other = state[place + 1]
            key = decision, self.unsatisfied(own), self.unsatisfied(other)
            if own != other and key not in self.kept:
                self.kept[key] = sum(listed.decide(self.plan, 0, decision, u, state) != state for u in range(DRAWS))
            swaps = self.kept.get(key, 0)
            return {state[:place] + (other, own) + state[place + 2:]: swaps, state: DRAWS - swaps if own != other else DRAWS}
        if (decision, own) not in self.kept:
            self.kept[decision, own] = Counter(listed.decide(self.plan, 0, decision, u, (own, own))[place] for u in range(DRAWS))
        return {state[:place] + (spins,) + state[place + 1:]: n for spins, n in self.kept[decision, own].items()}

    @lru_cache(maxsize=None)
    def unsatisfied(self, spins):
        return unsatisfied(SIZE, bonds_of(self.plan.couplings, 0), spins)

    def after(self, weights, decided):
        """The weights of states after decisions, with each list of draws counted once."""
        for decision in decided:
            made = Counter()
            for state, weight in weights.items():
                for led, draws in self.leads_to(decision, state).items():
                    made[led] += weight * draws
            weights = made
        return weights


def distance(one, other):
    """In total variation, of weights with equal sums."""
    return Fraction(sum(abs(one[state] - other[state]) for state in one.keys() | other.keys()), 2 * sum(one.values()))


def scaled(weights, factor):
    return Counter({state: weight * factor for state, weight in weights.items()})


def chains(slots, source):
    """Lists of decisions: each kind alone, and some together."""
    updates = [Update(place, 0, source.randrange(8)) for place in range(2)]
    yield updates[:1]
    yield updates + [Update(0, 1, source.randrange(8))]
    if slots == 2:
        yield [Exchange(0, 0)]
        yield [updates[1], Exchange(0, 0), updates[0], Exchange(0, 1)]


def check_equilibrium(checks):
    """Equilibrium nearly stays, from any start the distance hardly grows, and a rounding that is too great is seen."""
    source = rng.Random(1)
    for rule, slots in product(("heat", "metropolis"), (1, 2)):
        case = Case(rule, slots, source.random())
        start = Counter({(CONFIGURATIONS[5], CONFIGURATIONS[77]): sum(case.weights.values())})
        for decided in chains(slots, source):
            name, draws = f"{rule}, {slots} slots, {len(decided)} decisions", DRAWS ** len(decided)
            bound = len(decided) * case.rounding / DRAWS
            all_lists = scaled(case.weights, draws)
            checks.same(f"{name}: near equilibrium", distance(case.after(case.weights, decided), all_lists) <= bound, True)
            checks.same(f"{name}: from a state", distance(case.after(start, decided), all_lists)
                        <= distance(start, case.weights) + bound, True)
    wrong = Case("metropolis", 1, 7, off=3)
    moved = max(distance(wrong.after(wrong.weights, [Update(1, 0, i)]), scaled(wrong.weights, DRAWS)) for i in range(8))
    checks.same("a threshold three draws off moves it", 0 < moved <= wrong.rounding / DRAWS, True)


def at_place(weights, place):
    """The weights of what stands at a place."""
    made = Counter()
    for state, weight in weights.items():
        made[state[place]] += weight
    return made


def check_places(checks):
    """What stands at a place is moved by the decisions about it alone; so a wrong threshold moves the place of the update."""
    source = rng.Random(17)
    for rule in ("heat", "metropolis"):
        case = Case(rule, 1, source.random())
        decided = [Update(1, 0, source.randrange(8)), Update(0, 0, source.randrange(8)), Update(1, 1, source.randrange(8))]
        moved, still = case.after(case.weights, decided), scaled(case.weights, DRAWS ** 3)
        for place, own in enumerate((1, 2)):
            count = fair.count_about(lambda p: p == place, decided)
            checks.same(f"{rule}: decisions about place {place}", count, own)
            checks.same(f"{rule}: place {place} by its own", distance(at_place(moved, place), at_place(still, place))
                        <= count * case.rounding / DRAWS, True)
    wrong = Case("metropolis", 1, 7, off=3)
    moved = [wrong.after(wrong.weights, [Update(1, 0, i)]) for i in range(8)]
    far = [max(distance(at_place(it, place), at_place(scaled(wrong.weights, DRAWS), place)) for it in moved) for place in range(2)]
    checks.same("the other place stays, this one moves", (far[0], far[1] > 0), (0, True))


def check_counts(checks):
    """The decisions of a run about a set of places, of one slot and of two."""
    for slots, epochs in product((1, 2), range(4)):
        plan = Case("heat", slots, 4).plan
        decided, updates = listed.measured_decisions(plan, 1, epochs), plan.sweeps * volume(SIZE)
        for replica in range(2):
            about = fair.count_about(lambda p: listed.replica_of(plan, p) == replica, decided)
            exchanged = sum(isinstance(it, Exchange) and listed.replica_of(plan, it.place) == replica for it in decided)
            checks.same(f"{slots} slots, {epochs} epochs: a replica", about, slots * (epochs + 1) * updates + exchanged)
            checks.same("at most an exchange of a place in an epoch", exchanged <= (slots - 1) * epochs, True)
        within = {fair.last_place(it) - fair.first_place(it) for it in decided}
        checks.same("exchanges are of a place and the next", within, {0, 1} if slots == 2 and epochs > 1 else within & {0, 1})


def check_means(checks):
    """The definitions of the means give what the weights of all states do."""
    case = Case("metropolis", 1, 3)
    decided = [Update(1, 0, 3)]
    ratio = RATIOS[0]
    given = (lambda t: ratio.numerator), (lambda t: ratio.denominator), case.plan, 0

    def aligned_pair(state):
        return int(state[0][0] == state[1][3])
    checks.same("partition", fair.partition(*given), sum(case.weights.values()))
    checks.same("total", fair.total(*given, aligned_pair), sum(w * aligned_pair(x) for x, w in case.weights.items()))
    checks.same("total after", fair.total_after(*given, decided, aligned_pair, DRAWS),
                sum(w * aligned_pair(x) for x, w in case.after(case.weights, decided).items()))


def check_push_forward(checks):
    """What an update makes of weights is, configuration by configuration, from the one with the spin turned and from itself."""
    source = rng.Random(5)
    case = Case("heat", 1, 9)
    d, i = dynamics_of(case.plan, 0, 0), 6
    weights = {spins: source.randrange(100) for spins in CONFIGURATIONS}
    made = Counter()
    for spins, u in product(CONFIGURATIONS, range(DRAWS)):
        made[listed.updated_by(d, spins, i, u)] += weights[spins]

    def turning(spins):
        return sum(listed.updated_by(d, spins, i, u) != spins for u in range(DRAWS))
    turned = {spins: spins[:i] + (not spins[i],) + spins[i + 1:] for spins in CONFIGURATIONS}
    checks.same("an update is a push-forward", {spins: made[spins] for spins in CONFIGURATIONS},
                {spins: turning(turned[spins]) * weights[turned[spins]] + (DRAWS - turning(spins)) * weights[spins]
                 for spins in CONFIGURATIONS})


def check_forgetting(checks):
    """Two starts of a sweep by heat bath whose thresholds are above 0 are nearer by at least one list of draws."""
    case = Case("heat", 1, 2, ratios=RATIOS[1:])
    checks.same("thresholds above 0", min(case.plan.rows[0]) > 0, True)
    decided = listed.sweep_decisions(case.plan, 0, 0)
    one, other = (case.after(Counter({(spins, CONFIGURATIONS[0]): 1}), decided) for spins in (CONFIGURATIONS[0], CONFIGURATIONS[-1]))
    checks.same("two starts get nearer", distance(one, other) <= 1 - Fraction(1, DRAWS ** len(decided)), True)


def check_caught(checks):
    """Metropolis on the ferromagnet leads from two layers up, two layers down to the opposite, by any draws."""
    source = rng.Random(11)
    for size in (4, 8):
        layered = tuple((x_of(size, i) + y_of(size, i) + z_of(size, i)) % 4 < 2 for i in range(volume(size)))
        opposite = tuple(not spin for spin in layered)
        words = tuple(tuple(source.randrange(2 ** 32) for _ in range(61)) for _ in range(2 * size))
        for rows in ((0, 0, 0), (2 ** 32, 2 ** 31, 7)):
            d = Dynamics(size, "metropolis", rows, lambda n: False)
            once = sweep(d, Configuration(layered, words))
            checks.same(f"caught at size {size}", (tuple(once.spins), tuple(sweep(d, once).spins)), (opposite, layered))


def check_exact(checks):
    """Thresholds of Metropolis where exp(-4 beta) is j / 1024."""
    for j in range(1025):
        exact = [2 ** 32 * Fraction(j, 1024) ** power for power in (1, 2, 3)]
        checks.same(f"exact thresholds at {j}", [j * 2 ** 22, j * j * 2 ** 12, j ** 3 * 2 ** 2], exact)


def main(words):
    if words != ["--self-test"]:
        print("fair_cases: --self-test is the one word; the head of the file says more", file=sys.stderr)
        return 2
    # The energies and the updates of 256 configurations are asked for many times.
    listed.updated_by = lru_cache(maxsize=None)(listed.updated_by)
    listed.unsatisfied = lru_cache(maxsize=None)(listed.unsatisfied)
    fair.unsatisfied = lru_cache(maxsize=None)(fair.unsatisfied)
    checks = Checks("fair_cases")
    for check in (check_equilibrium, check_places, check_counts, check_means, check_push_forward, check_forgetting, check_caught, check_exact):
        check(checks)
    return checks.end()


if __name__ == "__main__":
    sys.exit(main(sys.argv[1:]))
