#!/usr/bin/env python3
"""The laws of potts_laws at a lattice and a number of draws so small that all pairs of draws can be gone through.

    python3 tools/reference/potts_cases.py --self-test

Size 4, and 64 draws in place of 2^32. Weights are whole numbers and roundings fractions, so every comparison is exact."""
import random as rng
import sys
from fractions import Fraction
from pathlib import Path

sys.path.insert(0, str(Path(__file__).resolve().parents[1]))
sys.dont_write_bytecode = True
from make_tables import Checks  # noqa: E402
from reference import potts  # noqa: E402
from reference.lattice import bond_count, volume  # noqa: E402

SIZE, DRAWS = 4, 64


def interval(step, number):
    """How many u below the number have 3 u div number = step: those from step number / 3 on, below the next such limit."""
    return -(-(step + 1) * number // 3) - -(-step * number // 3)


def third(number):
    return -(-number // 3)


def case(seed, ratio, number=DRAWS):
    """A sample with random couplings, and random colours; thresholds at exp(-beta) = ratio, and their greatest rounding."""
    source = rng.Random(seed)
    negative = [source.random() < 0.5 for _ in range(bond_count(SIZE))]
    exact = [number * ratio ** g for g in range(1, 7)]
    rows = [int(it + Fraction(1, 2)) for it in exact]
    colours = tuple(source.randrange(4) for _ in range(volume(SIZE)))
    return potts.Dynamics(SIZE, rows, negative.__getitem__), colours, max(abs(x - y) for x, y in zip(rows, exact))


def difference(d, ratio, colours, i, other):
    """Of a change and the one back: the difference of draws times weights, in parts of the greater weight."""
    a, b = ratio.numerator, ratio.denominator
    new = potts.changed(colours, i, other)
    here, there = (potts.weight_of(a, b, d, it) for it in (colours, new))
    to = potts.leading_draws(d, colours, i, other, DRAWS) * here
    back = potts.leading_draws(d, new, i, colours[i], DRAWS) * there
    return Fraction(abs(to - back), max(here, there))


def greatest(d, ratio, colours, sites):
    return max(difference(d, ratio, colours, i, (colours[i] + n) % 4) for i in sites for n in (1, 2, 3))


def check_proposals(checks):
    checks.same("of 2^32 draws", [interval(step, 2 ** 32) for step in range(3)], [1431655766, 1431655765, 1431655765])
    for number in (16, 32, DRAWS):
        for c in range(4):
            counts = [potts.proposing_draws(c, (c + n) % 4, number) for n in (1, 2, 3)]
            checks.same(f"proposals to {c} of {number}", counts, [interval(step, number) for step in range(3)])


def check_gap(checks):
    for seed in range(2):
        d, colours, _ = case(seed, Fraction(1, 2))
        high = potts.height(SIZE, d.bonds, colours)
        for i in range(volume(SIZE)):
            for other in range(4):
                after = potts.height(SIZE, d.bonds, potts.changed(colours, i, other))
                checks.same(f"gap at {i} to {other}", potts.gap(d, colours, i, other), after - high)


def check_balance(checks):
    """To within a draw of the proposal, and a third of the rounding; not to within less, nor by the next threshold."""
    for seed, ratio in enumerate((Fraction(1, 2), Fraction(2, 3), Fraction(9, 10))):
        d, colours, rounding = case(seed, ratio)
        sites = rng.Random(seed).sample(range(volume(SIZE)), 6)
        found = greatest(d, ratio, colours, sites)
        checks.same(f"balance at {ratio}", (0 < found, found <= DRAWS + third(DRAWS) * rounding), (True, True))
    d, colours, _ = case(0, Fraction(1, 2))
    later = d._replace(thresholds=d.thresholds[1:] + [0])
    checks.same("balance by the next threshold", greatest(later, Fraction(1, 2), colours, range(6)) <= DRAWS, False)


def moved(d, ratio, colours, sites, updates, number):
    """How far updates move the chance that sites have one colour, which starts in equilibrium over the colours of the sites."""
    a, b = ratio.numerator, ratio.denominator

    def over(f):
        def joined(some):
            placed = dict(zip(sites, some))
            return f(tuple(placed.get(i, c) for i, c in enumerate(colours)))
        return potts.over_configurations(len(sites), joined)

    def equal(x):
        return int(len({x[i] for i in sites}) == 1)
    before = Fraction(potts.total(a, b, d, over, equal), potts.partition(a, b, d, over))
    after = Fraction(potts.total_after(a, b, d, over, updates, equal, number), potts.partition(a, b, d, over))
    return abs(after / number ** (2 * len(updates)) - before)


def check_updates(checks):
    """Each update moves a chance by at most three times a draw and a third of the rounding; always made, by more."""
    ratio, sites = Fraction(1, 2), (21, 22)
    for number, updates in ((32, (21,)), (8, (22, 21))):
        d, colours, rounding = case(1, ratio, number)
        bound = len(updates) * 3 * (number + third(number) * rounding) / number ** 2
        found = moved(d, ratio, colours, sites, updates, number)
        checks.same(f"{len(updates)} updates by {number} draws", (0 < found, found <= bound), (True, True))
    d, colours, _ = case(1, ratio, 32)
    always = d._replace(thresholds=[32] * 6)
    checks.same("updates always made", moved(always, ratio, colours, sites, (21,), 32) <= Fraction(3 * 32, 32 ** 2), False)


def check_pairs(checks):
    """An update by a pair as one number is that by the two draws."""
    d, colours, _ = case(2, Fraction(2, 3))
    for u in range(0, DRAWS, 5):
        for v in range(0, DRAWS, 7):
            pair = potts.pair_of(lambda i, m: (u, v)[m], 9, DRAWS)
            checks.same(f"pair {u} {v}", potts.update_by(d, 9, pair, colours, DRAWS), potts.updated_by(d, colours, 9, u, v, DRAWS))


def check_sites(checks):
    """A sweep updates each site once, and no two neighbours in one half of it."""
    sites = potts.sweeps_sites(SIZE, 2)
    half = volume(SIZE) // 2
    for first in (0, 2 * half):
        checks.same(f"sites from {first}", sorted(sites[first:first + 2 * half]), list(range(volume(SIZE))))
    for first in range(0, len(sites), half):
        part = sites[first:first + half]
        near = {s for i in part for s, _ in potts.signs(SIZE, lambda n: False, i)}
        checks.same(f"neighbours from {first}", near & set(part), set())


def main(words):
    if words != ["--self-test"]:
        print("potts_cases: --self-test is the one word; the head of the file says more", file=sys.stderr)
        return 2
    checks = Checks("potts_cases")
    for check in (check_proposals, check_gap, check_balance, check_updates, check_pairs, check_sites):
        check(checks)
    return checks.end()


if __name__ == "__main__":
    sys.exit(main(sys.argv[1:]))
