#!/usr/bin/env python3
"""The exact mean energy of the Ising ferromagnet on the periodic lattice of 4 x 4 x 4 sites, by its transfer matrix.

    python3 tools/reference/exact_ising.py 0.2 0.221654626 0.25

Prints of each inverse temperature the mean of E = - sum of s s' over the 192 bonds. A layer of 16 spins has 2^16
configurations, and the matrix from layer to layer is T(r, s) = exp(-beta (h(r) + h(s)) / 2 + beta sum r s). The lattice is
four layers in a ring, so the sum of all weights is the trace of T^4, and the probability of a layer's configuration r is
(T^4)(r, r) over it. The three directions are alike, so the mean energy is 3/2 times that of the bonds within the four
layers. Configurations that a symmetry of the layer turns into each other have one probability: those of the 4 x 4 ring
by a shift, a mirror, a change of axes or a turn of all spins, so 433 of them stand for all.

Some minutes a temperature; the last digits are those of double precision, some 1e-12 of the result.
--self-test does the same for four layers of 2 x 2 sites, against the sum over all configurations."""
import math
import sys
from itertools import product


def layer_energy(side, r):
    """- sum of s s' over the bonds of a layer, whose site (x, y) is bit x + side y; a ring of two sites has two bonds."""
    total = 0
    for y in range(side):
        for x in range(side):
            here = r >> (x + side * y) & 1
            for other in ((x + 1) % side + side * y, x + side * ((y + 1) % side)):
                total += 1 if here != r >> other & 1 else -1
    return total


def alike(side, r):
    """The configurations that the layer's symmetries make of one: shifts, mirrors, a change of axes, a turn of all spins."""
    places, found = range(side), set()
    sites = [(x, y) for y in places for x in places if r >> (x + side * y) & 1]
    for mirrored_x, mirrored_y, changed in product((0, 1), repeat=3):
        turned = [(side - 1 - x if mirrored_x else x, side - 1 - y if mirrored_y else y) for x, y in sites]
        turned = [(y, x) if changed else (x, y) for x, y in turned]
        for dx, dy in product(places, places):
            found.add(sum(1 << ((x + dx) % side + side * ((y + dy) % side)) for x, y in turned))
    return found | {it ^ (2 ** (side * side) - 1) for it in found}


def orbits(side):
    """One configuration for all that are alike, and how many they are."""
    seen = bytearray(2 ** (side * side))
    for r in range(len(seen)):
        if not seen[r]:
            all_alike = alike(side, r)
            for each in all_alike:
                seen[each] = 1
            yield r, len(all_alike)


def joined(side, beta, values):
    """The values, summed over the next layer with the weights of the bonds between: one factor for each site."""
    same, other = math.exp(beta), math.exp(-beta)
    for site in range(side * side):
        step = 1 << site
        made = [0.0] * len(values)
        for start in range(0, len(values), 2 * step):
            low, high = values[start:start + step], values[start + step:start + 2 * step]
            made[start:start + step] = [same * a + other * b for a, b in zip(low, high)]
            made[start + step:start + 2 * step] = [other * a + same * b for a, b in zip(low, high)]
        values = made
    return values


def mean_energy(side, beta):
    """For a ring of four layers."""
    count = side * side
    half = [math.exp(-beta * layer_energy(side, r) / 2) for r in range(2 ** count)]
    bonds = [math.exp(beta * (count - 2 * k)) for k in range(count + 1)]
    total = within = 0.0
    for r, times in orbits(side):
        row = [half[r] * half[s] * bonds[bin(r ^ s).count("1")] for s in range(2 ** count)]
        twice = joined(side, beta, [a * b for a, b in zip(row, half)])
        back = times * math.fsum((a * b) ** 2 for a, b in zip(twice, half))
        total += back
        within += back * layer_energy(side, r)
    return within / total * 4


def by_all(beta):
    """The mean energy within the layers of 2 x 2 x 4 sites, by all 2^16 configurations."""
    total = within = 0.0
    for layers in product(range(16), repeat=4):
        inside = sum(layer_energy(2, r) for r in layers)
        between = sum(2 * bin(a ^ b).count("1") - 4 for a, b in zip(layers, layers[1:] + layers[:1]))
        weight = math.exp(-beta * (inside + between))
        total += weight
        within += weight * inside
    return within / total


def self_test():
    for beta in (0.0, 0.1, 0.3):
        found, wanted = mean_energy(2, beta), by_all(beta)
        if abs(found - wanted) > 1e-9 * max(1, abs(wanted)):
            sys.exit(f"exact_ising: self-test: {found} and not {wanted} at {beta}")
    print("exact_ising: 3 tests passed")


def main(words):
    if words == ["--help"]:
        print(__doc__)
        return None
    if words == ["--self-test"]:
        return self_test()
    try:
        betas = [float(it) for it in words]
    except ValueError:
        betas = []
    if not betas:
        sys.exit("exact_ising: inverse temperatures are wanted, or --self-test")
    for beta in betas:
        print(f"{beta} {1.5 * mean_energy(4, beta):.6f}", flush=True)
    return None


if __name__ == "__main__":
    main(sys.argv[1:])
