#!/usr/bin/env python3
"""The exact means of what `measure` sums up over the Ising ferromagnet on the periodic lattice of 4 x 4 x 4 sites.

    python3 tools/reference/exact_overlaps.py 0.3 0.22165463 0.2 0.1 > examples/validation/exact_sums.csv

Prints of each inverse temperature the means of an epoch's terms as comma-separated text under a line of names. Two
independent replicas have <q(i) q(j)> = <s(i) s(j)>^2. So D(r), F(r), A and q2 are sums of the squares of correlations
over all displacements, by the families of planes of docs/specification/measure.md. E is the energy of both replicas,
E01 the square of a replica's mean, and E2 has its variance, which is the slope of the mean in the inverse temperature:
that is by differences of fourth order.

Correlations are by the transfer matrix T of a layer of 16 spins (exact_ising.py). Of a layer's configuration r and the one s
that is k layers on, the weight is (T^k)(r, s) (T^(4 - k))(s, r). It needs numpy, and some minutes.
--self-test does the same for four layers of 2 x 2 sites, against the sum over all configurations."""
import itertools
import os
import sys

sys.dont_write_bytecode = True
sys.path.insert(0, os.path.dirname(os.path.dirname(os.path.abspath(__file__))))
from reference.exact_ising import layer_energy, orbits  # noqa: E402

LAYERS = 4
STEP = 0.002
NAMES = ("E", "E2", "E01", "A", "q2", "D0", "D1", "D2", "F0", "F1", "F2")


class Layer:
    """The configurations of a layer: energies, spins by configuration and site, and one for all that are alike with their number."""

    def __init__(self, side):
        import numpy as np

        self.side = side
        configurations = np.arange(2 ** (side * side))
        self.energies = np.array([layer_energy(side, r) for r in configurations], float)
        self.spins = 1.0 - 2.0 * (configurations[:, None] >> np.arange(side * side) & 1)
        self.orbits = list(orbits(side))

    def row(self, beta, r):
        """The row of T that belongs to a configuration."""
        import numpy as np

        return np.exp(beta * (self.spins @ self.spins[r] - (self.energies + self.energies[r]) / 2))

    def step(self, beta, values):
        """T applied to a vector: bonds to the next layer are four sites at a time, half a byte of a configuration."""
        import numpy as np

        half = np.exp(-beta * self.energies / 2)
        alike = 4 - 2 * np.array([[bin(a ^ b).count("1") for a in range(16)] for b in range(16)])
        found = (half * values).reshape([16] * (self.side ** 2 // 4))
        for _ in found.shape:
            found = np.tensordot(found, np.exp(beta * alike), axes=(0, 0))
        return half * found.reshape(-1)

    def together(self, one, other):
        """By displacement (y, x) the sum over a layer's sites of a value there and another one at the displaced site."""
        import numpy as np

        one, other = one.reshape(self.side, self.side), other.reshape(self.side, self.side)
        return np.array([[(one * np.roll(other, (-y, -x), (0, 1))).sum() for x in range(self.side)] for y in range(self.side)])


def correlations(layer, beta):
    """<s(i) s(j)> by displacement: layers, y, x."""
    import numpy as np

    total, found = 0.0, np.zeros((LAYERS // 2 + 1, layer.side, layer.side))
    for r, many in layer.orbits:
        one = layer.row(beta, r)
        two = layer.step(beta, one)
        three = layer.step(beta, two)
        back = two @ two
        total += many * back
        for k, others in enumerate((back * layer.spins[r], (one * three) @ layer.spins, (two * two) @ layer.spins)):
            found[k] += many * layer.together(layer.spins[r], others)
    found = found / (total * layer.side ** 2)
    # One configuration stands for those that mirrors and a change of the axes make of it.
    found = (found + np.roll(found[:, ::-1], 1, 1)) / 2
    found = (found + np.roll(found[:, :, ::-1], 1, 2)) / 2
    found = (found + found.transpose(0, 2, 1)) / 2
    return found[[min(k, LAYERS - k) for k in range(LAYERS)]]


def mean_energy(layer, beta):
    """Of a lattice whose three directions are alike: 3/2 of the energy within the layers."""
    total = within = 0.0
    for r, many in layer.orbits:
        two = layer.step(beta, layer.row(beta, r))
        total += many * (two @ two)
        within += many * (two @ two) * layer.energies[r]
    return 1.5 * LAYERS * within / total


def means(layer, beta):
    """By name, in the order of NAMES."""
    side = layer.side
    sites = side ** 3
    squares = correlations(layer, beta) ** 2
    one = mean_energy(layer, beta)
    at = {n: mean_energy(layer, beta + n * STEP) for n in (-2, -1, 1, 2)}
    slope = (8 * (at[1] - at[-1]) - (at[2] - at[-2])) / (12 * STEP)
    places = list(itertools.product(range(side), repeat=3))
    axis = [3 * sites * sum(squares[place] for place in places if place[2] == r) for r in range(side // 2 + 1)]
    face = [6 * sites * sum(squares[place] for place in places if (place[1] + place[2]) % side == r) for r in range(side // 2 + 1)]
    return [2 * one, 2 * (one ** 2 - slope), one ** 2, 3 * sites * squares[0, 0, 1], sites * squares.sum(), *axis, *face]


def by_all(beta):
    """Correlations of four layers of 2 x 2 sites, by the sum over all 2^16 configurations; rings of two sites have two bonds."""
    import numpy as np

    spins = (1 - 2 * (np.arange(2 ** 16)[:, None] >> np.arange(16) & 1)).reshape(-1, 4, 2, 2)
    weights = np.exp(beta * sum((spins * np.roll(spins, -1, axis)).sum(axis=(1, 2, 3)) for axis in (1, 2, 3)))
    return np.array([[[weights @ (spins * np.roll(spins, (-z, -y, -x), (1, 2, 3))).mean(axis=(1, 2, 3)) for x in range(2)]
                      for y in range(2)] for z in range(4)]) / weights.sum()


def self_test():
    try:
        import numpy as np
    except ImportError:
        print("exact_overlaps: numpy is missing, so its tests were not run")
        return 0
    layer = Layer(2)
    for beta in (0.1, 0.4):
        away = abs(correlations(layer, beta) - by_all(beta)).max()
        if not away < 1e-12:
            print(f"exact_overlaps: at {beta} a correlation is off by {away}", file=sys.stderr)
            return 1
    print(f"exact_overlaps: correlations of {LAYERS} layers of 2 x 2 sites are the sums over all configurations")
    return 0


def main(words):
    if words == ["--self-test"]:
        return self_test()
    try:
        betas = [float(word) for word in words]
    except ValueError:
        betas = []
    if not betas or "--help" in words:
        print(__doc__)
        return 0 if words == ["--help"] else 2
    layer = Layer(4)
    print("beta," + ",".join(NAMES))
    for word, beta in zip(words, betas):
        print(word + "," + ",".join(f"{value:.10g}" for value in means(layer, beta)), flush=True)
    return 0


if __name__ == "__main__":
    sys.exit(main(sys.argv[1:]))
