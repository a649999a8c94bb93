"""The runs that the validation is made of: what each part simulates, and which values are taken of a run.

A part's command is `run`, whose values are made of its rows, or `measure`, whose values are means of its sums.

All runs of a part have seeds of their own, so values of different runs are independent. Ferromagnets are turned by
gauges: J of a bond times a random sign of each of its two sites keeps the law of all energies. Under the heat bath it
keeps samples with the same couplings from falling together by their shared random numbers; under Metropolis, which sees
satisfied bonds alone, it would not.
"""
from __future__ import annotations

import math
import sys
from fractions import Fraction
from pathlib import Path
from typing import Callable, Dict, List, NamedTuple, Optional, Sequence, Tuple

sys.dont_write_bytecode = True
here = Path(__file__).resolve().parent
sys.path.insert(0, str(here.parent.parent / "tools"))

import numpy as np  # noqa: E402
from numpy.typing import NDArray  # noqa: E402

from couplings import random_sample, turned  # noqa: E402
from glass_analysis.sums import Means, structure  # noqa: E402

Integers = NDArray[np.int64]
# Of `run` the energies by epoch, sample, slot and replica, and the overlaps by epoch, sample and slot; the sites. Of
# `measure` the means over samples and epochs, by slot.
Values = Callable[..., List[float]]
# Of a run's number the couplings of each sample, as tools/couplings.py has them.
Couplings = Callable[[int], List[bytes]]


class Part(NamedTuple):
    """`slots` are words of make_tables; `couplings` is None where the program draws them from the seed; the epochs
    before `skip` are left out, which is 0 or a power of two under `measure`; `runs` is the number of runs of the whole
    validation; each starts with random spins, but where `start` says up."""
    name: str
    size: int
    rule: str
    slots: Tuple[str, ...]
    couplings: Optional[Couplings]
    samples: int
    sweeps: int
    epochs: int
    skip: int
    every: int
    runs: int
    heads: Tuple[str, ...]
    values: Values
    start: str = "random"
    command: str = "run"

    def seed(self, run: int) -> int:
        """The generators' labels don't have the size, so each part has seeds of its own."""
        return 10 ** 6 * (1 + list(BY_NAME).index(self.name)) + run


# ---------------------------------------------------------------- couplings


def gauges(run: int, size: int, samples: Sequence[bytes]) -> List[bytes]:
    """Each sample turned by random signs of its own."""
    return [turned(size, bonds, run, sample) for sample, bonds in enumerate(samples)]


def ferromagnets(size: int) -> Couplings:
    return lambda run: gauges(run, size, [bytes(3 * size ** 3)] * 64)


def three_glasses(run: int) -> List[bytes]:
    """The samples of examples/samples_4."""
    return [random_sample(4, 2026, glass, Fraction(1, 2)) for glass in range(3)]


def nishimori(beta: float, samples: int) -> Couplings:
    """Each bond is negative with the probability 1 / (1 + exp(2 beta)), which 32 bits of a run's number and its sample
    decide; so runs of one number have much of their couplings in common at all beta."""
    negative = Fraction(1 / (1 + math.exp(2 * beta)))
    return lambda run: [random_sample(8, run, sample, negative) for sample in range(samples)]


# ---------------------------------------------------------------- values


def energies_by_slot(energies: Integers, overlaps: Integers, sites: int) -> List[float]:
    return list(energies.mean(axis=(0, 1, 3)) / sites)


def coldest_energy(energies: Integers, overlaps: Integers, sites: int) -> List[float]:
    return [float(energies[:, :, 0].mean()) / sites]


def energies_of_glasses(energies: Integers, overlaps: Integers, sites: int) -> List[float]:
    """Of each of the three glasses in the slots whose exact energies are known."""
    means = energies.mean(axis=(0, 3)) / sites
    return [float(means[glass, slot]) for glass in range(3) for slot in (0, 2, 4)]


def coldest_overlaps(energies: Integers, overlaps: Integers, sites: int) -> List[float]:
    squares = (overlaps[:, :, 0] / sites) ** 2
    return [float(squares.mean()), float((squares ** 2).mean())]


def least_energies(energies: Integers, overlaps: Integers, sites: int) -> List[float]:
    """The mean over the samples of the least energy, and the part of samples that only one replica brought there."""
    least = energies.min(axis=(0, 2))
    return [float(least.min(axis=1).mean()) / sites, float((least[:, 0] != least[:, 1]).mean())]


def sum_of(means: Means, name: str) -> NDArray[np.float64]:
    """By slot the mean of a sum that a line of `measure` names, D1 being that of D(1)."""
    if name[0] in "DF":
        return means.lines("axis" if name[0] == "D" else "face")[..., int(name[1:])]
    return means.of(name)


def sums_by_slot(*names: str) -> Values:
    return lambda means: [float(value) for slot in zip(*(sum_of(means, name) for name in names)) for value in slot]


def of_transition(means: Means) -> List[float]:
    """In the slots whose curves are looked at, so that figures are functions of their means over runs: the second and the
    fourth moment of the overlap per site, and chi over the sites at the least wave vector along an axis and a face diagonal."""
    sites = means.sites
    found = (means.of("q2") / sites ** 2, means.of("q4") / sites ** 4, structure(means, "axis", 1) / sites, structure(means, "face", 1) / sites)
    return [float(value) for slot in list(zip(*found))[:len(CURVES)] for value in slot]


# ---------------------------------------------------------------- the parts

# By inverse temperature the samples that are printed, the epochs, those that are left out, and the interval: where it is
# high the motion makes the error, where it is low the disorder.
NISHIMORI = {0.2: (16, 2000, 100, 2), 0.4: (16, 2000, 100, 2), 0.6: (256, 60, 20, 4), 0.9: (256, 60, 20, 4)}
CRITICAL_BETA = "0.221654626"
TRANSITION = "1.1019"
# Of each run of the study at the transition the temperatures whose values are kept, and the hotter ones that speed it up.
CURVES = ("1.05", TRANSITION, "1.155", "1.21", "1.265", "1.32", "1.38", "1.44")
HOTTER = ("1.505", "1.57", "1.64", "1.715")
KEPT = ("q2", "q4", "axis", "face")
# Of the sums of an epoch those that are compared with exact ones.
FERROMAGNET_SUMS = ("E", "E2", "E01", "A", "q2", "D0", "D1", "D2", "F0", "F1", "F2")
INDEPENDENT_SUMS = ("E", "E2", "E01", "A", "A2", "q", "q2", "q4", "Eq2", "Eq4", *(f"{family}{r}" for family in "DF" for r in range(5)))


def betas(*values: object) -> Tuple[str, ...]:
    return ("--betas", *map(str, values))


def even(low: str, high: str, slots: int, size: int) -> Tuple[str, ...]:
    return ("--range", low, high, "--slots", str(slots), "--size", str(size), "--acceptance")


def all_parts() -> List[Part]:
    known = [f"glass_{glass}_beta_{beta}" for glass in range(3) for beta in ("2", "1", "0.5")]
    parts = [Part("ferromagnet_4", 4, "heat", betas(0.3, 0.22165463, 0.2, 0.1), ferromagnets(4), 8, 2, 8100, 100, 4, 1500,
                  tuple(f"beta_{beta}" for beta in ("0.3", "0.22165463", "0.2", "0.1")), energies_by_slot),
             Part("glasses_4", 4, "metropolis", betas(2, 1.4, 1, 0.7, 0.5), three_glasses, 3, 5, 20000, 1000, 10, 700,
                  tuple(known), energies_of_glasses)]
    # All spins up are a state of equilibrium on this line, at its own temperature: one slot, and no hotter ones.
    parts += [Part(f"nishimori_8_{beta}", 8, "heat", betas(beta), nishimori(beta, samples), samples, 5, epochs, skip, every, 4000,
                   (f"beta_{beta}",), coldest_energy, "up") for beta, (samples, epochs, skip, every) in NISHIMORI.items()]
    parts += [Part(f"critical_{size}", size, "heat", betas(CRITICAL_BETA), ferromagnets(size), 64, 10, epochs, skip, 8, runs,
                   (f"size_{size}",), coldest_energy)
              for size, epochs, skip, runs in ((8, 600, 200, 1000), (12, 1200, 400, 500), (16, 2400, 800, 400), (24, 2400, 1200, 80))]
    parts += [Part(f"binder_{size}", size, "metropolis", even(TRANSITION, "2", slots, size), None, samples, 10, epochs,
                   epochs // 2, epochs // 40, runs, ("q2", "q4"), coldest_overlaps)
              for size, slots, samples, epochs, runs in ((4, 4, 256, 400, 600), (6, 6, 256, 400, 400), (8, 8, 256, 800, 300),
                                                        (12, 14, 64, 2000, 60))]
    parts += [Part(f"ground_{size}", size, "metropolis", even("0.4", "2", slots, size), None, 256, 10, epochs, epochs // 4,
                   epochs // 20, runs, ("least", "one_replica"), least_energies)
              for size, slots, epochs, runs in ((4, 8, 400, 400), (6, 16, 1000, 100))]
    return parts + parts_of_sums() + parts_at_the_transition()


def parts_of_sums() -> List[Part]:
    """Those whose sums are known exactly. At an inverse temperature so small all thresholds are one half, and spins are
    independent after one sweep; with equal draws all samples have the same ones then, so one is printed."""
    parts = [Part("sums_ferromagnet_4", 4, "heat", betas(0.3, 0.22165463, 0.2, 0.1), ferromagnets(4), 8, 2, 8192, 128, 4, 1000,
                  tuple(f"{name}_{beta}" for beta in ("0.3", "0.22165463", "0.2", "0.1") for name in FERROMAGNET_SUMS),
                  sums_by_slot(*FERROMAGNET_SUMS)),
             Part("sums_independent_8", 8, "heat", betas("1e-11"), None, 1, 1, 4096, 0, 1, 1000, INDEPENDENT_SUMS, sums_by_slot(*INDEPENDENT_SUMS))]
    # No run of rows has these couplings.
    parts += [Part(name, 8, "heat", betas(0.6), lambda run: nishimori(0.6, 256)(run + 10 ** 6), 256, 1, epochs, 0, 1, 1000,
                   ("E", "E2"), sums_by_slot("E", "E2"), "up") for name, epochs in (("sums_nishimori_8", 64), ("sums_nishimori_8_begin", 2))]
    return [part._replace(command="measure") for part in parts]


def parts_at_the_transition() -> List[Part]:
    """Two hours of four processors: the spin glass at equal temperatures for each size."""
    heads = tuple(f"{kept}_{temperature}" for temperature in CURVES for kept in KEPT)
    return [Part(f"transition_{size}", size, "metropolis", ("--temperatures", *CURVES, *HOTTER), None, samples, 8, epochs, epochs // 4,
                 epochs // 32, runs, heads, of_transition, command="measure")
            for size, samples, epochs, runs in ((4, 256, 512, 250), (6, 256, 1024, 250), (8, 256, 2048, 250), (10, 256, 4096, 250),
                                                (12, 64, 8192, 600), (16, 64, 16384, 400))]


PARTS = all_parts()
BY_NAME: Dict[str, Part] = {part.name: part for part in PARTS}
