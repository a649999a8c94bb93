#!/usr/bin/env python3
"""Binder ratios by temperature and size, where they cross, and P(q) at the lowest temperature: figure.png.

    python3 compare.py 8        of the seeds 1 to 8 of each size
"""
from __future__ import annotations

import sys
from itertools import combinations
from pathlib import Path
from typing import Dict, List, NamedTuple

sys.dont_write_bytecode = True
here = Path(__file__).resolve().parent
sys.path.insert(0, str(here.parent.parent / "tools"))

import numpy as np  # noqa: E402
from numpy.typing import NDArray  # noqa: E402

from exit_status import status_of_study  # noqa: E402
from glass_analysis import (Estimate, binder, bootstrap, densities, doubling_bins, jackknife, moments,  # noqa: E402
                            overlap_edges, read_report, round_trips)
from glass_analysis.errors import Interval  # noqa: E402
from glass_analysis.figures import plt, save  # noqa: E402
from glass_analysis.observables import SQUARE  # noqa: E402
from make_tables import Refusal  # noqa: E402

# M. Baity-Jesi et al., Phys. Rev. B 88, 224416 (2013).
TRANSITION, ITS_ERROR = 1.1019, 0.0029
# The difference of two curves is taken as a parabola up to the one temperature, and followed down to the other.
HOTTEST, COLDEST, DEGREE = 1.5, 0.9, 2
# Of each seed's samples, for errors where seeds are few.
BLOCKS = 8


class Size(NamedTuple):
    """By seed and block of its samples: moments of parts of the run that double, the last first, and P(q) of slot 0;
    and by seed its round trips."""
    parts: NDArray[np.float64]
    density: NDArray[np.float64]
    trips: List[int]

    def blocks(self) -> NDArray[np.float64]:
        """The moments of the last part, seeds and blocks along one axis."""
        return self.parts[:, :, 0].reshape(-1, *self.parts.shape[3:])


def in_blocks(by_sample: NDArray[np.float64]) -> NDArray[np.float64]:
    return by_sample.reshape(BLOCKS, -1, *by_sample.shape[1:]).mean(axis=1)


def read_size(size: int, seeds: int) -> Size:
    """One report at a time, so that none but its means is kept."""
    parts, distributions, trips, until = [], [], [], None
    for seed in range(1, seeds + 1):
        records = read_report(str(here / f"seed_{size}_{seed}.txt"))
        until = until or records.until
        if records.until != until:
            raise Refusal(f"{records.name} goes to epoch {records.until}, and that of seed 1 to {until}")
        bins = doubling_bins(records.epochs)
        parts.append(np.stack([in_blocks(moments(records.part(*ends))) for ends in bins], axis=1))
        distributions.append(in_blocks(densities(records.part(*bins[0]), 0)))
        trips.append(int(round_trips(records).sum()))
    return Size(np.array(parts), np.array(distributions), trips)


def crossing(temperatures: NDArray[np.float64], small: NDArray[np.float64], large: NDArray[np.float64]) -> NDArray[np.float64]:
    """The temperature from which on the smaller size has the greater ratio: the root at which the polynomial through
    the difference of the two rises, by least squares; nan where there is none between COLDEST and HOTTEST.
    """
    near = temperatures <= HOTTEST
    apart = np.polynomial.Polynomial.fit(temperatures[near], (small - large)[near], DEGREE)
    roots = [root.real for root in apart.roots() if abs(root.imag) < 1e-9 and COLDEST <= root.real <= HOTTEST
             and apart.deriv()(root.real) > 0]
    return np.array(max(roots, default=np.nan))


def crossing_of(temperatures: NDArray[np.float64], small: Size, large: Size) -> Interval:
    """By the bootstrap over the blocks of both sizes, which are independent: curves need not cross in every resample."""
    return bootstrap([small.blocks(), large.blocks()],
                     lambda a, b: crossing(temperatures, binder(a), binder(b)))


def told(found: Interval) -> str:
    where = "nowhere" if np.isnan(found.value) else f"at T = {found.value:.3f}"
    resampled = f"between {found.low:.3f} and {found.high:.3f}"
    if not found.missing:
        return f"{where}, {resampled}"
    return f"{where}; {1 - found.missing:.1%} of the resamples do, {resampled}"


def print_rest(size: int, found: Size, temperatures: NDArray[np.float64]) -> None:
    seeds = found.parts.shape[0]
    q2 = found.parts[:, :, :, 0, SQUARE].reshape(seeds * BLOCKS, -1)
    steps = [jackknife(q2[:, n] - q2[:, n + 1]) for n in (2, 1, 0)]
    whole, inner = jackknife(found.parts[:, :, 0].mean(axis=1), binder).error, jackknife(found.blocks(), binder).error
    print(f"size {size:>2}: {seeds} seeds, {sum(found.trips)} round trips; last steps of q^2 at T = {temperatures[0]:g}, in "
          "errors: " + " ".join(f"{float(step.value / step.error):+.2f}" for step in steps)
          + f"; errors over seeds and over blocks: {np.sqrt(np.mean(whole ** 2)):.5f} {np.sqrt(np.mean(inner ** 2)):.5f}")


def main(words: List[str]) -> int:
    made = here / "seed_temperatures.txt"
    if len(words) != 1 or not words[0].isdecimal() or int(words[0]) < 2 or not made.exists():
        raise Refusal("the number of seeds that study has made is needed, from 2 on")
    temperatures = np.array(made.read_text().split(), float)
    sizes = {size: read_size(size, int(words[0])) for size in (4, 6, 8, 10)}
    ratios = {size: jackknife(found.blocks(), binder) for size, found in sizes.items()}
    for size, found in sizes.items():
        print_rest(size, found, temperatures)
    print("T       " + "".join(f"  Binder {size:>2}    error" for size in sizes))
    for slot, temperature in enumerate(temperatures):
        print(f"{temperature:<8g}" + "".join(f"{r.value[slot]:>11.5f} {r.error[slot]:>8.5f}" for r in ratios.values()))
    for small, large in combinations(sizes, 2):
        print(f"sizes {small:>2} and {large:>2} cross {told(crossing_of(temperatures, sizes[small], sizes[large]))}")
    print(f"the transition: {TRANSITION} +- {ITS_ERROR}")
    draw(temperatures, ratios, {size: jackknife(found.density.reshape(-1, found.density.shape[-1]))
                               for size, found in sizes.items()})
    return 0


def draw(temperatures: NDArray[np.float64], ratios: Dict[int, Estimate], distributions: Dict[int, Estimate]) -> None:
    figure, panels = plt.subplots(1, 2, figsize=(6.4, 2.7), layout="constrained")
    for size, (value, error) in ratios.items():
        panels[0].errorbar(temperatures, value, error, marker="o", markersize=2, linewidth=0.8, label=f"L = {size}")
    panels[0].axvspan(TRANSITION - ITS_ERROR, TRANSITION + ITS_ERROR, alpha=0.3)
    panels[0].set(xlabel="T", ylabel="Binder ratio")
    panels[0].legend()
    for size, (value, error) in distributions.items():
        edges = overlap_edges(size ** 3)
        middle = (edges[1:] + edges[:-1]) / 2
        line, = panels[1].plot(middle, value, linewidth=0.9)
        panels[1].fill_between(middle, value - error, value + error, alpha=0.3, color=line.get_color())
    panels[1].set(xlabel="q", ylabel=f"P(q) at T = {temperatures[0]:g}", ylim=(0, None))
    save(str(here / "figure.png"), figure)
    print("wrote figure.png")


if __name__ == "__main__":
    sys.exit(status_of_study(__doc__, main))
