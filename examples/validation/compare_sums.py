"""The tables of what `measure` sums up: beside exact means, and at the transition of the spin glass."""
from __future__ import annotations

import csv
import math
import sys
from pathlib import Path
from typing import Callable, Dict, List, NamedTuple, Sequence, Tuple

sys.dont_write_bytecode = True
from parts import BY_NAME, CURVES, FERROMAGNET_SUMS, INDEPENDENT_SUMS, KEPT, TRANSITION, here  # noqa: E402
from judged import Known, Numbers, Runs, beside, chi_square, deviation, distance, head, line, probability, read_runs, spelled  # noqa: E402
from runs import TRANSITION as SIZES  # noqa: E402

import numpy as np  # noqa: E402

from glass_analysis import Estimate, jackknife  # noqa: E402
from glass_analysis.scaling import crossing_of  # noqa: E402
from glass_analysis.sums import HIST, PLACE, Means, length_by, length_over_side, r_12  # noqa: E402
from measured_text import CLASSES  # noqa: E402

# ---------------------------------------------------------------- exact means

# D adds up to three squares of the overlap and F to six: so these are given by the others, and stand in the table alone.
GIVEN = ("q2", "F0")


class Exact(NamedTuple):
    """Of a part the sums of its slots in the order of its values, what each slot is called, and the exact means."""
    study: str
    part: str
    sums: Sequence[str]
    slots: Sequence[str]
    means: Sequence[float]


def ferromagnet() -> Exact:
    """tools/reference/exact_overlaps.py."""
    with open(here / "exact_sums.csv", newline="") as stream:
        rows = list(csv.DictReader(stream))
    return Exact("4³ ferromagnet", "sums_ferromagnet_4", FERROMAGNET_SUMS, [f"β = {row['beta']}" for row in rows],
                 [float(row[name]) for row in rows for name in FERROMAGNET_SUMS])


def independent() -> Exact:
    """Independent spins: each product of different ones has the mean 0."""
    sites = BY_NAME["sums_independent_8"].size ** 3
    known = {"E2": 6 * sites, "A2": 3 * sites, "q2": sites, "q4": 3 * sites ** 2 - 2 * sites, "D0": 3 * sites, "F0": 6 * sites}
    return Exact("independent spins, 8³", "sums_independent_8", INDEPENDENT_SUMS, ["β = 0"],
                 [float(known.get(name, 0)) for name in INDEPENDENT_SUMS])


def nishimori_means() -> List[float]:
    sites, mean = 8 ** 3, math.tanh(0.6)
    return [-6 * sites * mean, 2 * (3 * sites * (1 - mean ** 2) + 9 * sites ** 2 * mean ** 2)]


def spelled_name(name: str) -> str:
    return f"{name[0]}({name[1:]})" if name[0] in "DF" else name


def means_of(values: Numbers, names: Sequence[str], side: int) -> Means:
    """Means of one slot by the sums that are known, for figures of these alone."""
    distances = side // 2 + 1
    found = np.zeros(HIST + CLASSES + 2 * distances + 2)
    for name, value in zip(names, values):
        start = HIST + CLASSES + (distances if name[0] == "F" else 0)
        found[start + int(name[1:]) if name[0] in "DF" else PLACE[name]] = value
    return Means(found, side)


FIGURES: Dict[str, Callable[[Means], Numbers]] = {"ξ/L": length_over_side, "R12": r_12}


def print_slots(exact: Exact, runs: Runs, figures: Sequence[str]) -> None:
    """A row for each sum, and for figures, of each slot."""
    count, side = len(exact.sums), BY_NAME[exact.part].size
    for n, slot in enumerate(exact.slots):
        known, values = np.array(exact.means[n * count:(n + 1) * count]), runs.whole[:, n * count:(n + 1) * count]
        told = deviation(values)
        for name, value, mean, error in zip(exact.sums, known, told.value, told.error):
            line(f"{exact.study}, {slot}: {spelled_name(name)}", Known(value), Estimate(mean, error), 3)
        for figure in figures:
            def of(means: Numbers) -> Numbers:
                return FIGURES[figure](means_of(means, exact.sums, side))
            line(f"{exact.study}, {slot}: {figure}", Known(float(of(known))), jackknife(values, of), 5)


def judged_columns(exact: Exact) -> List[int]:
    return [n for n, name in enumerate(list(exact.sums) * len(exact.slots)) if name not in GIVEN]


def print_nishimori(folder: Path) -> List[Tuple[float, int]]:
    """All epochs from the first one on, and the first two one by one: runs of two epochs have each in a half."""
    known, rows = nishimori_means(), []
    long, short = (read_runs(folder, f"sums_nishimori_8{name}") for name in ("", "_begin"))
    if long is not None:
        rows.append((f"epochs 0 to {BY_NAME[long.name].epochs - 1}", long.whole))
    if short is not None:
        rows += [("epoch 0 alone", short.first), ("epoch 1 alone", short.last)]
    for what, values in rows:
        told = deviation(values)
        for n, name in enumerate(("E", "E2")):
            line(f"Nishimori line, 8³, β = 0.6, {what}: {name}", Known(known[n]), Estimate(told.value[n], told.error[n]), 3)
    if not rows:
        return []
    found = (probability(beside([values for _, values in rows]), known * len(rows)), 2 * len(rows))
    print(f"| all of Nishimori line, 8³: probability | | {found[0]:.3f} | | |")
    return [found]


def print_sums(folder: Path) -> None:
    """Means of the terms of an epoch beside exact ones."""
    head("mean of a sum of `measure`, an epoch", "exact", "measured", "error", "in errors")
    found = []
    for exact, figures in ((ferromagnet(), tuple(FIGURES)), (independent(), ())):
        runs = read_runs(folder, exact.part)
        if runs is None:
            continue
        print_slots(exact, runs, figures)
        columns = judged_columns(exact)
        found.append((probability(runs.whole[:, columns], [exact.means[n] for n in columns]), len(columns)))
        print(f"| all of {exact.study}: probability | | {spelled(found[-1][0], 3)} | | |")
    found += print_nishimori(folder)
    if found and not any(math.isnan(chance) for chance, _ in found):
        total, degrees, chance = chi_square(found)
        print(f"\nAll exact means of sums: chi-square {total:.1f} with {degrees} degrees of freedom, probability {chance:.3f}.")


# ---------------------------------------------------------------- the transition

# From memory of M. Baity-Jesi et al., Phys. Rev. B 88, 224416 (2013).
TEMPERATURE = Known(1.1019, 0.0029)
PUBLISHED = {"ξ/L": Known(0.652, 0.003), "U4": Known(1.490, 0.003), "R12": Known(2.21, 0.01)}
# Pairs of sizes whose curves are looked at, and up to which temperature.
PAIRS, HOTTEST = ((4, 8), (6, 12), (8, 16)), 1.4


def curve(figure: str, side: int) -> Callable[[Numbers], Numbers]:
    """By temperature, of means of what is kept of a run."""
    def of(means: Numbers) -> Numbers:
        kept = dict(zip(KEPT, np.moveaxis(means.reshape(*means.shape[:-1], -1, len(KEPT)), -1, 0)))
        if figure == "U4":
            return kept["q4"] / kept["q2"] ** 2
        return length_by(kept["q2"] / kept["axis"], side) if figure == "ξ/L" else kept["axis"] / kept["face"]
    return of


def print_figures(sizes: Dict[int, Runs]) -> None:
    head("at T = 1.1019", "size", "runs", "samples", "measured", "error", "published", "in errors")
    slot = CURVES.index(TRANSITION)
    for figure, known in PUBLISHED.items():
        for side, runs in sizes.items():
            told = jackknife(runs.whole, curve(figure, side))
            ours = Estimate(told.value[slot], told.error[slot])
            print(f"| {figure} | {side} | {len(runs.whole)} | {len(runs.whole) * BY_NAME[runs.name].samples} | {ours.value:.4f} "
                  f"| {ours.error:.4f} | {known.value} ± {known.error} | {distance(ours, known):+.1f} |")


def print_crossings(sizes: Dict[int, Runs]) -> None:
    head("curves of", "sizes", "cross at T", "from", "to", "resamples that cross")
    temperatures = np.array([float(word) for word in CURVES])
    near = temperatures <= HOTTEST
    sentence = ""
    for figure in PUBLISHED:
        for pair in PAIRS:
            if not all(side in sizes for side in pair):
                continue
            curves = [curve(figure, side) for side in pair]
            found = crossing_of(temperatures[near], [sizes[side].whole for side in pair],
                                [lambda means, of=of: of(means)[..., near] for of in curves], figure != "U4")
            ends = [spelled(end, 3) for end in found[:3]]
            print(f"| {figure} | {pair[0]}, {pair[1]} | {ends[0]} | {ends[1]} | {ends[2]} | {1 - found.missing:.0%} |")
            if figure == "ξ/L" and not math.isnan(found.value):
                sentence = (f"\nCurves of ξ/L of sizes {pair[0]} and {pair[1]} cross at T = {ends[0]}, between {ends[1]} and {ends[2]}; the "
                            f"transition is at {TEMPERATURE.value} ± {TEMPERATURE.error}.")
    print(sentence)


def print_transition(folder: Path) -> None:
    kept = {BY_NAME[name].size: read_runs(folder, name) for name in SIZES}
    sizes = {side: runs for side, runs in kept.items() if runs is not None}
    if not sizes:
        return
    print_figures(sizes)
    print_crossings(sizes)
    head("size at the transition", "runs", "of", "samples a run", "epochs", "left out", "processor minutes", "of all runs",
         "second half less quarter before: [q²] at T = 1.05, in errors")
    total = whole = 0.0
    for side, runs in sizes.items():
        part, minutes, number = BY_NAME[runs.name], runs.seconds / 60, len(runs.whole)
        step = deviation((runs.last - runs.first)[:, 0])
        total, whole = total + minutes, whole + minutes * part.runs / number
        print(f"| {side} | {number} | {part.runs} | {part.samples} | {part.epochs} | {part.skip} | {minutes:.1f} | "
              f"{minutes * part.runs / number:.0f} | {step.value / step.error:+.1f} |")
    print(f"| all | | | | | | {total:.1f} | {whole:.0f} | |")
    print(f"\nAll runs of the study at the transition take {whole / 60:.1f} processor hours by these rates.")
