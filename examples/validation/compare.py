#!/usr/bin/env python3
"""Prints the tables of the validation, of what runs.py has kept.

    python3 compare.py seed_measured        of the runs that were made here
    python3 compare.py measured             of those of docs/manual/validation.md
    python3 compare.py measured --page ../../docs/manual/validation.md

The last one writes them into that page: each table in the place of the one with its head, each sentence in the place of
the line that begins as it does up to its first number. tests/analysis holds the page to it.
"""
from __future__ import annotations

import contextlib
import csv
import io
import math
import re
import sys
from pathlib import Path
from typing import Dict, List, Sequence, Tuple

sys.dont_write_bytecode = True
from parts import BY_NAME, CRITICAL_BETA, NISHIMORI, here  # noqa: E402
from compare_sums import print_sums, print_transition  # noqa: E402
from judged import (Known, Numbers, Runs, beside, chance, chi_square, deviation, distance, halves, head, line, probability, read_runs,  # noqa: E402
                    spelled)
from runs import OTHERS, REFERENCE, SHORTER  # noqa: E402

import numpy as np  # noqa: E402

from exit_status import status_of_study  # noqa: E402
from glass_analysis import Estimate, jackknife  # noqa: E402
from make_tables import Refusal  # noqa: E402


# ---------------------------------------------------------------- what is known

# The transfer matrix of a layer of 16 spins: tools/reference/exact_ising.py.
FERROMAGNET = (-2.515073, -1.293228, -0.932611, -0.316619)
# The rest is from memory of the literature, and could not be looked up. Energy per bond of the infinite ferromagnet at
# its critical temperature: R. Haggkvist et al., Adv. Phys. 56, 653 (2007).
CRITICAL_ENERGY = Known(-3 * 0.3302022, 3 * 0.0000005)
# The exponents of the three-dimensional Ising model: M. Hasenbusch, Phys. Rev. B 104, 014426 (2021).
NU, OMEGA = 0.62998, 0.825
# U4 = 1.4899(28) at the transition: M. Baity-Jesi et al., Phys. Rev. B 88, 224416 (2013).
BINDER = Known((3 - 1.4899) / 2, 0.0028 / 2)
# With fewer runs than these an error is too rough to weigh sizes by it.
ENOUGH = 5
# Mean ground-state energies per site: K. F. Pal, Physica A 223, 283 (1996).
GROUND = {4: Known(-1.73749, 0.00008), 6: Known(-1.77130, 0.00012)}


def exact_glasses() -> List[float]:
    """By glass and inverse temperature: the transfer matrix of tools/reference/exact_energies.c."""
    table = np.loadtxt(here.parent / "samples_4" / "exact.txt", skiprows=1)
    energies = {(int(sample), beta): energy for sample, beta, energy, _ in table}
    return [energies[glass, beta] for glass in range(3) for beta in (2.0, 1.0, 0.5)]


# ---------------------------------------------------------------- arithmetic


def binder(means: Numbers) -> Numbers:
    return (3 - means[..., 1] / means[..., 0] ** 2) / 2


def at_infinity(sizes: Sequence[int], energies: Sequence[Estimate]) -> Tuple[Estimate, float]:
    """The energy of the infinite lattice by E + a L^(1/nu - 3) (1 + b L^-omega), and the fit's chi-square."""
    lengths = np.array(sizes, float)
    leading = lengths ** (1 / NU - 3)
    terms = np.stack([np.ones_like(lengths), leading, leading * lengths ** -OMEGA], axis=-1)
    errors = np.array([float(energy.error) for energy in energies])
    scaled, wanted = terms / errors[:, None], np.array([float(energy.value) for energy in energies]) / errors
    found, *_ = np.linalg.lstsq(scaled, wanted, rcond=None)
    covariance = np.linalg.inv(scaled.T @ scaled)
    return Estimate(found[0], np.sqrt(covariance[0, 0])), float(((scaled @ found - wanted) ** 2).sum())


# ---------------------------------------------------------------- tables


def print_exact(folder: Path) -> List[Tuple[float, int]]:
    """The rows of exact numbers, and by study the probability and the number of values."""
    parts = [("4³ ferromagnet", "ferromagnet_4", [f"β = {beta}" for beta in ("0.3", "0.22165463", "0.2", "0.1")], FERROMAGNET),
             ("exact glasses of 4³", "glasses_4", [f"glass {glass}, β = {beta}" for glass in range(3) for beta in ("2", "1", "0.5")],
              exact_glasses())]
    parts += [("Nishimori line, 8³", f"nishimori_8_{beta}", [f"β = {beta}"], [-3 * math.tanh(beta)]) for beta in NISHIMORI]
    head("energy per site", "exact", "measured", "error", "in errors")
    studies: Dict[str, List[Tuple[Numbers, Sequence[float]]]] = {}
    for what, name, labels, known in parts:
        runs = read_runs(folder, name)
        if runs is None:
            continue
        for n, label in enumerate(labels):
            line(f"{what}, {label}", Known(known[n]), Estimate(*(part[n] for part in deviation(runs.whole))))
        studies.setdefault(what, []).append((runs.whole, known))
    found = []
    for what, own in studies.items():
        exact = [value for _, known in own for value in known]
        found.append((probability(beside([values for values, _ in own]), exact), len(exact)))
        print(f"| all of {what}: probability | | {found[-1][0]:.3f} | | |")
    return found


def print_reference(folder: Path) -> None:
    """Exact energies beside those of the program and those of the independent one with its second generator."""
    head("energy per site", "exact", "program", "error", "in errors", "second generator", "error", "in errors")
    found: List[float] = []
    for name, known in (("ferromagnet_4", FERROMAGNET), ("glasses_4", exact_glasses())):
        both = [read_runs(folder, which) for which in (name, f"reference_{name}")]
        if None in both:
            continue
        for n, label in enumerate(BY_NAME[name].heads):
            text = f"| {name}, {label} | {spelled(known[n])} |"
            for runs in both:
                ours = Estimate(*(part[n] for part in deviation(runs.whole)))
                text += f" {spelled(float(ours.value))} | {spelled(float(ours.error))} | {distance(ours, Known(known[n])):+.2f} |"
            print(text)
        chances = [probability(runs.whole, known) for runs in both]
        print(f"| {name}, all: probability | | {chances[0]:.3f} | | | {chances[1]:.3f} | | |")
        found += chances
    if found:
        print(f"\nThe least of these probabilities is {min(found):.3f}.")


def published(what: str, known: Known, ours: Estimate, runs: int, places: int = 5) -> float:
    """Prints a row, and answers its probability."""
    away = distance(ours, known)
    print(f"| {what} | {spelled(known.value, places)} ± {spelled(known.error, places)} | {spelled(float(ours.value), 5)} "
          f"| {spelled(float(ours.error), 5)} | {runs} | {away:+.2f} | {chance(away, runs):.2f} |")
    return chance(away, runs)


def print_published(folder: Path) -> List[Tuple[float, int]]:
    """The rows of published numbers, and by number its probability and how many values of ours stand beside it."""
    head("what", "published", "measured", "error", "runs", "in errors", "probability")
    chances: List[float] = []
    numbers: List[Tuple[float, int]] = []
    sizes = {size: read_runs(folder, f"critical_{size}") for size in (8, 12, 16, 24)}
    energies = {size: deviation(runs.whole[:, 0]) for size, runs in sizes.items() if runs is not None}
    for size, energy in energies.items():
        runs = len(sizes[size].whole)  # type: ignore[union-attr]
        print(f"| energy of the {size}³ ferromagnet at β = {CRITICAL_BETA} | | {spelled(float(energy.value), 5)} "
              f"| {spelled(float(energy.error), 5)} | {runs} | | |")
    are_known = {size: energy for size, energy in energies.items() if len(sizes[size].whole) >= ENOUGH}  # type: ignore[union-attr]
    if len(are_known) > 2:
        limit, square = at_infinity(list(are_known), list(are_known.values()))
        fewest = min(len(sizes[size].whole) for size in are_known)  # type: ignore[union-attr]
        chances.append(published("the same of the infinite lattice, from these", CRITICAL_ENERGY, limit, fewest, 7))
        numbers.append((chances[-1], 1))
        print(f"| chi-square of that fit, with {len(are_known) - 3} degrees of freedom | | {square:.2f} | | | | |")
    ratios: List[float] = []
    for size in (4, 6, 8, 12):
        found = read_runs(folder, f"binder_{size}")
        if found is not None:
            ratios.append(published(f"Binder ratio at T = 1.1019, size {size}", BINDER, jackknife(found.whole, binder), len(found.whole)))
    # The published number is that of large sizes, and our errors are below the corrections of small ones.
    chances += ratios[-1:]
    numbers += [(ratio, 1) for ratio in ratios[-1:]]
    for size, known in GROUND.items():
        found = read_runs(folder, f"ground_{size}")
        if found is not None:
            energy = Estimate(*(part[0] for part in deviation(found.whole)))
            chances.append(published(f"mean ground-state energy per site, size {size}", known, energy, len(found.whole)))
            numbers.append((chances[-1], 1))
            print(f"| samples of size {size} whose least energy one replica alone has seen | | {spelled(found.whole[:, 1].mean(), 5)} "
                  "| | | | |")
    if chances:
        print(f"\nOf the {len(chances)} numbers with a published one beside them the least probability is {min(chances):.2f}; "
              f"the least of so many is as small by chance with probability {1 - (1 - min(chances)) ** len(chances):.2f}.")
    return numbers


def print_runs(folder: Path) -> None:
    """What ran, and how long all runs would take by the same rates."""
    head("part", "runs", "of", "samples", "epochs", "left out", "processor minutes", "of all runs", "probability of halves as different")
    total = whole = 0.0
    for name in [*OTHERS, *(f"reference_{name}" for name in REFERENCE)]:
        runs, part, is_own = read_runs(folder, name), BY_NAME[name.replace("reference_", "")], name in OTHERS
        if runs is None:
            continue
        epochs, skip = (part.epochs, part.skip) if is_own else (part.epochs // SHORTER, part.skip // SHORTER)
        samples = part.samples if is_own else REFERENCE[part.name]
        minutes, number = runs.seconds / 60, len(runs.whole)
        total, whole = total + minutes, whole + (minutes * part.runs / number if is_own else 0)
        all_runs, rate = (f"{part.runs}", f"{minutes * part.runs / number:.0f}") if is_own else ("", "")
        print(f"| {name} | {number} | {all_runs} | {samples} | {epochs} | {skip} | {minutes:.2f} | {rate} | {spelled(halves(runs), 2)} |")
    print(f"| all | | | | | | {total:.1f} | {whole:.0f} | |")
    print(f"\nAll that ran took {total:.1f} processor minutes.")


def print_series(folder: Path) -> None:
    """Which commands made the runs, of which commit's program, and where."""
    path = folder / "series.csv"
    if not path.exists():
        return
    head("made by", "program", "commit", "day", "machine", "beside it")
    with open(path, newline="", encoding="utf-8") as stream:
        for row in csv.DictReader(stream):
            print(f"| `{row['command']}` | {row['program']} | {row['commit']} | {row['date']} | {row['machine']} | {row['load']} |")


def print_all(folder: Path) -> None:
    print_series(folder)
    found = print_exact(folder)
    if found:
        total, degrees, chance = chi_square(found)
        print(f"\nChi-square of all exact numbers: {total:.1f} with {degrees} degrees of freedom, probability {chance:.3f}.")
    print_reference(folder)
    published_ones = print_published(folder)
    if found and published_ones:
        total, degrees, chance = chi_square(found + published_ones)
        print(f"\nAll numbers together, exact and published: chi-square {total:.1f} with {degrees} degrees of freedom, probability "
              f"{chance:.3f}.")
    print_sums(folder)
    print_transition(folder)
    print_runs(folder)


def placed(page: str, printed: str) -> str:
    """A page with the tables and the sentences that were printed, in the places of its own."""
    lines = page.splitlines()
    for block in printed.strip().split("\n\n"):
        own = block.splitlines()
        begin = own[0] if own[0].startswith("|") else re.split(r"[-\d]", own[0])[0]
        at = [n for n, line in enumerate(lines) if line == begin or (begin != own[0] and line.startswith(begin))]
        if len(at) != 1:
            raise Refusal(f"the page has {len(at)} places for: {begin}")
        end = at[0] + 1
        while own[0].startswith("|") and end < len(lines) and lines[end].startswith("|"):
            end += 1
        lines[at[0]:end] = own
    return "\n".join(lines) + "\n"


def main(words: List[str]) -> int:
    folder = here / words[0] if words else None
    if folder is None or not folder.is_dir() or len(words) not in (1, 3) or words[1:2] not in ([], ["--page"]):
        raise Refusal("the folder of kept values is needed: seed_measured, once study has run, or measured; --page PAGE writes them")
    printed = io.StringIO()
    with contextlib.redirect_stdout(printed):
        print_all(folder)
    print(printed.getvalue(), end="")
    if len(words) == 3:
        page = Path(words[2])
        page.write_text(placed(page.read_text(encoding="utf-8"), printed.getvalue()), encoding="utf-8")
    return 0


if __name__ == "__main__":
    sys.exit(status_of_study(__doc__, main))
