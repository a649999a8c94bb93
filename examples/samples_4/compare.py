#!/usr/bin/env python3
"""Compares the energies of each sample with the exact ones of exact.txt, and draws them: figure.png.

    python3 compare.py seed_1.txt seed_2.txt ..        reports of study
"""
from __future__ import annotations

import math
import sys
from pathlib import Path
from typing import Dict, List, Tuple

sys.dont_write_bytecode = True
here = Path(__file__).resolve().parent
sys.path.insert(0, str(here.parent.parent / "tools"))

import numpy as np  # noqa: E402

from exit_status import status_of_study  # noqa: E402
from glass_analysis import equilibration, jackknife, moments, read_reports, round_trips  # noqa: E402
from glass_analysis.figures import plt, save  # noqa: E402
from glass_analysis.reports import Records  # noqa: E402
from make_tables import Refusal  # noqa: E402

SKIP = 1000
BETAS = [2, 1.4, 1, 0.7, 0.5]
COLDEST = 8.0


def read_exact() -> Dict[Tuple[int, float], Tuple[float, float]]:
    """Energy per site and ln Z by sample and inverse temperature."""
    table = np.loadtxt(here / "exact.txt", skiprows=1, ndmin=2)
    return {(int(sample), beta): (energy, logarithm) for sample, beta, energy, logarithm in table}


def steps_in_errors(reports: List[Records]) -> List[float]:
    """The last steps between parts of the run that double, energy of slot 0 over all samples."""
    return [float(one.step.value[0, 0] / one.step.error[0, 0]) for one in equilibration(reports) if one.step is not None][-3:]


def main(names: List[str]) -> int:
    if not names:
        raise Refusal("the reports of the seeds are needed")
    exact = read_exact()
    reports = read_reports(names, SKIP)
    sites = reports[0].sites
    energy = np.stack([moments(records)[..., 0] for records in reports])
    value, error = jackknife(energy)
    worst = 0.0
    print("sample beta    measured     error       exact  in errors")
    for sample in range(reports[0].samples):
        for slot, beta in enumerate(BETAS):
            known = exact.get((sample, beta))
            if known is None:
                continue
            away = (value[sample, slot] - known[0]) / error[sample, slot]
            worst = max(worst, abs(away))
            print(f"{sample:>6} {beta:<5g} {value[sample, slot]:>10.6f} {error[sample, slot]:>9.6f} {known[0]:>11.6f} {away:>+10.2f}")
        if (sample, COLDEST) in exact:
            known = exact[sample, COLDEST]
            level = round(known[0] * sites)
            number = round(math.exp(known[1] + COLDEST * level))
            least = min(int(records.energies[:, sample].min()) for records in reports)
            print(f"{sample:>6} ground states: {number} of energy {level}; the least energy seen is {least}")
    print(f"the greatest difference is {worst:.2f} errors")
    print("last steps of slot 0, in errors: " + " ".join(f"{step:+.2f}" for step in steps_in_errors(read_reports(names))))
    print(f"round trips of all configurations: {sum(int(round_trips(records).sum()) for records in reports)}")
    draw(value, error, exact)
    return 0


def draw(value: np.ndarray, error: np.ndarray, exact: Dict[Tuple[int, float], Tuple[float, float]]) -> None:
    figure, panels = plt.subplots(1, 2, figsize=(7, 2.8), layout="constrained")
    for sample in range(len(value)):
        slots = [slot for slot, beta in enumerate(BETAS) if (sample, beta) in exact]
        known = np.array([exact[sample, BETAS[slot]][0] for slot in slots])
        across = np.array([1 / BETAS[slot] for slot in slots])
        points, = panels[0].plot(across, value[sample, slots], "o", markersize=3, label=f"sample {sample}")
        panels[0].plot(across, known, "_", markersize=12, color=points.get_color())
        panels[1].errorbar(across + 0.02 * (sample - 1), (value[sample, slots] - known) / error[sample, slots],
                           1, fmt="o", markersize=3, capsize=2)
    panels[0].set(xlabel="temperature", ylabel="energy per site, exact as bars")
    panels[0].legend()
    panels[1].axhline(0, linewidth=0.8)
    panels[1].set(xlabel="temperature", ylabel="(measured - exact) / error")
    save(str(here / "figure.png"), figure)
    print("wrote figure.png")


if __name__ == "__main__":
    sys.exit(status_of_study(__doc__, main))
