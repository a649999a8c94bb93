#!/usr/bin/env python3
"""Compares the energies of this study with the exact ones, and draws them: figure.png.

    python3 compare.py 16        of the runs 1 to 16 at each inverse temperature
"""
from __future__ import annotations

import math
import sys
from pathlib import Path
from typing import Dict, List, Tuple

sys.dont_write_bytecode = True
here = Path(__file__).resolve().parent
sys.path.insert(0, str(here.parent.parent / "tools"))

import numpy as np  # noqa: E402
from numpy.typing import NDArray  # noqa: E402

from exit_status import status_of_study  # noqa: E402
from glass_analysis import (Estimate, autocorrelation_time, blocks, equilibration, jackknife, moments,  # noqa: E402
                            read_reports)
from glass_analysis.figures import plt, save  # noqa: E402
from glass_analysis.reports import Records  # noqa: E402
from make_tables import Refusal  # noqa: E402

SKIP = 500


def exact(beta: float) -> float:
    """The energy per site on the Nishimori line, for every size."""
    return -3 * math.tanh(beta)


def squares(values: NDArray[np.float64], known: float) -> List[float]:
    """Of energies, samples along axis 1: the mean square of how far their mean over the samples is from the exact
    energy, and that of the error which the deviation of the sample means tells."""
    means, variances = values.mean(axis=1), values.var(axis=1, ddof=1) / values.shape[1]
    return [float(np.mean((means - known) ** 2)), float(np.mean(variances))]


def of_a_record(records: Records) -> NDArray[np.float64]:
    """The energies per site in slot 0 of each record and replica, by sample."""
    return np.concatenate([records.energies[:, :, 0, replica] for replica in range(2)]) / records.sites


def distances(betas: List[float], what: str, by_run: List[NDArray[np.float64]]) -> Estimate:
    """The ratios of the roots of both of `squares`, by inverse temperature; prints a line for each."""
    print(f"\n{what}\nbeta    distance   from its samples     ratio     error")
    ratios = [jackknife(parts, lambda means: np.sqrt(means[0] / means[1])) for parts in by_run]
    for beta, parts, (ratio, error) in zip(betas, by_run, ratios):
        distance, of_samples = np.sqrt(parts.mean(axis=0))
        print(f"{beta:<5g} {distance:>10.6f} {of_samples:>18.6f} {float(ratio):>9.2f} {float(error):>9.2f}")
    return Estimate(np.array([ratio for ratio, _ in ratios]), np.array([error for _, error in ratios]))


def main(words: List[str]) -> int:
    betas = sorted(float(folder.name[5:]) for folder in here.glob("seed_*"))
    if len(words) != 1 or not words[0].isdecimal() or int(words[0]) < 2 or not betas:
        raise Refusal("the number of runs that study has made is needed, from 2 on")
    found, of_runs, of_records = [], [], []
    print("beta    measured     error       exact  in errors   last steps, in errors   time, epochs")
    for beta in betas:
        whole = read_reports([str(here / f"seed_{beta:g}" / f"report_{run}.txt") for run in range(1, int(words[0]) + 1)])
        reports = [records.after(SKIP) for records in whole]
        energy = [moments(records)[:, 0, :1] for records in reports]
        value, error = (float(part[0]) for part in jackknife(blocks(energy)))
        steps = [float(one.step.value[0, 0] / one.step.error[0, 0]) for one in equilibration(whole) if one.step is not None][-3:]
        series = np.concatenate([r.energies[:, :, 0].reshape(len(r.epochs), -1) for r in reports], axis=1)
        time = autocorrelation_time(series).value * (reports[0].every or 1)
        print(f"{beta:<5g} {value:>10.6f} {error:>9.6f} {exact(beta):>11.6f} {(value - exact(beta)) / error:>+10.2f}   "
              + " ".join(f"{step:>+6.2f}" for step in steps) + f"   {time:>12.1f}")
        found.append((value, error))
        of_runs.append(np.array([squares(by_sample.T, exact(beta)) for by_sample in energy]))
        of_records.append(np.array([squares(of_a_record(records), exact(beta)) for records in reports]))
    ratios = {"a run": distances(betas, "Of one run: distance of its mean energy from the exact one, root of the mean square", of_runs),
              "a record": distances(betas, "Of one record of one replica: the same", of_records)}
    draw(betas, found, ratios)
    return 0


def draw(betas: List[float], found: List[Tuple[float, float]], ratios: Dict[str, Estimate]) -> None:
    figure, panels = plt.subplots(1, 3, figsize=(9, 2.8), layout="constrained")
    line = np.linspace(0, max(betas) * 1.05, 100)
    panels[0].plot(line, -3 * np.tanh(line), linewidth=1, label="-3 tanh β")
    panels[0].errorbar(betas, [value for value, _ in found], [error for _, error in found], fmt="o", markersize=3, label="measured")
    panels[0].set(xlabel="β", ylabel="energy per site")
    panels[0].legend()
    panels[1].axhline(0, linewidth=0.8)
    panels[1].errorbar(betas, [value - exact(beta) for beta, (value, _) in zip(betas, found)],
                       [error for _, error in found], fmt="o", markersize=3, capsize=2)
    panels[1].set(xlabel="β", ylabel="measured - exact")
    panels[2].axhline(1, linewidth=0.8)
    for name, (ratio, error) in ratios.items():
        panels[2].errorbar(betas, ratio, error, marker="o", markersize=3, capsize=2, linewidth=0.8, label=name)
    panels[2].set(xlabel="β", ylabel="distance / error of samples", ylim=(0, None))
    panels[2].legend()
    save(str(here / "figure.png"), figure)
    print("wrote figure.png")


if __name__ == "__main__":
    sys.exit(status_of_study(__doc__, main))
