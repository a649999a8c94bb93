#!/usr/bin/env python3
"""Tells whether the runs of this study are equilibrated, and draws their energies beside the exact ones: figure.png.

    python3 compare.py seed_1.txt seed_2.txt ..        reports of study
"""
from __future__ import annotations

import sys
from pathlib import Path
from typing import List

sys.dont_write_bytecode = True
here = Path(__file__).resolve().parent
sys.path.insert(0, str(here.parent.parent / "tools"))

import numpy as np  # noqa: E402

from exit_status import status_of_study  # noqa: E402
from glass_analysis import (Estimate, acceptance, autocorrelation_time, blocks, equilibration, jackknife,  # noqa: E402
                            moments, read_reports, round_trips)
from glass_analysis.figures import plt, save  # noqa: E402
from make_tables import Refusal  # noqa: E402

SKIP = 100
BETAS = np.array([0.3, 0.22165463, 0.2, 0.1])
EXACT = np.array([-2.515073, -1.293228, -0.932611, -0.316619])


def main(names: List[str]) -> int:
    if not names:
        raise Refusal("the reports of the seeds are needed")
    whole, reports = read_reports(names), read_reports(names, SKIP)
    energy = jackknife(blocks([moments(records)[..., 0] for records in reports]))
    steps = [one.step.value[:, 0] / one.step.error[:, 0] for one in equilibration(whole) if one.step is not None][-6:]
    print("slot   steps between parts of the runs that double, in errors   time, epochs")
    for slot in range(len(BETAS)):
        in_errors = " ".join(f"{step[slot]:+.2f}" for step in steps)
        time = autocorrelation_time(np.concatenate([r.energies[:, 0, slot] for r in reports], axis=1)).value
        print(f"{slot:>4}   {in_errors:>52}   {time:>12.2f}")
    rates = acceptance(reports)
    assert rates is not None, "each epoch is recorded"
    print("exchanges made of those tried: " + " ".join(f"{value:.4f}" for value in rates.value))
    print(f"round trips of all configurations: {sum(int(round_trips(records).sum()) for records in reports)}")
    draw(energy)
    return 0


def draw(energy: Estimate) -> None:
    figure, panels = plt.subplots(1, 2, figsize=(7, 2.8), layout="constrained")
    panels[0].plot(BETAS, EXACT, "_", markersize=14, label="exact")
    panels[0].errorbar(BETAS, energy.value, energy.error, fmt="o", markersize=3, label="measured")
    panels[0].set(xlabel="β", ylabel="energy per site")
    panels[0].legend()
    panels[1].axhline(0, linewidth=0.8)
    panels[1].errorbar(BETAS, energy.value - EXACT, energy.error, fmt="o", markersize=3, capsize=2)
    panels[1].set(xlabel="β", ylabel="measured - exact")
    save(str(here / "figure.png"), figure)
    print("wrote figure.png")


if __name__ == "__main__":
    sys.exit(status_of_study(__doc__, main))
