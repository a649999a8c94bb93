"""Figures of estimates, by matplotlib without a display."""
from __future__ import annotations

from pathlib import Path
from typing import Dict, Optional, Sequence, Tuple

import matplotlib

matplotlib.use("Agg")
import matplotlib.pyplot as plt  # noqa: E402
import numpy as np  # noqa: E402
from matplotlib.figure import Figure  # noqa: E402

from make_tables import Refusal  # noqa: E402

from .distributions import Distribution  # noqa: E402
from .equilibrium import Bin, Meeting  # noqa: E402
from .errors import Estimate  # noqa: E402
from .observables import ENERGY, SQUARE  # noqa: E402
from .reports import Records  # noqa: E402
from .sums import BinStep  # noqa: E402
from .walks import positions  # noqa: E402

# Walks that are drawn of longer runs have so many points.
DRAWN_EPOCHS = 400
MARKS = {"marker": "o", "markersize": 3, "capsize": 2, "linewidth": 0.8}


def save(name: str, figure: Figure) -> None:
    """Writes a figure under exactly this name, in the format that it ends with, else as PNG."""
    try:
        figure.savefig(name, dpi=90, format=Path(name).suffix[1:] or "png")
    except (OSError, ValueError) as fault:
        raise Refusal(f"{name} can't be written: {fault}") from None
    plt.close(figure)


def means(across: Sequence[float], what: str, named: Sequence[Tuple[str, Estimate]]) -> Figure:
    """Estimates of all slots, a panel each, against temperature; a slot without a value has no point."""
    figure, panels = plt.subplots(1, len(named), figsize=(3.2 * len(named), 3), layout="constrained", squeeze=False)
    for panel, (name, estimate) in zip(panels[0], named):
        known = np.isfinite(estimate.value)
        panel.errorbar(np.asarray(across)[known], estimate.value[known], np.nan_to_num(estimate.error[known]), **MARKS)
        panel.set(xlabel=what, ylabel=name)
    return figure


def overlaps(named: Sequence[Tuple[str, Distribution]]) -> Figure:
    """Distributions of the overlap, one above the other, with bands of an error on each side."""
    figure, panel = plt.subplots(figsize=(4.5, 3.2), layout="constrained")
    for name, (edges, density) in named:
        middle = (edges[1:] + edges[:-1]) / 2
        error = np.nan_to_num(density.error)
        line, = panel.plot(middle, density.value, label=name, linewidth=1)
        panel.fill_between(middle, density.value - error, density.value + error, alpha=0.3, color=line.get_color())
    panel.set(xlabel="q", ylabel="P(q)", ylim=(0, None))
    panel.legend()
    return figure


def bins(found: Dict[str, Sequence[BinStep]], slots: Sequence[int], names: Sequence[str]) -> Figure:
    """Figures by the number of the bin, a panel each and a curve for each slot."""
    figure, panels = plt.subplots(1, len(found), figsize=(3.2 * len(found), 3), layout="constrained", squeeze=False)
    for panel, (name, steps) in zip(panels[0], found.items()):
        for slot in slots:
            panel.errorbar([one.number for one in steps], [one.value.value[slot] for one in steps],
                           np.nan_to_num([one.value.error[slot] for one in steps]),
                           label=f"T = {names[slot]}" if names[slot] else f"slot {slot}", **MARKS)
        panel.set(xlabel="bin of epochs", ylabel=name)
    panels[0, 0].legend(fontsize=7)
    return figure


def scaling(temperatures: Sequence[float], curves: Dict[str, Dict[int, Estimate]]) -> Figure:
    """Dimensionless figures by temperature, a panel each and a curve for each size."""
    figure, panels = plt.subplots(1, len(curves), figsize=(3.4 * len(curves), 3.2), layout="constrained", squeeze=False)
    for panel, (name, by_size) in zip(panels[0], curves.items()):
        for size, estimate in by_size.items():
            panel.errorbar(temperatures, estimate.value, np.nan_to_num(estimate.error), label=f"L = {size}", **MARKS)
        panel.set(xlabel="temperature", ylabel=name)
    panels[0, 0].legend(fontsize=7)
    return figure


def equilibration(bins: Sequence[Bin], names: Sequence[str], drawn: Sequence[int]) -> Figure:
    """Energy and q^2 of parts of the run that double, by slot."""
    figure, panels = plt.subplots(1, 2, figsize=(7, 3), layout="constrained")
    ends = [one.end for one in bins]
    for panel, moment, what in zip(panels, (ENERGY, SQUARE), ("energy per site", "q²")):
        for slot in drawn:
            panel.errorbar(ends, [one.moments.value[slot, moment] for one in bins],
                           [np.nan_to_num(one.moments.error[slot, moment]) for one in bins], label=names[slot], **MARKS)
        panel.set(xscale="log", xlabel="end of the part, epochs", ylabel=what)
    panels[1].legend()
    return figure


def bracket(meetings: Sequence[Meeting], names: Sequence[str], drawn: Sequence[int]) -> Figure:
    """Energy and q^2 of runs from ordered and from random spins, by part and slot."""
    figure, panels = plt.subplots(1, 2, figsize=(7, 3), layout="constrained")
    ends = [one.end for one in meetings]
    for panel, moment, what in zip(panels, (ENERGY, SQUARE), ("energy per site", "q²")):
        for slot in drawn:
            color = None
            for side, line in (("ordered", "-"), ("random", "--")):
                sides = [getattr(one, side) for one in meetings]
                drawn_line = panel.errorbar(ends, [one.value[slot, moment] for one in sides],
                                            [np.nan_to_num(one.error[slot, moment]) for one in sides], linestyle=line,
                                            color=color, label=f"{names[slot]}, {side}", **MARKS)
                color = drawn_line[0].get_color()
        panel.set(xscale="log", xlabel="end of the part, epochs", ylabel=what)
    panels[1].legend(fontsize="small")
    return figure


def correlations(names: Sequence[str], found: Estimate) -> Figure:
    """C(r) along the axes by slot, with errors, where it is above 0."""
    figure, panel = plt.subplots(figsize=(4.5, 3.2), layout="constrained")
    for name, value, error in zip(names, found.value, found.error):
        steps = np.flatnonzero(value > 0)
        panel.errorbar(steps, value[steps], np.nan_to_num(error[steps]), label=name, **MARKS)
    panel.set(yscale="log", xlabel="r, lattice steps", ylabel="C(r)")
    panel.legend(fontsize="small")
    return figure


def walk(records: Records, sample: int = 0, replica: int = 0, labels: Optional[Sequence[int]] = None) -> Figure:
    """The slot of configurations of one sample, by epoch."""
    places = positions(records)[:, sample, :, replica]
    shown = slice(None, None, max(1, len(places) // DRAWN_EPOCHS))
    figure, panel = plt.subplots(figsize=(6, 2.6), layout="constrained")
    for label in labels if labels is not None else (0, records.slots - 1):
        panel.step(records.epochs[shown], places[shown, label], linewidth=0.8, label=f"began in slot {label}")
    panel.set(xlabel="epoch", ylabel="temperature slot")
    panel.legend(loc="upper right")
    return figure
