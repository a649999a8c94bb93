"""Link overlap, correlations along the axes and coherence length, from what `glass lines` prints of a saved state.

The reader is that of lines_report.py, which tests each line. The sums stand in docs/specification/correlation_lines.md.
"""
from __future__ import annotations

import io
from dataclasses import dataclass
from typing import List, NamedTuple, Optional, Sequence

import numpy as np

from analyse import read_each
from lines_report import Lines, blocks_of
from make_tables import Refusal

from .errors import Estimate, Numbers, jackknife
from .reports import Integers

# Distances are summed up to the first whose correlation is below so many times its error.
CUT = 3.0
# Fewer distances than these above the noise are no decay.
LEAST_DISTANCES = 4
# Correlations far from equilibrium fall as r^-POWER exp(-(r / xi)^STRETCH) near and below the transition (F. Belletti et
# al., J. Stat. Phys. 135, 1121 (2009)). The part beyond the cut is taken from that shape.
POWER, STRETCH = 0.4, 1.5
# More than this part of the length may not come from beyond the cut.
MOST_TAIL = 0.1
# Below a side of so many lengths the lattice bounds a length (the same authors).
SIDES = 7
# The shape is summed so many sides far; there it is 0 for any length that is told.
FAR = 8


@dataclass(frozen=True)
class CorrelationLines:
    """Sums over the lattice of one state, as whole numbers.

    `links[sample, slot]` is over the 3 size^3 bonds, `lines[sample, slot, r - 1]` over the sites and the three
    directions at r steps, r from 1 to half the side.
    """
    name: str
    size: int
    epoch: int
    links: Integers
    lines: Integers

    @property
    def slots(self) -> int:
        return self.links.shape[1]

    @property
    def samples(self) -> int:
        return self.links.shape[0]


def read_lines(names: Sequence[str]) -> List[CorrelationLines]:
    """Files of states that differ in their seeds alone, `-` for standard input. Refusal where one is damaged."""
    files = list(read_each(names, read_one))
    # It refuses states of other runs, and one state twice.
    blocks_of(files)
    return [CorrelationLines(file.name, file.header.size, file.header.epoch,
                             np.array([[sums.link for sums in of_slot] for of_slot in file.sums], np.int64).T,
                             np.array([[sums.lines for sums in of_slot] for of_slot in file.sums], np.int64).swapaxes(0, 1))
            for file in files]


def read_one(name: str, stream: io.BufferedReader) -> Lines:
    if stream.peek(6)[:6] != b"lines ":
        raise Refusal(f"{name} is not what glass lines prints")
    return Lines(name, stream)


def axis_correlations(state: CorrelationLines) -> Numbers:
    """C(r), the mean of q(i) q(k) over sites and directions, by sample, slot and distance r from 0, where it is 1."""
    measured = state.lines / (3 * state.size ** 3)
    return np.concatenate([np.ones((*measured.shape[:2], 1)), measured], axis=-1)


def link_overlap(correlations: Numbers) -> Numbers:
    """The mean of q(i) q(j) over the bonds (i, j), which is C(1)."""
    return correlations[..., 1]


class Coherence(NamedTuple):
    """The coherence length of a slot in lattice steps, or why none can be told.

    `cut` is the last distance whose correlation was summed, `tail` what the part beyond it adds to the length, and
    `nearer` the length with a cut one step nearer less this one.
    """
    length: Optional[Estimate]
    cut: int
    tail: float
    nearer: float
    refusal: str


def coherence_length(parts: Numbers, side: int) -> Coherence:
    """xi_12 = I_2 / I_1 with I_k the sum of r^k C(r), of blocks of C(r) from r = 0 on, for a lattice of this side.

    Sums take the measured correlations up to the cut, and beyond it the shape that is fitted to them. The error is a
    jackknife of the whole, with the cut where it is (F. Belletti et al., J. Stat. Phys. 135, 1121 (2009)).
    """
    if len(parts) < 2:
        return Coherence(None, 0, np.nan, np.nan, "one block has no errors, so no cut")
    mean, error = jackknife(parts)
    gone = np.flatnonzero(mean[1:] < CUT * error[1:])
    if not len(gone):
        return Coherence(None, side // 2, np.nan, np.nan, "correlated up to half the side")
    cut = int(gone[0])
    if cut < LEAST_DISTANCES:
        return Coherence(None, cut, np.nan, np.nan, f"only {cut} distances above the noise")
    weights = mean[: cut + 1] / error[: cut + 1].clip(min=1e-300)
    length = jackknife(parts, lambda means: length_of(means, cut, weights, side))
    summed = length_of(mean, cut, weights, 0)
    found = Coherence(length, cut, float(length.value - summed),
                      float(length_of(mean, cut - 1, weights, side) - length.value), "")
    if not np.isfinite(length.value):
        return found._replace(length=None, refusal="no decay up to the cut")
    if abs(found.tail) > MOST_TAIL * length.value:
        return found._replace(length=None, refusal=f"{found.tail / length.value:.0%} would come from beyond the cut")
    if SIDES * length.value > side:
        return found._replace(length=None, refusal=f"above a {SIDES}th of the side")
    return found


def length_of(correlations: Numbers, cut: int, weights: Numbers, side: int) -> Numbers:
    """I_2 / I_1 of one line of correlations: measured ones up to the cut, the fitted shape beyond it unless the side is 0."""
    steps = np.arange(1, cut + 1)
    sums = [steps ** power @ correlations[1: cut + 1] for power in (1, 2)]
    if side:
        beyond = np.arange(cut + 1, FAR * side)
        shape = fitted_shape(correlations, cut, weights, beyond)
        sums = [total + beyond ** float(power) @ shape for power, total in zip((1, 2), sums)]
    return np.asarray(sums[1] / sums[0])


def fitted_shape(correlations: Numbers, cut: int, weights: Numbers, beyond: Numbers) -> Numbers:
    """The shape through the outer half of the distances up to the cut, by weighted least squares of its logarithm, which
    is a straight line in r^STRETCH; nan where it doesn't fall."""
    steps = np.arange(max(1, cut - max(cut // 2, 2)), cut + 1).astype(float)
    inner = steps.astype(int)
    if not (correlations[inner] > 0).all():
        return np.full(len(beyond), np.nan)
    slope, constant = np.polyfit(steps ** STRETCH, np.log(correlations[inner] * steps ** POWER), 1, w=weights[inner])
    if slope >= 0:
        return np.full(len(beyond), np.nan)
    return beyond ** -POWER * np.exp(constant + slope * beyond ** STRETCH)
