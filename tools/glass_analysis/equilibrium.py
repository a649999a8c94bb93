"""Whether a run is equilibrated: parts of it that double, sample by sample, and two runs that meet from both sides."""
from __future__ import annotations

from functools import lru_cache
from typing import List, NamedTuple, Optional, Sequence, Tuple

import numpy as np
from numpy.typing import NDArray
from scipy import optimize, stats

from make_tables import Refusal

from .errors import Estimate, Numbers, jackknife
from .observables import MOMENTS, blocks, moments
from .reports import Records

# The error of one sample's mean over a part is that of the means of so many pieces of it.
PIECES = 8


def doubling_bins(epochs: NDArray[np.int64]) -> List[Tuple[int, int]]:
    """Parts of a run whose ends are the whole, a half, a quarter .. of it, as places in `epochs`, the last first.

    A part has the recorded epochs from half of its end on, and at least two of them.
    """
    bins, end = [], len(epochs)
    first = int(epochs[0]) if end else 0
    span = int(epochs[-1]) + 1 - first if end else 0
    while end >= 4:
        start = int(np.searchsorted(epochs, first + span // 2))
        if end - start < 2 or start < 1:
            break
        bins.append((start, end))
        end, span = start, span // 2
    return bins


class Parts(NamedTuple):
    """A report by parts that double, the first part first.

    `ends` are the epochs from which to before which a part goes; `means` are by part, sample, slot and moment, `errors`
    those of a sample's means from its own pieces in time, nan where a part is too short for them. `parities` are the
    energies of each sample modulo 4, which its couplings fix.
    """
    name: str
    ends: List[Tuple[int, int]]
    means: Numbers
    errors: Numbers
    parities: NDArray[np.int64]


def parts_of(records: Records) -> Parts:
    bins = doubling_bins(records.epochs)[::-1]
    if not bins:
        raise Refusal("the run is too short for two parts")
    parts = [records.part(*places) for places in bins]
    return Parts(records.name, [(int(part.epochs[0]), int(part.epochs[-1]) + 1) for part in parts],
                 np.stack([moments(part) for part in parts]), np.stack([own_errors(part) for part in parts]),
                 records.energies[0, :, 0, 0] % 4)


def own_errors(records: Records) -> Numbers:
    """The error of each sample's moments, from pieces of its own records in time."""
    length = len(records.epochs) // PIECES
    if not length:
        return np.full((records.samples, records.slots, MOMENTS), np.nan)
    # The first records are left out where the pieces don't fill the part.
    begin = len(records.epochs) - PIECES * length
    pieces = np.stack([moments(records.part(begin + n * length, begin + (n + 1) * length)) for n in range(PIECES)])
    return pieces.std(axis=0, ddof=1) / np.sqrt(PIECES)


class Bin(NamedTuple):
    """Moments of a part of the run by slot, and by how much those of the next part differ from them."""
    start: int
    end: int
    moments: Estimate
    step: Optional[Estimate]


def steps_of(reports: Sequence[Parts], count: Optional[int] = None) -> List[Bin]:
    """The moments of parts that double, the first part first.

    `step` is the next part's moments less this one's. Its error is taken of the difference itself, since both
    parts have the same couplings, so it is smaller than those of the two. A run is taken as equilibrated from
    the first part on whose later steps are all within their errors, over two parts at the least.
    """
    found = []
    for n, ends in enumerate(reports[0].ends):
        step = (jackknife(blocks([parts.means[n + 1] - parts.means[n] for parts in reports], count))
                if n + 1 < len(reports[0].ends) else None)
        found.append(Bin(*ends, jackknife(blocks([parts.means[n] for parts in reports], count)), step))
    return found


def equilibration(reports: Sequence[Records], count: Optional[int] = None) -> List[Bin]:
    """`steps_of` of reports; of a run too short for two parts no bin."""
    if not doubling_bins(reports[0].epochs):
        return []
    return steps_of([parts_of(records) for records in reports], count)


class Mover(NamedTuple):
    """A sample of a report, a difference of its means, and that in errors of the sample's own."""
    report: str
    sample: int
    difference: float
    in_errors: float


def worst_samples(names: Sequence[str], differences: Sequence[Numbers], errors: Sequence[Numbers], count: int = 10) -> List[Mover]:
    """The samples whose differences are most of their own errors, from differences and errors by sample of each report."""
    found = [Mover(name, sample, float(difference), float(difference / error))
             for name, of_report, own in zip(names, differences, errors)
             for sample, (difference, error) in enumerate(zip(of_report, own)) if error > 0]
    return sorted(found, key=lambda mover: -abs(mover.in_errors))[:count]


def last_movers(reports: Sequence[Parts], slot: int, moment: int, count: int = 10) -> List[Mover]:
    """The samples that move most from the part before the last to the last."""
    if len(reports[0].ends) < 2:
        return []
    return worst_samples([parts.name for parts in reports],
                         [parts.means[-1, :, slot, moment] - parts.means[-2, :, slot, moment] for parts in reports],
                         [np.hypot(parts.errors[-1, :, slot, moment], parts.errors[-2, :, slot, moment]) for parts in reports],
                         count)


def chance_beyond(bound: float, shorter: float) -> float:
    """The probability that a sample's distance is by chance beyond a bound, in errors from pieces of two parts, one of which
    is so many times as long as the other: 2 for parts that double, 1 for parts of two runs.

    Means over pieces are taken as Gaussian, so those of the shorter part have s times the variance of the longer one's. The
    two variances that are measured have chi-squares of f = PIECES - 1 degrees of freedom. Their sum, of 2 f degrees, is
    independent of the longer part's share b in it, which has the beta distribution of f / 2 and f / 2. So the distance is
    Student's t of 2 f degrees times the root of (1 + s) / (2 (b + s (1 - b))).
    """
    half = (PIECES - 1) / 2
    nodes, weights = np.polynomial.legendre.leggauss(64)
    share = (1 + nodes) / 2
    wider = np.sqrt(2 * (share + shorter * (1 - share)) / (1 + shorter))
    return float(weights / 2 * stats.beta.pdf(share, half, half) @ (2 * stats.t.sf(bound * wider, 4 * half)))


@lru_cache(maxsize=None)
def greatest_expected(samples: int, shorter: float) -> float:
    """How far the farthest of so many samples is by chance alone: it is beyond this in one study of two."""
    single = 1 - 0.5 ** (1 / samples)
    return float(optimize.brentq(lambda bound: chance_beyond(bound, shorter) - single, 0, 1e6))


class Meeting(NamedTuple):
    """Of a part of two runs, moments by slot of the one from above and of the one from below, and their difference."""
    start: int
    end: int
    ordered: Estimate
    random: Estimate
    difference: Estimate


def check_pairs(ordered: Sequence[Parts], random: Sequence[Parts]) -> None:
    """Refuses reports that can't be of the same couplings, pair by pair."""
    if len(ordered) != len(random):
        raise Refusal(f"{len(ordered)} reports of ordered starts, and {len(random)} of random ones")
    for one, other in zip(ordered, random):
        if one.ends != other.ends or one.means.shape != other.means.shape:
            raise Refusal(f"{one.name} and {other.name} differ in more than their start: sizes, samples, slots or epochs")
        if (one.parities != other.parities).any():
            raise Refusal(f"{one.name} and {other.name} have other couplings: their energies differ modulo 4")
        if np.array_equal(one.means, other.means):
            raise Refusal(f"{one.name} and {other.name} have the same rows: they must differ in their start")


def meetings(ordered: Sequence[Parts], random: Sequence[Parts], count: Optional[int] = None) -> List[Meeting]:
    """Of each part that doubles, the moments of runs from ordered spins, those of runs from random ones with the same
    couplings, and the difference, whose error has no disorder in it."""
    check_pairs(ordered, random)
    return [Meeting(*ends, jackknife(blocks([parts.means[n] for parts in ordered], count)),
                    jackknife(blocks([parts.means[n] for parts in random], count)),
                    jackknife(blocks([one.means[n] - other.means[n] for one, other in zip(ordered, random)], count)))
            for n, ends in enumerate(ordered[0].ends)]


def farthest_apart(ordered: Sequence[Parts], random: Sequence[Parts], slot: int, moment: int, count: int = 10) -> List[Mover]:
    """The samples that are farthest apart in the last part."""
    return worst_samples([parts.name for parts in ordered],
                         [one.means[-1, :, slot, moment] - other.means[-1, :, slot, moment] for one, other in zip(ordered, random)],
                         [np.hypot(one.errors[-1, :, slot, moment], other.errors[-1, :, slot, moment])
                          for one, other in zip(ordered, random)], count)
