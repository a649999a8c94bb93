"""Autocorrelation times of the walks through the temperature slots, sample by sample.

The series is a function of the slot in which a configuration is. Each slot is as probable as each other, so its mean
over the slots is its mean, exactly: nothing of the run is taken off, and a sample whose configurations hardly move
shows by its long time (R. Alvarez Banos et al., J. Stat. Mech. P06026 (2010)).
"""
from __future__ import annotations

from typing import NamedTuple, Tuple

import numpy as np
from scipy import fft

from make_tables import Refusal

from .errors import Numbers
from .reports import Records
from .times import WINDOW
from .walks import positions

# A run is long enough for a sample where it has so many exponential times (the same authors).
LENGTHS = 12
# An integrated time is summed to where the correlation is below so many of its errors, at the latest.
NOISE = 2
# The exponential time is the slope from where the correlation is below the first of these, so that the faster modes are
# gone, to where it is below the second, or below so many of its errors, so that its logarithm is known to an eighth.
FROM, TO, ERRORS = 0.5, 0.1, 8


class WalkTimes(NamedTuple):
    """Times in records, by sample and replica.

    `integrated` and its `error` are nan where the correlation doesn't fall within the run. `exponential` is nan where
    the correlation is gone too soon to tell it; where it stays too long it is a rough guess, infinite without a move.
    `is_settled` is whether the run has LENGTHS times the exponential time, or the integrated one where that is not told.
    """
    integrated: Numbers
    error: Numbers
    exponential: Numbers
    is_settled: np.ndarray

    @property
    def longest(self) -> Numbers:
        """The exponential time, or the integrated one where that is not told."""
        return np.where(np.isnan(self.exponential), self.integrated, self.exponential)


def slot_function(slots: int) -> Numbers:
    """From -1 in the coldest slot to 1 in the hottest: its mean over the slots is 0."""
    if slots < 2:
        raise Refusal("a run at one temperature has no walk in temperature")
    return np.linspace(-1, 1, slots)


def walk_correlations(records: Records) -> Numbers:
    """The autocorrelation of the walks, mean over the labels: axes lag, sample, replica; 1 at lag 0."""
    values = slot_function(records.slots)
    length, found = len(records.epochs), []
    padded = fft.next_fast_len(2 * length, real=True)
    for sample in range(records.samples):
        series = values[positions(records.part_of_sample(sample))[:, 0]]
        power = (abs(fft.rfft(series, padded, axis=0)) ** 2).mean(axis=1)
        found.append(fft.irfft(power, padded, axis=0)[:length] / np.arange(length, 0, -1)[:, None])
    return np.stack(found, axis=1) / (values ** 2).mean()


def walk_times(records: Records) -> WalkTimes:
    """The times of each sample and replica."""
    correlations, independent = walk_correlations(records), independent_labels(records.slots)
    length, shape = len(correlations), correlations.shape[1:]
    integrated, error, exponential = (np.full(shape, np.nan) for _ in range(3))
    for sample, replica in np.ndindex(shape):
        line = correlations[:, sample, replica]
        integrated[sample, replica], error[sample, replica] = integrated_time(line, independent)
        exponential[sample, replica] = exponential_time(line, integrated[sample, replica], independent)
    longest = np.where(np.isnan(exponential), integrated, exponential)
    return WalkTimes(integrated, error, exponential, np.isfinite(integrated) & (length >= LENGTHS * longest))


def independent_labels(slots: int) -> int:
    """How many independent walks those of all labels are worth: the mean over n labels of the product of two independent
    permutations of values of mean 0 and variance 1 has the variance 1 / (n - 1) (W. Hoeffding, Ann. Math. Stat. 22, 558
    (1951))."""
    return slots - 1


def integrated_time(line: Numbers, independent: int) -> Tuple[float, float]:
    """The time and its error from an autocorrelation by lag, 1 at lag 0, which is worth the mean of so many independent
    ones; nan where it doesn't fall within the run.

    It is summed up to a window of WINDOW times, or to where the noise begins, which is near where U. Wolff's window ends
    (Comput. Phys. Commun. 156, 143 (2004)); what an exponential decay has behind the window is added. The error is that
    of N. Madras and A. Sokal, J. Stat. Phys. 50, 109 (1988).
    """
    length, times = len(line), np.cumsum(line) - 0.5
    enough = np.flatnonzero((np.arange(length) >= WINDOW * times) | (line < NOISE * noise_of(times, length, independent)))
    if not len(enough):
        return float("nan"), float("nan")
    window = int(enough[0])
    # Of C(t) = exp(-t / T) all lags behind the window w have C(w) times those behind lag 0, which are the time less 1/2.
    last = max(line[window], 0)
    value = float((times[window] - last / 2) / (1 - last))
    return value, value * float(np.sqrt(2 * (2 * window + 1) / (length * independent)))


def noise_of(times: Numbers, length: int, independent: int) -> Numbers:
    """The error of a correlation near 0, M. S. Bartlett's: its variance is the sum of C(t)^2 over all lags of both signs,
    of an exponential decay with the integrated time T T + 1 / (4 T), over the number of values."""
    times = np.maximum(times, 0.5)
    return np.sqrt((times + 1 / (4 * times)) / (length * independent))


def exponential_time(line: Numbers, integrated: float, independent: int) -> float:
    """From the slope of the logarithm; nan where fewer than three lags have it, a rough guess where the run is too short."""
    length = len(line)
    begun = np.flatnonzero(line[: max(length // 2, 1)] < FROM)
    if not len(begun) or np.isnan(integrated):
        # It stays: the decay up to half of the run, which is uncertain by as much as itself.
        half = float(line[length // 2])
        return float("inf") if half >= 1 else length // 2 / -np.log(max(half, 1e-3))
    noise = ERRORS * noise_of(np.array(integrated), length, independent)
    gone = np.flatnonzero(line < max(TO, float(noise)))
    lags = np.arange(begun[0], gone[0] if len(gone) else length // 2)
    if len(lags) < 3:
        return float("nan")
    slope = np.polyfit(lags, np.log(line[lags]), 1)[0]
    return float(-1 / slope) if slope < 0 else float("inf")
