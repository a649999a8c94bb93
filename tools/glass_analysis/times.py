"""Autocorrelation times of series that have no known mean."""
from __future__ import annotations

from typing import NamedTuple

import numpy as np
from scipy.signal import correlate

from .errors import Numbers

# The window of an integrated time is the first that is at least so many times it (A. Sokal, in: Functional
# Integration, NATO ASI B 361, 131 (1997)).
WINDOW = 6
# A series that is shorter than so many times it has not been seen long enough to tell a time.
LENGTH = 50


class Time(NamedTuple):
    """An integrated autocorrelation time in steps of the series, its error, and the window it was summed to.

    `is_settled` is false where the series is too short for it, so that the time is too low.
    """
    value: float
    error: float
    window: int
    is_settled: bool


def covariances(series: Numbers) -> Numbers:
    """The sum over all series along axis 0 of their covariances by lag. Each series has its own mean taken off."""
    length = len(series)
    apart = (series - series.mean(axis=0)).reshape(length, -1)
    total = sum(correlate(one, one, method="fft")[length - 1:] for one in apart.T)
    return np.asarray(total) / np.arange(length, 0, -1)


def time_of(summed: Numbers, count: int) -> Time:
    """The time of so many series together, from the sum of their covariances.

    The error is that of N. Madras and A. Sokal, J. Stat. Phys. 50, 109 (1988), with the series taken as
    independent of each other.
    """
    if not summed[0] > 0:
        return Time(np.nan, np.nan, 0, False)
    times = np.cumsum(summed / summed[0]) - 0.5
    enough = np.flatnonzero(np.arange(len(times)) >= WINDOW * times)
    window = int(enough[0]) if len(enough) else len(times) - 1
    # The mean that is taken off each series lowers each correlation by about twice the time over the length
    # (U. Wolff, Comput. Phys. Commun. 156, 143 (2004)).
    lowered = 2 * times[window] / len(times)
    value = float((times[window] + (window + 0.5) * lowered) / (1 + lowered))
    error = abs(value) * np.sqrt(2 * (2 * window + 1) / (len(times) * count))
    return Time(value, error, window, bool(len(enough)) and len(times) >= LENGTH * value)


def autocorrelation_time(series: Numbers) -> Time:
    """1/2 and the autocorrelations from lag 1 on, up to the window; 1/2 where there is no autocorrelation.

    All series together have one time, which tells nothing of a few that are slow: `settled_samples` looks at each.
    """
    series = np.asarray(series, float)
    return time_of(covariances(series), series[0].size)


def settled_samples(series: Numbers) -> int:
    """Of how many samples, along axis 1, the series is long enough for its own time."""
    return sum(autocorrelation_time(series[:, sample]).is_settled for sample in range(series.shape[1]))
