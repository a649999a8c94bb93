"""Values with errors, by the jackknife or the bootstrap over independent blocks.

B. Efron, The Jackknife, the Bootstrap and Other Resampling Plans, SIAM 1982.
"""
from __future__ import annotations

from typing import Callable, List, NamedTuple, Sequence

import numpy as np
from numpy.typing import NDArray

Numbers = NDArray[np.float64]


class Estimate(NamedTuple):
    """A value and its standard error, of one shape. The error is nan where there is one block."""
    value: Numbers
    error: Numbers


def jackknife(parts: Numbers, function: Callable[[Numbers], Numbers] = lambda means: means) -> Estimate:
    """A function of means. `parts[k]` has the means of block k, all blocks being of equal weight.

    The error is the root of (K - 1) / K times the sum of (x_k - m)^2, with x_k the function of the means without
    block k and m the mean of the x_k.
    """
    count = len(parts)
    value = np.asarray(function(parts.mean(axis=0)))
    if count < 2:
        return Estimate(value, np.full(value.shape, np.nan))
    without = np.stack([function(rest) for rest in (parts.sum(axis=0) - parts) / (count - 1)])
    return Estimate(value, np.sqrt((count - 1) * without.var(axis=0)))


class Interval(NamedTuple):
    """A value, the ends of its interval of 68 %, and the share of resamples that have no value."""
    value: float
    low: float
    high: float
    missing: float


def bootstrap(groups: Sequence[Numbers], function: Callable[..., Numbers], count: int = 1000, seed: int = 1) -> Interval:
    """A number that is a function of the means of several independent groups of blocks, which need not always exist."""
    return bootstraps(groups, lambda *means: [function(*means)], count, seed)[0]


def bootstraps(groups: Sequence[Numbers], function: Callable[..., Sequence[Numbers]], count: int = 1000, seed: int = 1) -> List[Interval]:
    """Several numbers that are functions of them.

    In each of `count` resamples of all groups, with as many blocks as they have, `function` gets the means of each
    group. The interval is from the 16th to the 84th percentile of those resamples that have a value.
    """
    random = np.random.default_rng(seed)
    found = np.array([function(*(group[random.integers(len(group), size=len(group))].mean(axis=0) for group in groups))
                      for _ in range(count)], float)
    return [interval(float(value), column) for value, column in
            zip(function(*(group.mean(axis=0) for group in groups)), found.T)]


def interval(value: float, found: Numbers) -> Interval:
    known = found[np.isfinite(found)]
    low, high = np.percentile(known, (16, 84)) if len(known) else (np.nan, np.nan)
    return Interval(value, float(low), float(high), 1 - len(known) / len(found))


def uncertainty(blocks: int) -> float:
    """By which part an error over so many blocks is itself uncertain: that of a standard deviation of Gaussian values."""
    return float("nan") if blocks < 2 else (2 * (blocks - 1)) ** -0.5
