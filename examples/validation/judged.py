"""What the tables of the validation share: runs as they are kept, their means and errors, and the probability that means are
so far from exact numbers by chance."""
from __future__ import annotations

import csv
import math
import sys
from pathlib import Path
from typing import List, NamedTuple, Optional, Sequence, Tuple

sys.dont_write_bytecode = True
from parts import BY_NAME  # noqa: E402

import numpy as np  # noqa: E402
from numpy.typing import NDArray  # noqa: E402
from scipy import stats  # noqa: E402

from glass_analysis import Estimate  # noqa: E402
from make_tables import Refusal  # noqa: E402

Numbers = NDArray[np.float64]


class Runs(NamedTuple):
    """Of a part by run: the values over the whole run, its first and its second half, by value; and processor seconds."""
    name: str
    whole: Numbers
    first: Numbers
    last: Numbers
    seconds: float


class Known(NamedTuple):
    """A number from elsewhere and its error, 0 of an exact one."""
    value: float
    error: float = 0.0


# ---------------------------------------------------------------- arithmetic


def deviation(values: Numbers) -> Estimate:
    """Means over the runs, which are along axis 0, and the errors of the means."""
    return Estimate(values.mean(axis=0), values.std(axis=0, ddof=1) / math.sqrt(len(values)))


def distance(ours: Estimate, known: Known) -> float:
    """In errors, both of them taken together."""
    return float((ours.value - known.value) / math.hypot(float(ours.error), known.error))


def chance(away: float, runs: int) -> float:
    """Of a distance in errors as great or greater: Student's t, since the error is itself from so many runs."""
    return float(2 * stats.t.sf(abs(away), runs - 1))


def probability(values: Numbers, known: Sequence[float]) -> float:
    """That means over independent runs are as far from exact numbers as these are, or farther.

    It is that of Hotelling's T^2 (Ann. Math. Stat. 2, 360 (1931)): the values of a run are not independent, and their
    covariance is estimated from the runs. `values` has runs along axis 0 and at least two more of them than values.
    """
    runs, count = values.shape
    if runs < count + 2:
        return math.nan
    apart = values.mean(axis=0) - np.asarray(known)
    covariance = np.atleast_2d(np.cov(values, rowvar=False))
    square = runs * float(apart @ np.linalg.solve(covariance, apart))
    return float(stats.f.sf(square * (runs - count) / (count * (runs - 1)), count, runs - count))


def chi_square(found: Sequence[Tuple[float, int]]) -> Tuple[float, int, float]:
    """The sum of the chi-squares that have these probabilities and degrees of freedom, its degrees and probability."""
    total = sum(float(stats.chi2.isf(chance, degrees)) for chance, degrees in found)
    degrees = sum(degrees for _, degrees in found)
    return total, degrees, float(stats.chi2.sf(total, degrees))


def halves(runs: Runs) -> float:
    """The probability that first and second halves differ as much as they do by chance: a run that was equilibrated
    before its first half has none of it left."""
    return probability(runs.last - runs.first, [0.0] * runs.whole.shape[1])


# ---------------------------------------------------------------- reading


def read_runs(folder: Path, name: str) -> Optional[Runs]:
    """None where no run of the part is kept, or one alone."""
    path = folder / f"{name}.csv"
    if not path.exists():
        return None
    with open(path, newline="") as stream:
        lines = sorted(csv.DictReader(stream), key=lambda line: int(line["run"]))
    heads = BY_NAME[name.replace("reference_", "")].heads
    if len({tuple(line.values()) for line in lines}) != len(lines):
        raise Refusal(f"{path} has a line twice")
    if len(lines) < 2:
        return None
    by_when = [np.array([[float(line[head + when]) for head in heads] for line in lines]) for when in ("", "_first", "_last")]
    return Runs(name, *by_when, sum(float(line["seconds"]) for line in lines))


# ---------------------------------------------------------------- tables


def spelled(value: float, places: int = 6) -> str:
    return "-" if math.isnan(value) else f"{value:.{places}f}"


def head(*columns: str) -> None:
    print("\n| " + " | ".join(columns) + " |\n|" + "---|" * len(columns))


def line(what: str, known: Known, ours: Estimate, places: int = 6) -> None:
    other = spelled(known.value, places) + (f" ± {spelled(known.error, places)}" if known.error else "")
    print(f"| {what} | {other} | {spelled(float(ours.value), places)} | {spelled(float(ours.error), places)} | {distance(ours, known):+.2f} |")


def beside(parts: Sequence[Numbers]) -> Numbers:
    """The values of several parts whose runs of one number have couplings in common, as far as all have runs."""
    number = min(map(len, parts))
    return np.concatenate([values[:number] for values in parts], axis=1)
