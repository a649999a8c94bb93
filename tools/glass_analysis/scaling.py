"""Finite-size scaling of a dimensionless figure: where the curves of two sizes cross, and how those of all sizes collapse.

Errors are by the bootstrap over the blocks of each size, which are independent: curves need not cross in every resample.
"""
from __future__ import annotations

from typing import Callable, Dict, NamedTuple, Sequence, Tuple

import numpy as np
from scipy import optimize

from make_tables import Refusal

from .errors import Interval, Numbers, bootstrap, bootstraps, jackknife

# Of the difference of two curves, and of the curve of all sizes: degrees of polynomials. Each wants two temperatures more.
CROSSING_DEGREE, COLLAPSE_DEGREE = 2, 3
RESAMPLES = 400

# From the means of a block to the figure by temperature.
Curve = Callable[[Numbers], Numbers]


def crossing(temperatures: Numbers, small: Numbers, large: Numbers, rises: bool = True) -> float:
    """The temperature within those measured above which the smaller size has the greater value, of a figure that rises with
    order (U4 falls: then the lesser one); nan where there is none, the lowest one where there are several.

    The difference of the curves is taken as a polynomial in the temperature, by least squares.
    """
    apart = (small - large) if rises else (large - small)
    if len(temperatures) < CROSSING_DEGREE + 2:
        raise Refusal(f"a crossing wants {CROSSING_DEGREE + 2} temperatures at least")
    if not np.isfinite(apart).all():
        return float("nan")
    fitted = np.polynomial.Polynomial.fit(temperatures, apart, CROSSING_DEGREE)
    roots = [root.real for root in fitted.roots() if abs(root.imag) < 1e-9
             and temperatures[0] <= root.real <= temperatures[-1] and fitted.deriv()(root.real) > 0]
    return min(roots, default=float("nan"))


def crossing_of(temperatures: Numbers, blocks: Sequence[Numbers], curves: Sequence[Curve], rises: bool = True) -> Interval:
    """Of two sizes, the smaller one first: the blocks of each, and what makes a curve of their mean."""
    return bootstrap(blocks, lambda one, other: crossing(temperatures, curves[0](one), curves[1](other), rises), RESAMPLES)


class Collapse(NamedTuple):
    """The fit R(T, L) = f((T - T_c) L^(1/nu)), f a polynomial, to all sizes: transition, exponent, and the chi-square with its
    degrees of freedom, which is large where corrections to scaling are."""
    transition: Interval
    nu: Interval
    square: float
    degrees: int


def residuals(words: Sequence[float], temperatures: Numbers, sizes: Numbers, values: Numbers, errors: Numbers) -> Numbers:
    """Distances in errors from the best polynomial in x = (T - T_c) L^(1/nu), of words T_c and 1 / nu."""
    transition, inverse = words
    along = (temperatures[None, :] - transition) * sizes[:, None] ** inverse
    along = along / max(abs(along).max(), 1e-300)
    terms = (along.reshape(-1)[:, None] ** np.arange(COLLAPSE_DEGREE + 1)) / errors.reshape(-1)[:, None]
    wanted = (values / errors).reshape(-1)
    found, *_ = np.linalg.lstsq(terms, wanted, rcond=None)
    return terms @ found - wanted


def collapsed(temperatures: Numbers, sizes: Numbers, values: Numbers, errors: Numbers,
              begin: Tuple[float, float]) -> Tuple[float, float, float]:
    """T_c, nu and chi-square of the best collapse from T_c and 1 / nu on."""
    found = optimize.least_squares(residuals, begin, args=(temperatures, sizes, values, errors), method="lm")
    return float(found.x[0]), float(1 / found.x[1]) if found.x[1] else float("nan"), float(2 * found.cost)


def collapse_of(temperatures: Numbers, blocks: Dict[int, Numbers], curves: Dict[int, Curve], begin: Tuple[float, float]) -> Collapse:
    """Of blocks by size, at one list of temperatures. Values of one size are not independent, so the intervals are by a
    bootstrap and not by the chi-square, which is a measure alone."""
    sizes = sorted(blocks)
    if len(sizes) < 2 or len(temperatures) * len(sizes) < COLLAPSE_DEGREE + 5:
        raise Refusal("a collapse wants two sizes and some temperatures of each")
    parts = [blocks[size] for size in sizes]
    told = [jackknife(part, curves[size]) for part, size in zip(parts, sizes)]
    values, errors = np.stack([one.value for one in told]), np.stack([one.error for one in told])
    if not (np.isfinite(values).all() and (errors > 0).all()):
        raise Refusal("a collapse wants values and errors at all temperatures: two blocks of each size at least")
    whole = collapsed(temperatures, np.array(sizes, float), values, errors, begin)

    def found(*means: Numbers) -> Tuple[float, float]:
        curve = np.stack([curves[size](mean) for size, mean in zip(sizes, means)])
        return collapsed(temperatures, np.array(sizes, float), curve, errors, (whole[0], 1 / whole[1]))[:2]

    transition, nu = bootstraps(parts, found, RESAMPLES)
    return Collapse(transition, nu, whole[2], values.size - COLLAPSE_DEGREE - 3)
