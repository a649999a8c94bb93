"""Temperatures between two ends: in geometric steps, or placed for even acceptance of the exchanges.

Two neighbouring slots of V sites with mean energies per site e and inverse temperatures beta exchange with a
probability near erfc(sqrt(dbeta V de) / 2): energies are taken as Gaussian with the variance that their slope in
beta tells. Small steps have dbeta V de = (ds)^2 with ds = sqrt(V de/dT) dT / T, so slots that are evenly spaced in s
have even acceptance. It is an estimate: where temperatures stand changes how fast a run is, and not its results.
"""
from __future__ import annotations

import argparse
import math
from bisect import bisect_right
from typing import List, Sequence, Tuple

# Temperature and energy per site, both rising.
Table = Sequence[Tuple[float, ...]]


class Unlawful(Exception):
    """Words or a file that aren't lawful; the text is the one line that is told."""


STEPS = 4000
# The bytes of a file of energies, which has some dozens of lines.
LONGEST = 2 ** 20
# Temperature and energy per site of the glass with random couplings: from 1.2 to 3 as the tutorial measures them at
# size 8, below by a power of T down to the ground states, near -1.7876, above by the series -3 t + 12 t^7 (1 - t^2) in t = tanh(1 / T).
GLASS: Table = (
    (0.4, -1.7847), (0.6, -1.7762), (0.8, -1.7572), (1.0, -1.7226), (1.2, -1.6668), (1.35, -1.6168), (1.5, -1.5610),
    (1.7, -1.4745), (1.9, -1.3789), (2.2, -1.2477), (2.6, -1.0887), (3.0, -0.9594), (3.5, -0.8347), (4.0, -0.7346),
    (5.0, -0.5921), (6.0, -0.4955), (8.0, -0.3731), (10.0, -0.2990))


def read_energies(name: str) -> Table:
    """Lines `temperature,energy per site`, temperatures rising and energies with them."""
    try:
        with open(name, encoding="ascii") as stream:
            text = stream.read(LONGEST + 1)
        if len(text) > LONGEST:
            raise Unlawful(f"{name} is too long: more than {LONGEST} bytes")
        lines = text.splitlines()
        table = [tuple(map(float, line.split(","))) for line in lines if line.strip()]
    except OSError as fault:
        raise Unlawful(f"{name} can't be read: {fault.strerror}") from None
    except ValueError:
        raise Unlawful(f"{name} has a line other than temperature,energy") from None
    if len(table) < 2 or any(len(row) != 2 for row in table) or not all(map(math.isfinite, sum(table, ()))):
        raise Unlawful(f"{name} has not two lines temperature,energy")
    if any(now[0] >= later[0] or now[1] >= later[1] for now, later in zip(table, table[1:])) or table[0][0] <= 0:
        raise Unlawful(f"{name} has temperatures or energies that don't rise")
    return table


def energy_at(table: Table, temperature: float) -> float:
    """Between the table's temperatures by straight lines in 1 / T."""
    k = min(max(bisect_right([row[0] for row in table], temperature), 1), len(table) - 1)
    (t0, e0), (t1, e1) = table[k - 1], table[k]
    return e0 + (e1 - e0) * (1 / t0 - 1 / temperature) / (1 / t0 - 1 / t1)


def geometric(low: float, high: float, slots: int) -> List[float]:
    return [low * (high / low) ** (slot / (slots - 1)) for slot in range(slots)]


def even(table: Table, low: float, high: float, slots: int) -> List[float]:
    """Temperatures between which the exchange is equally probable."""
    if low < table[0][0] or high > table[-1][0]:
        raise Unlawful(f"energies are known from temperature {table[0][0]:g} to {table[-1][0]:g} alone")
    grid = geometric(low, high, STEPS + 1)
    energies = [energy_at(table, t) for t in grid]
    along = [0.0]
    for k in range(STEPS):
        along.append(along[-1] + math.sqrt((energies[k + 1] - energies[k]) * (1 / grid[k] - 1 / grid[k + 1])))
    wanted = [along[-1] * slot / (slots - 1) for slot in range(slots)]
    found = []
    for s in wanted:
        k = min(max(bisect_right(along, s), 1), STEPS)
        part = (s - along[k - 1]) / (along[k] - along[k - 1])
        found.append(grid[k - 1] * (grid[k] / grid[k - 1]) ** part)
    return found


def acceptances(table: Table, temperatures: Sequence[float], sites: int) -> List[float]:
    """The estimated acceptance of each pair of neighbours."""
    return [math.erfc(math.sqrt((1 / a - 1 / b) * sites * (energy_at(table, b) - energy_at(table, a))) / 2)
            for a, b in zip(temperatures, temperatures[1:])]


def placed(options: argparse.Namespace) -> Tuple[List[str], List[str]]:
    """The texts of the temperatures that --range, --slots and --acceptance ask for, and the lines that tell them."""
    try:
        low, high = map(float, options.range)
    except ValueError:
        raise Unlawful(f"the ends of the range are no numbers: {' '.join(options.range)}") from None
    if not 0 < low < high < math.inf:
        raise Unlawful(f"the range does not rise from above 0: {' '.join(options.range)}")
    if options.slots is None or not 2 <= options.slots <= 32:
        raise Unlawful(f"a range wants --slots from 2 to 32: {options.slots}")
    if options.acceptance is None:
        texts = texts_of(options, geometric(low, high, options.slots))
        return texts, ["temperatures: " + " ".join(texts)]
    if options.size is None:
        raise Unlawful("--acceptance wants --size")
    table = GLASS if options.acceptance == "" else read_energies(options.acceptance)
    texts = texts_of(options, even(table, low, high, options.slots))
    rates = acceptances(table, [float(text) for text in texts], options.size ** 3)
    return texts, ["temperatures: " + " ".join(texts), told(rates)]


def told(rates: Sequence[float]) -> str:
    """The line of estimated acceptances, also where they are below a hundredth."""
    ends = (f"{rate:.2f}" if rate >= 0.01 else f"{rate:.1g}" for rate in (min(rates), max(rates)))
    return "acceptance of exchanges, estimated: " + " to ".join(ends)


def texts_of(options: argparse.Namespace, temperatures: Sequence[float]) -> List[str]:
    """The ends as they were given, between them five decimals."""
    inner = [f"{value:.5f}".rstrip("0").rstrip(".") for value in temperatures[1:-1]]
    return [options.range[0], *inner, options.range[1]]
