"""Metropolis temperatures whose three thresholds are whole numbers, and how far rounded thresholds are off.

With exp(-4 beta) = j / 1024 the thresholds 2^32 exp(-4 beta k), k = 1 to 3, are 2^22 j, 2^12 j^2 and 4 j^3: whole for each
of the 1,025 ratios, j from 0 (temperature 0) to 1024 (no temperature dependence). An exchange of the gap 2(m + 1) has
(j of the colder / j of the hotter)^(m + 1), which is rounded.
"""
from __future__ import annotations

import math
from fractions import Fraction
from typing import List, Optional, Sequence, Tuple

SCALE = 2 ** 32
PARTS = 1024
GREATEST_ENTRIES = 4096
# A threshold that is off by more than this part of itself is told.
CLOSE = 1e-3


class Unlawful(Exception):
    """Temperatures that have no such tables; the text is the one line that is told."""


def nearest_ratios(betas: Sequence[Fraction]) -> List[int]:
    """The j of each slot whose j / 1024 is nearest to exp(-4 beta), from 1 to 1024."""
    ratios = []
    for slot, beta in enumerate(betas):
        ratio = math.floor(PARTS * math.exp(-4 * float(min(beta, Fraction(999)))) + 0.5)
        if ratio == 0:
            raise Unlawful(f"slot {slot} is too cold: the lowest exact temperature is 4 / ln 1024 = {4 / math.log(PARTS):.5f}")
        if ratios and ratio == ratios[-1]:
            raise Unlawful(f"slots {slot - 1} and {slot} have one exact temperature, {temperature(ratio)}: set them farther apart")
        ratios.append(ratio)
    return ratios


def temperature(ratio: int) -> str:
    return f"{4 / math.log(PARTS / ratio):.6g}" if ratio < PARTS else "inf"


def rule_record(ratio: int) -> List[int]:
    return [SCALE * ratio ** power // PARTS ** power for power in (1, 2, 3)]


def swap_record(colder: int, hotter: int, useful: int) -> Tuple[List[int], bool]:
    """The record of a pair, at most `useful` entries, and whether it was cut though the next entry would still count."""
    entries: List[int] = []
    above, below = SCALE, 1
    while len(entries) < min(useful, GREATEST_ENTRIES + 1):
        above, below = above * colder, below * hotter
        entry = (2 * above + below) // (2 * below)
        if entry == 0 and entries:
            break
        entries.append(entry)
    return entries[:GREATEST_ENTRIES], len(entries) > GREATEST_ENTRIES


def told(ratios: Sequence[int]) -> List[str]:
    return ["exact temperatures: " + " ".join(map(temperature, ratios)),
            f"exp(-4 / T) in parts of {PARTS}: " + " ".join(map(str, ratios))]


def rounding_warning(rule: str, betas: Sequence[Fraction], rules: Sequence[Sequence[int]]) -> Optional[str]:
    """A line where rounding puts thresholds off by more than CLOSE of themselves; None where it doesn't.

    Of the heat bath those are looked at that are below one half: the others are 2^32 less them.
    """
    fields = [(0, 12), (1, 8), (2, 4)] if rule == "heat" else [(0, 4), (1, 8), (2, 12)]
    worst, slots = 0.0, []
    for slot, (beta, record) in enumerate(zip(betas, rules)):
        off = 0.0
        for field, energy in fields:
            odds = math.exp(-min(float(beta * energy), 700))
            exact = SCALE * (odds / (1 + odds) if rule == "heat" else odds)
            off = max(off, abs(record[field] - exact) / exact)
        if off > CLOSE:
            slots.append(slot)
            worst = max(worst, off)
    if not slots:
        return None
    return (f"the least thresholds of slot{'s' if len(slots) > 1 else ''} {', '.join(map(str, slots))} are rounded by up to "
            f"{worst:.2g} of themselves: so far these flips are from their probability")
