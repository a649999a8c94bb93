"""The distribution of overlaps, of all samples and sample by sample."""
from __future__ import annotations

from typing import NamedTuple, Optional, Sequence

import numpy as np

from make_tables import Refusal

from .errors import Estimate, Numbers, jackknife
from .observables import blocks
from .reports import Records

# Bins where no number is said: as many as a figure shows well.
BINS = 65


class Distribution(NamedTuple):
    """A density over bins of the overlap per site, whose edges it has."""
    edges: Numbers
    density: Estimate


def overlap_edges(sites: int, bins: Optional[int] = None) -> Numbers:
    """Edges of bins of equal width for overlaps per site, which go from -1 to 1 in steps of 2 / sites.

    The ends reach half a step beyond, so that each value of q stands for as much of the axis.
    """
    bins = min(BINS, sites + 1) if bins is None else bins
    if not 1 <= bins <= sites + 1:
        raise Refusal(f"{bins} bins, and there are 1 to {sites + 1} for as many values of q")
    return np.linspace(-1 - 1 / sites, 1 + 1 / sites, bins + 1)


def places(overlaps: Numbers, sites: int, bins: int) -> Numbers:
    """The bin of each overlap, a sum over the sites, in whole numbers: a value on an edge goes to the upper bin."""
    return (overlaps + sites + 1) * bins // (2 * (sites + 1))


def densities(records: Records, slot: int, bins: Optional[int] = None) -> Numbers:
    """P(q) by sample and bin, made symmetric: q and -q are equally probable, since turning one replica's spins is a
    symmetry.

    Where the number of bins doesn't divide the number of values, sites + 1, bins differ in how many they have; each is
    weighted with its own number.
    """
    sites, bins = records.sites, len(overlap_edges(records.sites, bins)) - 1
    weights = np.bincount(places(np.arange(-sites, sites + 1, 2), sites, bins), minlength=bins) * 2 / sites
    found = np.stack([np.bincount(places(of_sample, sites, bins), minlength=bins)
                      for of_sample in records.overlaps[:, :, slot].T]) / len(records.epochs)
    # A value on an edge has a mirror image in another bin, so the weights are made symmetric with the counts.
    return (found + found[:, ::-1]) / (weights + weights[::-1])


def distribution(reports: Sequence[Records], slot: int, bins: Optional[int] = None,
                 count: Optional[int] = None) -> Distribution:
    """P(q) of a slot over all samples, with errors over the blocks."""
    return Distribution(overlap_edges(reports[0].sites, bins),
                        jackknife(blocks([densities(records, slot, bins) for records in reports], count)))


def below(records: Records, slot: int, bound: float) -> Numbers:
    """By sample: the part of the records with |q| below the bound."""
    return (abs(records.overlaps[:, :, slot]) < bound * records.sites).mean(axis=0)


def below_errors(records: Records, slot: int, bound: float, pieces: int = 8) -> Numbers:
    """The errors of `below` by sample, from pieces of its own records in time; nan where they are fewer."""
    length = len(records.epochs) // pieces
    if not length:
        return np.full(records.samples, np.nan)
    begin = len(records.epochs) - pieces * length
    parts = np.stack([below(records.part(begin + n * length, begin + (n + 1) * length), slot, bound) for n in range(pieces)])
    return parts.std(axis=0, ddof=1) / np.sqrt(pieces)
