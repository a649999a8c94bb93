"""Means over epochs, and what is made from them.

Errors are over blocks that are independent. `blocks` takes them from one report, as groups of its samples, or
from several, each of which is one block. The samples of one run have couplings of their own but share each
random number, so that they follow it together: their standard deviation has the disorder in it and lacks what is
common to all of them. Only runs with other seeds have all of it.
"""
from __future__ import annotations

from collections.abc import Sequence
from typing import Union

import numpy as np

from make_tables import Refusal

from .errors import Numbers
from .reports import Records

# The last axis of `moments`.
ENERGY, SQUARE, FOURTH, MODULUS = range(4)
MOMENTS = 4


def moments(records: Records) -> Numbers:
    """Means over the epochs by sample and slot: energy per site, and q^2, q^4 and |q| of the overlap per site."""
    energy = records.energies.mean(axis=(0, 3)) / records.sites
    overlap = records.overlaps / records.sites
    return np.stack([energy, (overlap ** 2).mean(axis=0), (overlap ** 4).mean(axis=0), abs(overlap).mean(axis=0)], axis=-1)


def blocks(values: Sequence[Numbers], count: Union[int, Sequence[int], None] = None) -> Numbers:
    """Independent blocks of equal weight from values by sample, an array of each report.

    Of several reports each is a block, or `count` has the number of each one's block: reports of one couplings file
    are one. Of one report its samples make `count` blocks, one a sample where it isn't said.
    """
    if isinstance(count, Sequence):
        means = np.stack([by_sample.mean(axis=0) for by_sample in values])
        return np.stack([means[np.array(count) == number].mean(axis=0) for number in sorted(set(count))])
    if len(values) > 1:
        return np.stack([by_sample.mean(axis=0) for by_sample in values])
    samples = len(values[0])
    count = samples if count is None else count
    if not 1 <= count <= samples or samples % count:
        raise Refusal(f"{samples} samples make no {count} blocks of equal size")
    return values[0].reshape(count, samples // count, *values[0].shape[1:]).mean(axis=1)


def binder(means: Numbers) -> Numbers:
    """The Binder ratio (3 - [q^4] / [q^2]^2) / 2 of moments: 1 for one |q| alone, 0 for Gaussian q; nan where all q are 0."""
    with np.errstate(invalid="ignore"):
        return (3 - means[..., FOURTH] / means[..., SQUARE] ** 2) / 2


def susceptibility(means: Numbers, sites: int) -> Numbers:
    """The spin-glass susceptibility, the number of sites times [q^2]."""
    return sites * means[..., SQUARE]


def energy_moments(records: Records) -> Numbers:
    """By sample and slot: the mean square of the energies of both replicas, and the product of their two means."""
    energies = records.energies.astype(float)
    return np.stack([(energies ** 2).mean(axis=(0, 3)), energies.mean(axis=0).prod(axis=-1)], axis=-1)


def specific_heat(means: Numbers, betas: Sequence[float], sites: int) -> Numbers:
    """beta^2 / V ([<E^2>] - [<E>^2]) by slot, of means of `energy_moments`.

    The square of a mean over the records is too great by the variance of that mean. The product of the means of two
    replicas is not: with the same couplings they are independent.
    """
    return np.asarray(betas) ** 2 / sites * (means[..., 0] - means[..., 1])
