"""Means at temperatures between those of the slots, by histogram reweighting.

One slot: A. M. Ferrenberg and R. H. Swendsen, Phys. Rev. Lett. 61, 2635 (1988). All slots: the same authors, Phys. Rev.
Lett. 63, 1195 (1989). Each disorder sample has its own density of states, so each is reweighted by itself. Both replicas
of a slot are taken as one system, of the energy E0 + E1, since an overlap is of both.
"""
from __future__ import annotations

from typing import NamedTuple, Optional, Sequence, Tuple

import numpy as np

from make_tables import Refusal

from .errors import Numbers
from .observables import MOMENTS
from .reports import Integers, Records

# Free energies are solved for until the expected number of records of each slot is this near to its own, in so many steps.
PRECISION, STEPS = 1e-7, 200
# A temperature is refused where the weights of the average sample are those of fewer records than this part of a slot's.
LEAST_SHARE = 0.1


class Reweighted(NamedTuple):
    """`moments` by sample and temperature, as `observables.moments` has them; `share` the effective number of records,
    the square of the sum of the weights over the sum of their squares, in those of a slot: mean over the samples."""
    moments: Numbers
    share: Numbers


def free_energies(energies: Integers, betas: Numbers) -> Numbers:
    """Minus the logarithm of the partition function at each inverse temperature, 0 at the first: the multiple-histogram
    equations for energies by slot and record.

    exp(-f_k) is the sum over the records of exp(-beta_k E) / D(E), with D(E) the sum over the slots j of their number
    of records times exp(f_j - beta_j E). So the shares P_k(E) = N exp(f_k - beta_k E) / D(E) of all records add up to
    the N records of slot k. That is solved by Newton's method, and by the equation itself where a step leads away.
    """
    values, counts = np.unique(energies, return_counts=True)
    records, exponents = energies.shape[1], -np.outer(betas, values)
    # The mean energy between neighbours is the slope of f.
    means = energies.mean(axis=1)
    found = np.concatenate([[0], np.cumsum((means[1:] + means[:-1]) / 2 * np.diff(betas))])
    parts, missing = shares_of(found, exponents, counts, records)
    for _ in range(STEPS):
        if abs(missing).max() < PRECISION:
            break
        later = found + newton_step(parts, counts, missing)
        step, left = shares_of(later, exponents, counts, records)
        if not abs(left).max() < abs(missing).max():
            later = found - np.log1p(-missing)
            step, left = shares_of(later, exponents, counts, records)
        found, parts, missing = later, step, left
    return found - found[0]


def shares_of(found: Numbers, exponents: Numbers, counts: Integers, records: int) -> Tuple[Numbers, Numbers]:
    """P_k(E) by slot and energy, and by what part of itself each slot's number of records is missed."""
    logarithms = found[:, None] + exponents
    parts = np.exp(logarithms - log_sum(logarithms))
    return parts, 1 - parts @ counts / records


def newton_step(parts: Numbers, counts: Integers, missing: Numbers) -> Numbers:
    """The change of f, 0 at the first slot: the derivative of the sum of P_k by f_j is that of P_k (delta_kj - P_j)."""
    weighted = parts * counts
    slope = np.diag(weighted.sum(axis=1)) - weighted @ parts.T
    try:
        rest = np.linalg.solve(slope[1:, 1:], missing[1:] * counts.sum() / len(parts))
    except np.linalg.LinAlgError:
        return np.full(len(parts), np.nan)
    return np.concatenate([[0], rest])


def log_sum(exponents: Numbers) -> Numbers:
    """The logarithm of the sum of exp along axis 0, without overflow."""
    greatest = exponents.max(axis=0)
    return greatest + np.log(np.exp(exponents - greatest).sum(axis=0))


def weights(energies: Integers, betas: Numbers, targets: Numbers) -> Numbers:
    """The weight of each record at each target, 1 in sum: axes target, slot, record."""
    exponents = np.log(energies.shape[1]) - np.multiply.outer(betas, energies.reshape(-1))
    if len(betas) > 1:
        exponents += free_energies(energies, betas)[:, None]
    found = -np.multiply.outer(targets, energies.reshape(-1)) - log_sum(exponents)
    found = np.exp(found - found.max(axis=1, keepdims=True))
    return (found / found.sum(axis=1, keepdims=True)).reshape(len(targets), *energies.shape)


def observed(records: Records, sample: int, slots: Sequence[int]) -> Numbers:
    """The moments' terms of each record: axes moment, slot, record."""
    energies = records.energies[:, sample, slots].sum(axis=-1).T / (2 * records.sites)
    overlaps = records.overlaps[:, sample, slots].T / records.sites
    return np.stack([energies, overlaps ** 2, overlaps ** 4, abs(overlaps)])


def reweighted(records: Records, betas: Sequence[float], targets: Sequence[float], slot: Optional[int] = None) -> Reweighted:
    """Moments at the target inverse temperatures, from all slots or from one alone. Refusal where its energies, or theirs,
    don't reach."""
    slots = list(range(records.slots)) if slot is None else [slot]
    own, wanted = np.array(betas, float)[slots], np.array(targets, float)
    means = np.empty((records.samples, len(wanted), MOMENTS))
    shares = np.empty((records.samples, len(wanted)))
    for sample in range(records.samples):
        energies = records.energies[:, sample, slots].sum(axis=-1).T
        found = weights(energies, own, wanted)
        means[sample] = np.einsum("tsn,msn->tm", found, observed(records, sample, slots))
        shares[sample] = 1 / (found ** 2).sum(axis=(1, 2)) / len(records.epochs)
    share = shares.mean(axis=0)
    for target, part in zip(wanted, share):
        if part < LEAST_SHARE:
            raise Refusal(f"the energies don't reach inverse temperature {target:g}: there the weights are those of "
                          f"{part:.1%} of a slot's records")
    return Reweighted(means, share)
