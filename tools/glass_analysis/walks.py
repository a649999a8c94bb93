"""The walks of configurations through the temperature slots, and temperatures between which they walk faster."""
from __future__ import annotations

from typing import List, Optional, Sequence

import numpy as np

from make_tables import Refusal

from .errors import Estimate, Numbers, jackknife
from .observables import blocks
from .reports import Integers, Records


def acceptances_by_sample(records: Records) -> Optional[Numbers]:
    """Exchanges made of those tried, by sample and pair of neighbouring slots; None where not each epoch is recorded.

    Pair k is tried after epoch e where k and e are equal modulo 2.
    """
    if records.every != 1 or records.slots < 2:
        return None
    pair, epoch = np.arange(records.slots - 1), records.epochs[:-1, None]
    tried = (pair + epoch) % 2 == 0
    made = (records.labels[1:, :, :-1] != records.labels[:-1, :, :-1]) & tried[:, None, :, None]
    with np.errstate(invalid="ignore"):
        return made.mean(axis=3).sum(axis=0) / tried.sum(axis=0)


def acceptance(reports: Sequence[Records], count: Optional[int] = None) -> Optional[Estimate]:
    """That of each pair, with errors over the blocks."""
    values = [acceptances_by_sample(records) for records in reports]
    return None if values[0] is None else jackknife(blocks(values, count))


def positions(records: Records) -> Integers:
    """The slot of each label: axes epoch, sample, label, replica."""
    return np.argsort(records.labels, axis=2)


def round_trips(records: Records) -> Integers:
    """How often each configuration went from one end of the slots to the other and back: axes sample, label, replica.

    Where not each epoch is recorded, trips between records aren't seen.
    """
    places = positions(records)
    last = records.slots - 1
    trips = np.zeros(places.shape[1:], np.int64)
    if last == 0:
        return trips
    for sample, label, replica in np.ndindex(trips.shape):
        walk = places[:, sample, label, replica]
        ends = walk[(walk == 0) | (walk == last)]
        trips[sample, label, replica] = np.count_nonzero(np.diff(ends)) // 2
    return trips


def downward_counts(records: Records) -> Integers:
    """By sample and slot: the records of configurations that were last in the hottest slot, and of those that were last
    in the coldest.

    Where not each epoch is recorded, visits of the ends between records aren't seen.
    """
    last = records.slots - 1
    if last == 0:
        raise Refusal("a run at one temperature has no walk in temperature")
    found = np.zeros((records.samples, records.slots, 2), np.int64)
    for sample in range(records.samples):
        places = positions(records.part_of_sample(sample))[:, 0].reshape(len(records.epochs), -1)
        # The latest record so far in which the walk was at an end, -1 where it hasn't been.
        visited = np.where((places == 0) | (places == last), np.arange(len(places))[:, None], -1)
        latest = np.maximum.accumulate(visited, axis=0)
        end = np.take_along_axis(places, latest.clip(min=0), axis=0)
        for column, place in enumerate((last, 0)):
            found[sample, :, column] = np.bincount(places[(latest >= 0) & (end == place)], minlength=records.slots)
    return found


def downward_share(counts: Numbers) -> Numbers:
    """The part of the configurations in a slot that come from the hottest one, of those that come from an end."""
    with np.errstate(invalid="ignore"):
        return counts[..., 0] / counts.sum(axis=-1)


def feedback_temperatures(temperatures: Sequence[float], share: Numbers) -> List[float]:
    """As many temperatures between the same ends, such that walks go from end to end most often.

    The share f that comes from the hottest slot rises steeply where walks are slow. Where the diffusion between two slots
    is D = dT / df the best density of temperatures is the root of df / dT over dT, here constant between two slots
    (H. G. Katzgraber, S. Trebst, D. A. Huse and M. Troyer, J. Stat. Mech. P03018 (2006)).
    """
    given, steps = np.asarray(temperatures, float), np.diff(share)
    if not np.isfinite(given).all() or not np.isfinite(share).all():
        raise Refusal("no walk went from end to end, or a temperature is infinite: there is no feedback")
    if (steps <= 0).any():
        raise Refusal("the walks are too few for a feedback: the part that comes from the hottest slot doesn't rise "
                      f"from slot {int(np.argmin(steps))} to the next")
    along = np.concatenate([[0], np.cumsum(np.sqrt(steps))])
    return [float(value) for value in np.interp(np.linspace(0, along[-1], len(given)), along, given)]
