"""What finite-size scaling needs, from sums over runs by logarithmic bins of epochs (docs/specification/measure.md).

With <..> the mean over the epochs of the bins that are taken and [..] that over the samples. `per_sample` makes of a text the
means of each sample, with products of means taken sample by sample; everything else is a function of their means over
samples, so errors are a jackknife over runs of other seeds, or over samples.
"""
from __future__ import annotations

from typing import Callable, Dict, List, NamedTuple, Optional, Sequence

import numpy as np

from make_tables import Refusal
from measured_text import CLASSES, MOMENTS, Measured, read_measured

from .errors import Estimate, Numbers, jackknife

# Along the last axis of `per_sample`: the sums' names, classes, correlations along axes and face diagonals, products.
PLACE = {name: place for place, name in enumerate(MOMENTS)}
HIST = len(MOMENTS)
PRODUCTS = ("E q2", "E q4")


class Means(NamedTuple):
    """Means over the samples of some sums, by slot along all but the last axis; a block of them, or the whole."""
    values: Numbers
    size: int

    def of(self, name: str) -> Numbers:
        if name in PRODUCTS:
            return self.values[..., PRODUCTS.index(name) - len(PRODUCTS)]
        return self.values[..., PLACE[name]]

    @property
    def sites(self) -> int:
        return self.size ** 3

    def lines(self, family: str) -> Numbers:
        """The correlations of planes along the axes or the face diagonals, by distance."""
        distances = self.size // 2 + 1
        start = HIST + CLASSES + (0 if family == "axis" else distances)
        return self.values[..., start:start + distances]

    @property
    def classes(self) -> Numbers:
        return self.values[..., HIST:HIST + CLASSES]


def per_sample(measured: Measured, least_bin: int = 0, most_bin: Optional[int] = None) -> Numbers:
    """Means over the epochs of the bins from one to another: axes sample, slot, sum. Products of means are last."""
    heading = measured.heading
    bins = [k for k in measured.bins if k >= least_bin and (most_bin is None or k <= most_bin)]
    if not bins:
        raise Refusal(f"{measured.name} has no bin from {least_bin} on")
    found = []
    for sample in range(heading.samples):
        for slot in range(heading.slots):
            # Whole numbers are added, which may have more digits than a float.
            total = [sum(numbers) for numbers in zip(*(sum(measured.lines[sample, slot, k], ()) for k in bins))]
            found.append([number / total[0] for number in total])
    means = np.array(found).reshape(heading.samples, heading.slots, -1)
    energy = means[..., PLACE["E"]]
    return np.concatenate([means, np.stack([energy * means[..., PLACE[name]] for name in ("q2", "q4")], axis=-1)], axis=-1)


# ---------------------------------------------------------------- figures


def structure(means: Means, family: str, wave: int) -> Numbers:
    """chi(k) per site at the wave vector of so many wave lengths over the side, along the axes or the face diagonals."""
    lines, side = means.lines(family), means.size
    half = side // 2
    steps = np.arange(half + 1)
    weights = np.where((steps == 0) | (steps == half), 1.0, 2.0) * np.cos(2 * np.pi * wave * steps / side)
    return lines @ weights / ((3 if family == "axis" else 6) * means.sites)


def energy(means: Means) -> Numbers:
    return means.of("E") / (2 * means.sites)


def heat(means: Means, betas: Sequence[float]) -> Numbers:
    """Per site; the product of the energies of two replicas is the square of the mean energy without bias."""
    return np.asarray(betas) ** 2 * (means.of("E2") / 2 - means.of("E01")) / means.sites


def susceptibility(means: Means) -> Numbers:
    return means.of("q2") / means.sites


def length_by(ratio: Numbers, side: int) -> Numbers:
    """The second-moment correlation length over the side, by chi(0) over chi(1); nan where that is below 1."""
    with np.errstate(invalid="ignore"):
        return np.sqrt(ratio - 1) / (2 * np.sin(np.pi / side)) / side


def length_over_side(means: Means) -> Numbers:
    with np.errstate(invalid="ignore", divide="ignore"):
        return length_by(susceptibility(means) / structure(means, "axis", 1), means.size)


def r_12(means: Means) -> Numbers:
    """chi at the least wave vector over that at the next one."""
    with np.errstate(invalid="ignore", divide="ignore"):
        return structure(means, "axis", 1) / structure(means, "face", 1)


def u_4(means: Means) -> Numbers:
    with np.errstate(invalid="ignore"):
        return means.of("q4") / means.of("q2") ** 2


def link(means: Means) -> Numbers:
    return means.of("A") / (3 * means.sites)


def link_variance(means: Means) -> Numbers:
    return means.of("A2") / (9 * means.sites ** 2) - link(means) ** 2


def slope_of_u_4(means: Means) -> Numbers:
    """By the inverse temperature: that of a mean <x> is <E><x> - <E x>, with E the energy of both replicas."""
    square, fourth = means.of("q2"), means.of("q4")
    by_square = means.of("E q2") - means.of("Eq2")
    by_fourth = means.of("E q4") - means.of("Eq4")
    with np.errstate(invalid="ignore"):
        return u_4(means) * (by_fourth / fourth - 2 * by_square / square)


def overlap_density(means: Means) -> Numbers:
    """P(q) by class of |q|, made symmetric: the share of a class over the width of its values of q, two steps of 1 / sites each."""
    return means.classes / (values_in_classes(means.sites) * 2 / means.sites)


def values_in_classes(sites: int) -> Numbers:
    """How many overlaps, of both signs and as even as the number of sites, each class has."""
    overlaps = np.arange(-sites, sites + 1, 2)
    return np.bincount(np.minimum(CLASSES * abs(overlaps) // sites, CLASSES - 1), minlength=CLASSES).astype(float)


Function = Callable[[Means], Numbers]
FIGURES: Dict[str, Function] = {"energy": energy, "chi": susceptibility, "xi/L": length_over_side, "R12": r_12, "U4": u_4, "link": link,
           "var link": link_variance, "dU4/dbeta": slope_of_u_4}


# ---------------------------------------------------------------- blocks and errors


class Study(NamedTuple):
    """Texts of one size that differ in their seeds alone: their means by seed, sample, slot and sum."""
    size: int
    parts: Numbers

    def seeds(self) -> Numbers:
        return self.parts.mean(axis=1)

    def samples(self) -> Numbers:
        return self.parts.reshape(-1, *self.parts.shape[2:])


def study_of_texts(texts: Sequence[Measured], least_bin: int = 0, most_bin: Optional[int] = None) -> Study:
    first = texts[0].heading
    seen: Dict[str, str] = {}
    for text in texts:
        if text.heading._replace(digest="") != first._replace(digest=""):
            raise Refusal(f"{text.name} is of another run than {texts[0].name}: the first lines differ")
        if text.heading.digest in seen:
            raise Refusal(f"{text.name} is of the same plan as {seen[text.heading.digest]}: texts must differ in their seeds")
        seen[text.heading.digest] = text.name
    return Study(first.size, np.stack([per_sample(text, least_bin, most_bin) for text in texts]))


class Told(NamedTuple):
    """A figure by slot, its error over the seeds (nan of one), and that over the samples of all seeds."""
    over_seeds: Estimate
    over_samples: Numbers


def told_of(parts: Numbers, of: Callable[[Numbers], Numbers]) -> Told:
    """A function of means, of values by seed and sample."""
    return Told(jackknife(parts.mean(axis=1), of), jackknife(parts.reshape(-1, *parts.shape[2:]), of).error)


def figure(study: Study, of: Function) -> Told:
    return told_of(study.parts, lambda values: of(Means(values, study.size)))


class BinStep(NamedTuple):
    """A figure by slot in one bin, and by how much the next bin differs, the error being that of the difference."""
    number: int
    value: Estimate
    step: Optional[Estimate]


def by_bins(texts: Sequence[Measured], of: Function) -> List[BinStep]:
    """A figure bin by bin, the first bin first; blocks are seeds, of one text its samples."""
    studies = {k: study_of_texts(texts, k, k) for k in texts[0].bins}
    blocks = {k: study.seeds() if len(texts) > 1 else study.samples() for k, study in studies.items()}
    size, numbers = texts[0].heading.size, sorted(blocks)
    found = []
    for k, later in zip(numbers, [*numbers[1:], None]):
        pair = np.stack([blocks[k], blocks[later]], axis=-1) if later is not None else None
        step = None if pair is None else jackknife(pair, lambda values: of(Means(values[..., 1], size)) - of(Means(values[..., 0], size)))
        found.append(BinStep(k, jackknife(blocks[k], lambda values: of(Means(values, size))), step))
    return found


def read_texts(names: Sequence[str]) -> Dict[int, List[Measured]]:
    """Texts by size."""
    found: Dict[int, List[Measured]] = {}
    for name in names:
        text = read_measured(name)
        found.setdefault(text.heading.size, []).append(text)
    return dict(sorted(found.items()))

