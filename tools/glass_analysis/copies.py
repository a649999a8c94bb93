"""Four copies of equal couplings: ratios of products of their overlaps, and squares of means without bias.

Copies 0 and 1 are the two of a slot in one run, copies 2 and 3 those in a run of other random numbers (`glass cross`). The
product of the overlaps round three copies, or round a ring of four, doesn't know the sign of any copy. Two pairs without a
common copy are independent for given couplings, so the mean of a product of theirs is the square of a mean over the motion,
without the bias of a squared mean.
"""
from __future__ import annotations

from typing import Callable, Dict, List, NamedTuple, Sequence, Tuple

import numpy as np

from cross_text import APART, RINGS, TRIANGLES, Crossed, Pair, read_crossed
from make_tables import Refusal
from measured_text import CLASSES, Measured

from .errors import Numbers
from .sums import HIST, PLACE, PRODUCTS, Means, energy, length_over_side, link, link_variance, per_sample, r_12, susceptibility, u_4

# In front of the sums of sums.py, along the last axis of what is made here.
TRIANGLE, RING, SQUARE, LINK_SQUARE, ENERGY_SQUARE = range(5)
PRODUCTS_OF_COPIES = 5


class CopyMeans(NamedTuple):
    """Means over samples by slot: products of overlaps of several copies, and the sums of sums.py of one pair."""
    values: Numbers
    size: int

    @property
    def sums(self) -> Means:
        return Means(self.values[..., PRODUCTS_OF_COPIES:], self.size)

    def product(self, which: int) -> Numbers:
        return self.values[..., which]


CopyFunction = Callable[[CopyMeans], Numbers]


# ---------------------------------------------------------------- figures


def u_22(means: CopyMeans) -> Numbers:
    """[<q2>^2] / [q2]^2 - 1, the variance of the samples' <q2>."""
    with np.errstate(invalid="ignore", divide="ignore"):
        return means.product(SQUARE) / means.sums.of("q2") ** 2 - 1


def u_111(means: CopyMeans) -> Numbers:
    """[q(ab) q(bc) q(ca)]^(4/3) / [q2]^2; nan where the mean of the product is below 0."""
    with np.errstate(invalid="ignore", divide="ignore"):
        return means.product(TRIANGLE) ** (4 / 3) / means.sums.of("q2") ** 2


def u_1111(means: CopyMeans) -> Numbers:
    """[q(ab) q(bc) q(cd) q(da)] / [q2]^2."""
    with np.errstate(invalid="ignore", divide="ignore"):
        return means.product(RING) / means.sums.of("q2") ** 2


def link_of_samples(means: CopyMeans) -> Numbers:
    """The variance of the samples' mean link overlap; that of all link overlaps has the motion in it too."""
    return means.product(LINK_SQUARE) / (9 * means.sums.sites ** 2) - link(means.sums) ** 2


def energy_of_samples(means: CopyMeans) -> Numbers:
    """The variance of the samples' mean energy per site, times the number of sites."""
    per_site = means.sums.of("E") / (2 * means.sums.sites)
    return (means.product(ENERGY_SQUARE) / (4 * means.sums.sites ** 2) - per_site ** 2) * means.sums.sites


def of_sums(of: Callable[[Means], Numbers]) -> CopyFunction:
    return lambda means: of(means.sums)


# Figures of texts of four copies, and of pairs of measured runs, as tables have them together.
OF_COPIES: Dict[str, CopyFunction] = {
    "chi": of_sums(susceptibility), "xi/L": of_sums(length_over_side), "R12": of_sums(r_12),
    "U4": of_sums(u_4), "U22": u_22, "U111": u_111, "U1111": u_1111,
    "link": of_sums(link), "var link": of_sums(link_variance), "of samples": link_of_samples}
OF_TWINS: Dict[str, CopyFunction] = {
    "chi": of_sums(susceptibility), "U4": of_sums(u_4), "U22": u_22,
    "link": of_sums(link), "var link": of_sums(link_variance), "of samples": link_of_samples,
    "energy": of_sums(energy), "V var e": energy_of_samples}


# ---------------------------------------------------------------- from texts of four copies


def sums_of_pairs(pairs: Sequence[Pair]) -> List[float]:
    """The sums of sums.py, of which the six pairs have those of overlaps; all others are nan."""
    values = [float("nan")] * (HIST + CLASSES)
    moments = {"n": 1, "A": [pair.link for pair in pairs], "A2": [pair.link ** 2 for pair in pairs], "q": [pair.q for pair in pairs],
               "m": [abs(pair.q) for pair in pairs], "q2": [pair.q ** 2 for pair in pairs], "q4": [pair.q ** 4 for pair in pairs]}
    for name, numbers in moments.items():
        values[PLACE[name]] = float(np.mean(numbers))
    families = [np.mean([getattr(pair, family) for pair in pairs], axis=0) for family in ("axis", "face")]
    return [*values, *families[0], *families[1], *[float("nan")] * len(PRODUCTS)]


def products_of(texts: Sequence[Crossed], place: Tuple[int, int]) -> List[float]:
    """Of a sample and slot, of the texts of two runs at several epochs. What goes round the copies is taken state by state, and
    of two pairs without a common copy the means over the states are multiplied."""
    states = [text.pairs[place] for text in texts]
    squares = np.mean([[pair.q ** 2 for pair in pairs] for pairs in states], axis=0)
    links = np.mean([[pair.link for pair in pairs] for pairs in states], axis=0)
    around = [np.mean([np.prod([float(pairs[k].q) for k in copies]) for pairs in states for copies in kind])
              for kind in (TRIANGLES, RINGS)]
    apart = [np.mean([numbers[one] * numbers[other] for one, other in APART]) for numbers in (squares, links)]
    return [float(value) for value in (*around, *apart, np.nan)]


def per_sample_of_copies(texts: Sequence[Crossed]) -> Numbers:
    """Means over the states of two runs: axes sample, slot, product or sum."""
    heading = texts[0].heading
    found = [[products_of(texts, (sample, slot)) + sums_of_pairs([pair for text in texts for pair in text.pairs[sample, slot]])
              for slot in range(heading.slots)] for sample in range(heading.samples)]
    return np.array(found)


class CopyStudy(NamedTuple):
    """By pair of runs, which are the blocks, sample, slot and sum."""
    size: int
    parts: Numbers


def study_of_copies(texts: Sequence[Crossed]) -> CopyStudy:
    """Texts of one pair of seeds and several epochs are of one pair of runs; other pairs may have no seed in common with it."""
    first = texts[0]
    groups: Dict[Tuple[int, ...], Dict[Tuple[int, ...], Crossed]] = {}
    owner: Dict[int, Tuple[Tuple[int, ...], Crossed]] = {}
    for text in texts:
        heading = text.heading
        if heading._replace(seeds=(0, 0), epochs=(0, 0)) != first.heading._replace(seeds=(0, 0), epochs=(0, 0)):
            raise Refusal(f"{text.name} is of other runs than {first.name}: the first lines differ")
        if heading.seeds[0] == heading.seeds[1]:
            raise Refusal(f"{text.name} is of one run with the seed {heading.seeds[0]}: its copies at two epochs are not independent")
        # Either state may be named first.
        order = np.argsort(heading.seeds)
        seeds, epochs = (tuple(int(pair[k]) for k in order) for pair in (heading.seeds, heading.epochs))
        for seed in seeds:
            other = owner.setdefault(seed, (seeds, text))
            if other[0] != seeds:
                raise Refusal(f"{text.name} and {other[1].name} have the seed {seed} in common: pairs of runs must be independent")
        same = groups.setdefault(seeds, {}).setdefault(epochs, text)
        if same is not text:
            raise Refusal(f"{text.name} is of the same two states as {same.name}")
    states = {tuple(sorted(group)) for group in groups.values()}
    if len({len(group) for group in groups.values()}) > 1 or len(states) > 1:
        raise Refusal("the pairs of runs have states at other epochs: each pair's weight is that of the others")
    return CopyStudy(first.heading.size, np.stack([per_sample_of_copies(list(group.values())) for group in groups.values()]))


# ---------------------------------------------------------------- from two measured runs


def twin_products(one: Numbers, other: Numbers) -> Numbers:
    """Of the means of two runs of equal couplings, sample by sample: products, and behind them the means of both."""
    products = np.full((*one.shape[:-1], PRODUCTS_OF_COPIES), np.nan)
    for place, name in ((SQUARE, "q2"), (LINK_SQUARE, "A"), (ENERGY_SQUARE, "E")):
        products[..., place] = one[..., PLACE[name]] * other[..., PLACE[name]]
    return np.concatenate([products, (one + other) / 2], axis=-1)


class TwinStudy(NamedTuple):
    """By pair of measured runs, sample, slot and sum; and how the energies of both runs are correlated over the samples, by slot:
    1 where the means are exact, and near 0 where couplings aren't equal."""
    size: int
    parts: Numbers
    alike: Numbers


def study_of_twins(firsts: Sequence[Measured], seconds: Sequence[Measured], least_bin: int = 0, most_bin: int = 31) -> TwinStudy:
    if len(firsts) != len(seconds):
        raise Refusal(f"{len(firsts)} texts and {len(seconds)} of other seeds: each has one of equal couplings")
    seen: Dict[str, str] = {}
    for text in (*firsts, *seconds):
        if text.heading._replace(digest="") != firsts[0].heading._replace(digest=""):
            raise Refusal(f"{text.name} is of another run than {firsts[0].name}: the first lines differ")
        if text.heading.digest in seen:
            raise Refusal(f"{text.name} is of the same plan as {seen[text.heading.digest]}: texts must differ in their seeds")
        seen[text.heading.digest] = text.name
    both = [np.stack([per_sample(text, least_bin, most_bin) for text in texts]) for texts in (firsts, seconds)]
    energies = [values[..., PLACE["E"]].reshape(-1, values.shape[2]) for values in both]
    with np.errstate(invalid="ignore", divide="ignore"):
        alike = np.array([np.corrcoef(energies[0][:, slot], energies[1][:, slot])[0, 1] for slot in range(energies[0].shape[1])])
    return TwinStudy(firsts[0].heading.size, twin_products(*both), alike)


def read_copies(names: Sequence[str]) -> List[Crossed]:
    return [read_crossed(name) for name in names]
