"""Texts of sums over a run, as docs/specification/measure.md has them: read line by line, and joined.

Each line is held to its place and to the laws that one line can break: the correlations of a family of planes add up to
three or six times the squares, the classes to the number of epochs, and sums obey the inequalities of Cauchy and Schwarz.
"""
from __future__ import annotations

import re
from typing import Dict, Iterable, Iterator, List, NamedTuple, Sequence, Tuple

from make_tables import Refusal
from text_lines import NumberLines, read_file

MOMENTS = ("n", "E", "E2", "E01", "A", "A2", "q", "m", "q2", "q4", "Eq2", "Eq4")
KINDS = ("sum", "hist", "axis", "face")
CLASSES, MOST_BINS, BANKS = 32, 31, 4
COUNT = "(0|[1-9][0-9]{0,9})"
HEADER = re.compile(f"measure 1 size={COUNT} slots={COUNT} samples={COUNT} rule=(heat|metropolis) every={COUNT} from={COUNT} "
                    f"to={COUNT} digest=([0-9a-f]{{64}})")


class Heading(NamedTuple):
    size: int
    slots: int
    samples: int
    rule: str
    every: int
    first: int
    to: int
    digest: str

    def text(self) -> str:
        return (f"measure 1 size={self.size} slots={self.slots} samples={self.samples} rule={self.rule} every={self.every} "
                f"from={self.first} to={self.to} digest={self.digest}\n")


# Of a sample, slot and bin the numbers of its four lines.
Lines = Tuple[Tuple[int, ...], ...]


class Measured(NamedTuple):
    """`bins` has the bins that have a measured epoch, in their order; `lines` goes by sample, slot and bin."""
    name: str
    heading: Heading
    bins: Tuple[int, ...]
    lines: Dict[Tuple[int, int, int], Lines]


def epochs_by_bin(every: int, first: int, to: int) -> Dict[int, int]:
    """How many epochs f from `first` to before `to` with f mod every = every - 1 have k binary digits, for each such k."""
    found = {}
    for k in range(MOST_BINS):
        begin, end = max(first, 2 ** (k - 1) if k else 0), min(to, 2 ** k)
        number = end // every - begin // every if begin < end else 0
        if number:
            found[k] = number
    return found


def faults(size: int, number: int, lines: Lines) -> Iterator[str]:
    """Which laws the numbers of a bin break."""
    moments, classes, axis, face = (dict(zip(MOMENTS, lines[0])), *lines[1:])
    if moments["n"] != number:
        yield f"the bin has {number} measured epochs"
    if sum(classes) != number or min(classes) < 0:
        yield "the classes don't add up to the number of epochs"
    for values, times in ((axis, 3), (face, 6)):
        if values[0] + 2 * sum(values[1:-1]) + values[-1] != times * moments["q2"]:
            yield f"the correlations don't add up to {times} times the squares"
    if abs(moments["q"]) > moments["m"] or 2 * abs(moments["E01"]) > moments["E2"]:
        yield "a sum is greater than that of the magnitudes"
    if any(moments[one] ** 2 > number * moments[square] for one, square in (("A", "A2"), ("q", "q2"), ("q2", "q4"))):
        yield "a square of a sum is greater than the sum of squares allows"
    if moments["q2"] > number * size ** 6:
        yield "the overlaps are greater than the number of sites"


class Reader(NumberLines):
    def heading(self) -> Heading:
        found = HEADER.fullmatch(self.line())
        if found is None:
            raise self.damaged("this is no first line of sums over a run")
        size, slots, samples, rule, every, first, to, digest = found.groups()
        heading = Heading(int(size), int(slots), int(samples), rule, int(every), int(first), int(to), digest)
        if not (4 <= heading.size <= 64 and heading.size % 2 == 0 and 1 <= heading.slots <= 32 and 1 <= heading.samples <= 64 * BANKS
                and heading.every >= 1 and heading.first <= heading.to < 2 ** 30):
            raise self.damaged("this is no first line of sums over a run")
        return heading

    def read(self) -> Measured:
        heading = self.heading()
        found, distances = epochs_by_bin(heading.every, heading.first, heading.to), heading.size // 2 + 1
        lines = {}
        for sample in range(heading.samples):
            for slot in range(heading.slots):
                for k, number in found.items():
                    place = (sample, slot, k)
                    lines[place] = tuple(self.numbers(kind, place, count) for kind, count in
                                         zip(KINDS, (len(MOMENTS), CLASSES, distances, distances)))
                    for fault in faults(heading.size, number, lines[place]):
                        raise self.damaged(fault)
        self.end(f"end,{heading.to}")
        return Measured(self.name, heading, tuple(found), lines)


def read_measured(name: str) -> Measured:
    """The sums of a file. Refusal where it is no such text."""
    return read_file(name, lambda own, stream: Reader(own, stream).read())


def text_of(measured: Measured) -> Iterator[str]:
    heading = measured.heading
    yield heading.text()
    for place, lines in sorted(measured.lines.items()):
        for kind, numbers in zip(KINDS, lines):
            yield ",".join([kind, *map(str, place), *map(str, numbers)]) + "\n"
    yield f"end,{heading.to}\n"


def added(one: Lines, other: Lines) -> Lines:
    return tuple(tuple(map(sum, zip(*pair))) for pair in zip(one, other))


def joined(parts: Iterable[Measured]) -> Measured:
    """The sums of a run from those of its parts, each of which begins where the one before ends: lines of one sample, slot
    and bin are added. Of the parts one is held at a time, where they are read as they are wanted."""
    others = iter(parts)
    whole = next(others)
    for part in others:
        before, heading = whole.heading, part.heading
        if heading._replace(first=0, to=0) != before._replace(first=0, to=0):
            raise Refusal(f"{part.name} is of another run than {whole.name}: the first lines differ")
        if heading.first != before.to:
            raise Refusal(f"{part.name} begins at epoch {heading.first}, and what comes before ends at {before.to}")
        lines = dict(whole.lines)
        for place, own in part.lines.items():
            lines[place] = added(lines[place], own) if place in lines else own
        bins = tuple(sorted({*whole.bins, *part.bins}))
        whole = Measured(whole.name, before._replace(to=heading.to), bins, lines)
    return whole


def in_order(parts: Sequence[Measured]) -> List[Measured]:
    return sorted(parts, key=lambda part: (part.heading.first, part.heading.to))
