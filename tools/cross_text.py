#!/usr/bin/env python3
"""Texts of `glass cross`, as docs/specification/quench.md has them: overlaps of the four copies of two saved states.

Each line is held to its place and to the laws that it can break: q is even and at most the number of sites, the link sum a
multiple of 4, correlations of a family of planes add up to three or six times the square, and the three q of three copies to
minus the number of sites at least.

    python3 tools/cross_text.py --self-test
"""
from __future__ import annotations

import re
import sys
from itertools import combinations
from typing import Dict, Iterator, NamedTuple, Sequence, Tuple

sys.dont_write_bytecode = True
from make_tables import Refusal  # noqa: E402
from text_lines import NumberLines, read_file  # noqa: E402

# The six pairs of copies: 0 and 1 are those of the first state, 2 and 3 those of the second.
PAIRS = tuple(combinations(range(4), 2))
# Of these pairs the three of each three copies, the four round each ring of all copies, and two that share no copy.
TRIANGLES = tuple(tuple(PAIRS.index(pair) for pair in combinations(three, 2)) for three in combinations(range(4), 3))
APART = tuple((k, 5 - k) for k in range(3))
RINGS = tuple((*one, *other) for one, other in combinations(APART, 2))
MOST_SAMPLES, GREATEST_EPOCH, GREATEST_SEED = 256, 10 ** 9, 2 ** 63 - 1
COUNT, SEED = "(0|[1-9][0-9]{0,9})", "(0|[1-9][0-9]{0,18})"
HEADER = re.compile(f"cross 1 size={COUNT} slots={COUNT} samples={COUNT} rule=(heat|metropolis) seeds={SEED},{SEED} "
                    f"epochs={COUNT},{COUNT}")


class Heading(NamedTuple):
    size: int
    slots: int
    samples: int
    rule: str
    seeds: Tuple[int, int]
    epochs: Tuple[int, int]


class Pair(NamedTuple):
    """Of the overlap field of two copies: its sum, that over the bonds, and the correlations of its planes by distance."""
    q: int
    link: int
    axis: Tuple[int, ...]
    face: Tuple[int, ...]


class Crossed(NamedTuple):
    """`pairs` has those of PAIRS in their order, by sample and slot."""
    name: str
    heading: Heading
    pairs: Dict[Tuple[int, int], Tuple[Pair, ...]]


def faults(size: int, pair: Pair) -> Iterator[str]:
    """Which laws the numbers of a pair break."""
    sites = size ** 3
    if abs(pair.q) > sites or pair.q % 2:
        yield f"q is even, and at most {sites}"
    if abs(pair.link) > 3 * sites or pair.link % 4:
        yield f"the link sum is a multiple of 4, and at most {3 * sites}"
    for values, times in ((pair.axis, 3), (pair.face, 6)):
        if values[0] + 2 * sum(values[1:-1]) + values[-1] != times * pair.q ** 2:
            yield f"the correlations don't add up to {times} times the square"


class Reader(NumberLines):
    def heading(self) -> Heading:
        found = HEADER.fullmatch(self.line())
        if found is None:
            raise self.damaged("this is no first line of glass cross")
        size, slots, samples, rule, *others = found.groups()
        seeds, epochs = (tuple(map(int, others[k:k + 2])) for k in (0, 2))
        heading = Heading(int(size), int(slots), int(samples), rule, seeds, epochs)
        if not (4 <= heading.size <= 64 and heading.size % 2 == 0 and 1 <= heading.slots <= 32
                and 1 <= heading.samples <= MOST_SAMPLES and max(epochs) <= GREATEST_EPOCH and max(seeds) <= GREATEST_SEED):
            raise self.damaged("a number of the first line isn't lawful")
        return heading

    def pair(self, size: int, place: Tuple[int, ...]) -> Pair:
        q, link = self.numbers("pair", place, 2)
        pair = Pair(q, link, *(self.numbers(kind, place, size // 2 + 1) for kind in ("axis", "face")))
        for fault in faults(size, pair):
            raise self.damaged(fault)
        return pair

    def read(self) -> Crossed:
        heading, found = self.heading(), {}
        for sample in range(heading.samples):
            for slot in range(heading.slots):
                pairs = tuple(self.pair(heading.size, (sample, slot, *pair)) for pair in PAIRS)
                for three in TRIANGLES:
                    if sum(pairs[k].q for k in three) < -heading.size ** 3:
                        raise self.damaged(f"the q of three copies add up to -{heading.size ** 3} at least")
                found[sample, slot] = pairs
        self.end("end")
        return Crossed(self.name, heading, found)


def read_crossed(name: str) -> Crossed:
    """The overlaps of a file. Refusal where it is no such text."""
    return read_file(name, lambda own, stream: Reader(own, stream).read())


def main(words: Sequence[str]) -> int:
    if list(words) == ["--self-test"]:
        from cross_text_test import self_test
        return self_test()
    if list(words) == ["--help"]:
        print(__doc__)
        return 0
    print("cross_text: this is read by estimate.py; --help says more", file=sys.stderr)
    return 2


if __name__ == "__main__":
    sys.exit(main(sys.argv[1:]))
