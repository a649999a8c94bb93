"""What `glass lines` prints: the link overlap of each temperature slot and how far it reaches, with errors.

For each slot, the coldest first, each with its error:
  link    mean of q(i) q(j) over all bonds (i, j) and samples, with q the overlap of the two replicas at a site
  C(L/2)  mean of q(i) q(k) over sites, directions and samples, k being half the side from i along an axis: where it
          isn't near 0 the lattice bounds what is correlated, and no length can be told from such lines

The error is a jackknife over the samples, or of several files, which must differ in their seeds alone, over the
files. The samples of one run share each random number, so compare it with that of several seeds. The coherence
length of states far from equilibrium is told by estimate.py lengths.
"""
import re
from collections import namedtuple
from fractions import Fraction

from analyse import COUNT, spelled
from jackknife import jackknife_error
from make_tables import Refusal
from report_errors import print_few
from text_lines import TextLines

Header = namedtuple("Header", "size slots samples epoch")
# Sums over samples: their number, A, and for each distance the sum of B over the three directions.
Sums = namedtuple("Sums", "samples link lines")
SIGNED = re.compile(rb"0|-?[1-9][0-9]{0,6}")
HEADER = re.compile(rb"lines 1 size=%b slots=%b samples=%b epoch=%b" % ((COUNT,) * 4))


# ---------------------------------------------------------------- reading


class Lines(TextLines):
    """The sums of one file by slot and sample. It is read once, line by line, and each line is checked."""

    cut = open_line = "the file ends before it is whole"

    def __init__(self, name, stream):
        super().__init__(name, stream)
        self.header = self.read_header()
        self.sums = [[] for _ in range(self.header.slots)]
        for sample in range(self.header.samples):
            for slot, sums in enumerate(self.sums):
                sums.append(self.read_slot(sample, slot))
        if self.next_line() != b"end":
            raise self.damaged("the end is due")
        if self.stream.readline(1):
            self.line_number += 1
            raise self.damaged("the lines have ended before this one")

    def read_header(self):
        found = HEADER.fullmatch(self.next_line())
        if not found:
            raise self.damaged("this is no first line of glass lines")
        header = Header(*map(int, found.groups()))
        if not (4 <= header.size <= 64 and header.size % 2 == 0 and 1 <= header.slots <= 32
                and 1 <= header.samples <= 64 and header.epoch <= 10 ** 9):
            raise self.damaged("a number of the first line isn't lawful")
        return header

    def number(self, front, terms):
        """A sum of so many terms that are +1 or -1."""
        line = self.next_line()
        if not line.startswith(front) or not SIGNED.fullmatch(line, len(front)):
            raise self.damaged(f"a line {front.decode()}.. is due")
        value = int(line[len(front):])
        if abs(value) > terms or (value - terms) % 2:
            raise self.damaged(f"{value} is no sum of {terms} terms")
        return value

    def read_slot(self, sample, slot):
        volume = self.header.size ** 3
        link = self.number(b"link,%d,%d," % (sample, slot), 3 * volume)
        lines = [[self.number(b"line,%d,%d,%d,%d," % (sample, slot, d, r), volume)
                  for r in range(1, self.header.size // 2 + 1)] for d in range(3)]
        if link != sum(line[0] for line in lines):
            raise self.damaged(f"the three lines at one step don't make up the link sum of sample {sample}, slot {slot}")
        return Sums(1, link, [sum(values) for values in zip(*lines)])


def together(parts):
    return Sums(sum(part.samples for part in parts), sum(part.link for part in parts),
                [sum(values) for values in zip(*(part.lines for part in parts))])


def blocks_of(files):
    """Of each slot the sums of each block: a sample, or of several files a file."""
    for n, other in enumerate(files):
        if other.header != files[0].header:
            raise Refusal(f"{other.name} is of another state than {files[0].name}: the first lines differ")
        for earlier in files[:n]:
            if other.sums == earlier.sums:
                raise Refusal(f"{other.name} has the same lines as {earlier.name}: files must differ in their seeds")
    if len(files) == 1:
        return files[0].sums
    return [[together(file.sums[slot]) for file in files] for slot in range(files[0].header.slots)]


# ---------------------------------------------------------------- values and errors


def values_of(sums, size):
    """Link overlap and the correlation at half the side."""
    terms = 3 * size ** 3 * sums.samples
    return float(Fraction(sums.link, terms)), float(Fraction(sums.lines[-1], terms))


def estimates(blocks, size):
    """Link overlap and the correlation at half the side, each with its error."""
    values = values_of(together(blocks), size)
    parts = [values_of(together(blocks[:k] + blocks[k + 1:]), size) for k in range(len(blocks))] if blocks[1:] else []
    return [(value, jackknife_error([part[k] for part in parts])) for k, value in enumerate(values)]


def print_estimates(files, names, head):
    header, slots = files[0].header, blocks_of(files)
    what = files[0].name if len(files) == 1 else f"{len(files)} files"
    print(f"{what}: size {header.size}, slots {header.slots}, samples {header.samples}, epoch {header.epoch}")
    print(f"slot {head:>10} {'link':>10} {'error':>9} {'C(L/2)':>10} {'error':>9}")
    for slot, (name, blocks) in enumerate(zip(names, slots)):
        print(f"{slot:>4} {name:>10} " + " ".join(f"{spelled(value, 6, 10)} {spelled(error, 6, 9)}"
                                                  for value, error in estimates(blocks, header.size)))
    print_few(len(slots[0]))
