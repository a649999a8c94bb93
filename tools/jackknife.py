#!/usr/bin/env python3
"""Prints means with jackknife errors for each temperature slot, from the sums that `glass average`
prints or from a report.

    glass average report.txt 16 | python3 tools/jackknife.py --run run.toml
    python3 tools/jackknife.py report.txt --blocks 16 --temperatures 1.2 1.5
    python3 tools/jackknife.py seed-*/report --skip 1000 --run seed-0001/run.toml

The first two print the same. For each slot, the coldest first, each with its error:
  energy    mean energy per site of one replica, in units of the coupling
  q^2, q^4  mean powers of the overlap of the two replicas, q per site, from -1 to 1
  Binder    (3 - [q^4] / [q^2]^2) / 2, with [..] the mean over epochs and samples

The samples are divided into blocks of consecutive ones. A value x is computed from all rows, and as
x_k from the rows of all samples but those of block k. With K blocks and the mean m of the x_k its
error is the root of (K - 1) / K times the sum of (x_k - m)^2 (B. Efron, The Jackknife, the Bootstrap
and Other Resampling Plans, SIAM 1982). With one block there is none.

The error of one file is over the disorder: it takes the samples as independent. Those of one run share
each random number, so compare it with that of several seeds. Of several files, which must differ in their
seeds alone, each is one block, and the error is over the seeds.

Reports whose manifests (tools/manifest.py) name couplings files are one block for each file, of equal weight:
runs of one file have their disorder in common. That error is over the disorder, and has the motion in it. A
second table tells what part of it the seeds bring that a file has: each report is left out of its file in turn,
and the sum over the files of (n - 1) / n times the sum of squares about their mean is that error's square.
"""
import argparse
import math
import re
import sys
from collections import namedtuple
from fractions import Fraction
from functools import reduce

sys.dont_write_bytecode = True
from analyse import Report, read_each, spelled, study_of_reports  # noqa: E402
from exit_status import status_of  # noqa: E402
from make_tables import OneLineParser, Refusal, add_temperatures, inverse_temperatures  # noqa: E402
from manifest import add_run, slots_of, study_by_header  # noqa: E402
from report_errors import few_blocks  # noqa: E402
from text_lines import TextLines  # noqa: E402

# The number of rows, and the sums over them of both energies, of the squared overlap and of its square.
Sums = namedtuple("Sums", "rows energy squares fourths")
# Of each slot the sums over all rows, and for each block those over the rows outside it. `run` is what a report tells of
# its run, the first line and the interval of its epochs; None of sums, which tell neither. `seeds` has of each slot, for
# each couplings file, the sums without each report of that file; None where reports aren't of couplings files.
Averages = namedtuple("Averages", "size slots samples blocks rows totals without run seeds", defaults=[None])

COUNT = rb"(0|[1-9][0-9]{0,38})"
SIGNED = rb"(0|-?[1-9][0-9]{0,38})"
FIRST = re.compile(rb"average 1 size=%b slots=%b samples=%b blocks=%b rows=%b" % ((COUNT,) * 5))
SUMS = b",".join([COUNT, SIGNED, COUNT, COUNT])
MOST_BLOCKS = 256


# ---------------------------------------------------------------- sums


def together(parts):
    return Sums(*(sum(values) for values in zip(*parts)))


def outside(total, part):
    return Sums(*(a - b for a, b in zip(total, part)))


class SumsFile(TextLines):
    """The lines that `glass average` prints."""

    cut = open_line = "the sums end before they are whole"

    def sums(self, front, what):
        found = re.fullmatch(re.escape(front) + SUMS, self.next_line())
        if not found:
            raise self.damaged(f"the sums {what} are due")
        return Sums(*map(int, found.groups()))

    def read(self):
        found = FIRST.fullmatch(self.next_line())
        if not found:
            raise self.damaged("this is no first line of sums")
        size, slots, samples, blocks, rows = map(int, found.groups())
        if not (4 <= size <= 64 and size % 2 == 0 and 1 <= slots <= 32 and 1 <= blocks <= samples <= MOST_BLOCKS):
            raise self.damaged("a number of the first line isn't lawful")
        totals, without = [], []
        for slot in range(slots):
            totals.append(self.sums(b"sum,%d," % slot, f"of slot {slot}"))
            without.append([self.sums(b"without,%d,%d," % (slot, block), f"of slot {slot} without block {block}")
                            for block in range(blocks)])
            if together(outside(totals[slot], part) for part in without[slot]) != totals[slot]:
                raise self.damaged(f"the blocks of slot {slot} don't make up its sums")
        if sum(total.rows for total in totals) != rows:
            raise self.damaged("the slots don't make up the number of rows")
        if self.next_line() != b"end":
            raise self.damaged("the end is due")
        if self.stream.readline(1):
            raise self.damaged("the sums have ended before this line")
        return Averages(size, slots, samples, blocks, rows, totals, without, None)


def sums_of_report(name, stream, blocks, skip):
    """The same sums of a report, each line of which is checked."""
    report = Report(name, stream, skip)
    h = report.header
    if blocks > h.samples:
        raise Refusal(f"{name} has {h.samples} samples, too few for {blocks} blocks")
    totals, without = [], []
    for slot in range(h.slots):
        parts = [[] for _ in range(blocks)]
        for sample in range(h.samples):
            energy = report.energies[0][slot][sample] + report.energies[1][slot][sample]
            parts[sample * blocks // h.samples].append(
                Sums(report.counted, energy, report.squares[slot][sample], report.fourth_powers[slot][sample]))
        blocked = [together(part) for part in parts]
        totals.append(together(blocked))
        without.append([outside(totals[slot], part) for part in blocked])
    rows = report.counted * h.samples * h.slots
    return Averages(h.size, h.slots, h.samples, blocks, rows, totals, without, (h, report.every))


def read(name, stream, options):
    """Sums or a report, by its first bytes."""
    if stream.peek(8)[:8] == b"average ":
        if options.blocks is not None or options.skip:
            raise Refusal(f"{name} has sums: their blocks and rows are chosen already")
        return SumsFile(name, stream).read()
    if options.blocks is None and len(options.files) < 2:
        raise Refusal(f"{name} has no sums of glass average; for a report give --blocks")
    return sums_of_report(name, stream, options.blocks or 1, options.skip)


def check_alike(names, parts):
    """Refuses files of different runs, and one file twice."""
    first, seen, reports = parts[0], {}, []
    for name, part in zip(names, parts):
        if (part.size, part.slots, part.samples, part.rows) != (first.size, first.slots, first.samples, first.rows):
            raise Refusal(f"{name} is of another run than {names[0]}: sizes, samples or rows differ")
        if part.run:
            reports.append((name, part.run))
            if part.run != reports[0][1]:
                raise Refusal(f"{name} is of another run than {reports[0][0]}: the first lines or epochs differ")
        other = seen.setdefault(tuple(part.totals), name)
        if other is not name:
            raise Refusal(f"{name} has the same sums as {other}: files must differ in their seeds")


def scaled(sums, factor):
    return Sums(*(factor * value for value in sums))


def joined(names, parts, numbers):
    """The sums of several files. Each is a block, or `numbers` has the block of each, and all blocks have one weight."""
    check_alike(names, parts)
    first, count = parts[0], len(parts)
    blocks = [[part for part, number in zip(parts, numbers or range(count)) if number == block]
              for block in sorted(set(numbers or range(count)))]
    # Whole numbers, whatever number of reports a block has, also without one of them.
    base = reduce(lambda a, b: a * b // math.gcd(a, b), (len(block) * max(1, len(block) - 1) for block in blocks))
    totals, without, seeds = [], [], []
    for slot in range(first.slots):
        of_block = [scaled(together(part.totals[slot] for part in block), base // len(block)) for block in blocks]
        totals.append(together(of_block))
        without.append([outside(totals[slot], own) for own in of_block])
        seeds.append([without_each(without[slot][k], [part.totals[slot] for part in block], base)
                      for k, block in enumerate(blocks)])
    return Averages(first.size, first.slots, first.samples * len(blocks), len(blocks), first.rows * count, totals, without,
                    first.run, seeds if numbers else None)


def without_each(others, own, base):
    """The sums of the other blocks and of one's own reports but one; none where there is one report."""
    if len(own) < 2:
        return []
    whole = together(own)
    return [together([others, scaled(outside(whole, one), base // (len(own) - 1))]) for one in own]


# ---------------------------------------------------------------- values and errors


def values_of(sums, volume):
    """Energy, q^2, q^4 and Binder ratio; None where no row or no overlap defines one."""
    if not sums.rows:
        return [None] * 4
    values = [Fraction(sums.energy, 2 * sums.rows * volume), Fraction(sums.squares, sums.rows * volume ** 2),
              Fraction(sums.fourths, sums.rows * volume ** 4)]
    binder = (3 - Fraction(sums.rows * sums.fourths, sums.squares ** 2)) / 2 if sums.squares else None
    return [float(value) for value in values] + [None if binder is None else float(binder)]


def jackknife_error(values):
    """The error of a value from those without each block."""
    if len(values) < 2 or None in values:
        return None
    mean = math.fsum(values) / len(values)
    return math.sqrt((len(values) - 1) / len(values) * math.fsum((value - mean) ** 2 for value in values))


def seeds_error(values):
    """The part of the error that is over the seeds of one disorder, from the values without each report, file by file."""
    if any(len(of_file) < 2 or None in of_file for of_file in values):
        return None
    return math.hypot(*(jackknife_error(of_file) for of_file in values))


def print_seeds(averages, names, head):
    """The errors over the seeds of the same couplings."""
    volume, reports = averages.size ** 3, [len(of_file) or 1 for of_file in averages.seeds[0]]
    print(f"couplings files: {averages.blocks}, each a block, of {' '.join(map(str, reports))} reports; "
          "of the errors above, the part over the seeds of a file:")
    print(f"slot {head:>10}" + "".join(f" {what:>20}" for what in ("energy", "q^2", "q^4", "Binder")))
    for slot, name in enumerate(names):
        values = [[values_of(sums, volume) for sums in of_file] for of_file in averages.seeds[slot]]
        print(f"{slot:>4} {name:>10}" + "".join(f" {spelled(seeds_error([[one[k] for one in of_file] for of_file in values]), 6, 20)}"
                                               for k in range(4)))


def print_averages(averages, names, head):
    volume = averages.size ** 3
    print(f"size {averages.size}, slots {averages.slots}, samples {averages.samples}, blocks {averages.blocks}, "
          f"rows {averages.rows}")
    print(f"slot {head:>10}" + "".join(f" {what:>10} {'error':>9}" for what in ("energy", "q^2", "q^4", "Binder")))
    for slot, name in enumerate(names):
        values = values_of(averages.totals[slot], volume)
        parts = [values_of(part, volume) for part in averages.without[slot]]
        line = f"{slot:>4} {name:>10}"
        for k, value in enumerate(values):
            line += f" {spelled(value, 6, 10)} {spelled(jackknife_error([part[k] for part in parts]), 6, 9)}"
        print(line)
    if averages.seeds:
        print_seeds(averages, names, head)
    if few_blocks(averages.blocks):
        print(few_blocks(averages.blocks))


# ---------------------------------------------------------------- the program


def study_of_parts(options, parts):
    """Sums of `glass average` have no manifest."""
    header = next((part.run[0] for part in parts if part.run), None)
    if header:
        return study_of_reports(options.files, options.run, header)
    return study_by_header(options.files, options.run, size=parts[0].size, samples=parts[0].samples)


def jackknife(options):
    typed = inverse_temperatures(options)
    if options.blocks is not None and not 1 <= options.blocks <= MOST_BLOCKS:
        raise Refusal(f"{options.blocks} blocks, and there are 1 to {MOST_BLOCKS}")
    if options.blocks is not None and len(options.files) > 1:
        raise Refusal("of several files each is a block: --blocks is for one")
    options.files = options.files or ["-"]
    parts = list(read_each(options.files, lambda name, stream: read(name, stream, options)))
    study = study_of_parts(options, parts)
    averages = joined(options.files, parts, study.blocks) if len(parts) > 1 else parts[0]
    slots = slots_of(options, typed, averages.slots, study)
    if not averages.rows:
        raise Refusal("there is no row" + (f" from epoch {options.skip} on" if options.skip else ""))
    print_averages(averages, slots.names, slots.head)


def main(words=None):
    parser = OneLineParser(prog="jackknife", description=__doc__, allow_abbrev=False,
                           formatter_class=argparse.RawDescriptionHelpFormatter)
    parser.add_argument("files", nargs="*", metavar="FILE",
                        help="what glass average printed, or a report; - for standard input (the default); or several")
    add_run(add_temperatures(parser))
    parser.add_argument("--blocks", type=int, metavar="K", help="of a report: the number of blocks of its samples")
    parser.add_argument("--skip", type=int, default=0, metavar="EPOCH",
                        help="of a report: leave out the epochs before this one")
    parser.add_argument("--self-test", action="store_true",
                        help="compare with sums taken row by row from reports of an independent program")
    try:
        options = parser.parse_args(words)
        if options.self_test:
            from jackknife_test import self_test
            return self_test(main)
        jackknife(options)
    except Refusal as refusal:
        print(f"jackknife: {refusal}", file=sys.stderr)
        return 2
    return 0


if __name__ == "__main__":
    sys.exit(status_of("jackknife", main))
