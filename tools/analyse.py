#!/usr/bin/env python3
"""Reads reports of `glass run` and prints mean values for each temperature slot.

    glass run run.toml | python3 tools/analyse.py --betas 0.3 0.22165463 0.2 0.1
    python3 tools/analyse.py report.txt --run run.toml --plot report.svg
    python3 tools/analyse.py seed_1.txt seed_2.txt seed_3.txt --exact -2.515 -1.293 -0.933 -0.317

For each slot, the coldest first:
  energy 0, energy 1  mean energy per site of the two replicas, in units of the coupling
  std dev             standard deviation of the sample means of the energy per site
  q^2, q^4            mean powers of the overlap of the two replicas, q per site, from -1 to 1
  Binder              (3 - [q^4] / [q^2]^2) / 2, with [..] the mean over epochs and samples
  acceptance          exchanges made with the next slot, of those tried, where each epoch is recorded
Of several reports, which must differ in their seeds alone, all samples are taken together, and the
mean energy gets an error: the standard deviation of the reports' means over the root of their number.
Reports whose manifests (tools/manifest.py) name couplings files are taken file by file: `error` is then that
of the files' means, over the disorder, and `of seeds` the part of it that the seeds of each file bring.

A report that no run prints is refused with the number of its first such line.

    glass lines run.toml checkpoint > lines.txt; python3 tools/analyse.py lines.txt --temperatures 1.1 1.4

Of what `glass lines` prints it gives the link overlap and the correlation at half the side, each with its error
over the samples, or of several files over the files: see tools/lines_report.py.
"""
import argparse
import math
import re
import sys
from collections import namedtuple

sys.dont_write_bytecode = True
from exit_status import status_of  # noqa: E402
from make_tables import OneLineParser, Refusal, add_temperatures, inverse_temperatures  # noqa: E402
from manifest import add_run, slots_of, study_by_header, study_of  # noqa: E402
from report_errors import deviation, errors_of, print_few  # noqa: E402
from report_plot import plot_text  # noqa: E402
from text_lines import LONGEST_LINE, TextLines  # noqa: E402

Header = namedtuple("Header", "size slots samples rule first until")
COUNT = rb"(0|[1-9][0-9]{0,9})"
SIGNED = rb"(0|-?[1-9][0-9]{0,6})"
HEADER = re.compile(rb"glass 1 size=%b slots=%b samples=%b rule=(heat|metropolis) from=%b to=%b" % ((COUNT,) * 5))
ROW = re.compile(rb"row," + b",".join([COUNT] * 3 + [SIGNED] * 3 + [COUNT] * 2))
NOTE = """note: the samples of one run share each random number, so the deviation of their means gives no error.
      Run other seeds and hand in all their reports: the error comes from the reports."""


# ---------------------------------------------------------------- reading


class Report(TextLines):
    """The sums of one report. The file is read once, line by line, and each line is checked."""

    cut = "the report ends before it is whole"
    open_line = "the line doesn't end with a line feed"

    def __init__(self, name, stream, skip):
        super().__init__(name, stream)
        self.skip, self.epochs, self.every, self.last, self.counted = skip, 0, None, None, 0
        self.header = self.read_header()
        slots, samples = self.header.slots, self.header.samples
        self.volume = self.header.size ** 3
        self.energies = [[[0] * samples for _ in range(slots)] for _ in range(2)]
        self.squares = [[0] * samples for _ in range(slots)]
        self.fourth_powers = [[0] * samples for _ in range(slots)]
        self.tried, self.made = [0] * slots, [0] * slots
        self.parities = [None] * samples
        self.labels = [[None, None] for _ in range(samples)]
        self.first_recorded, self.walk = None, bytearray()
        line = self.next_line()
        while line.startswith(b"row,"):
            self.read_epoch(line)
            line = self.next_line()
        self.read_end(line)
        self.read_spins()

    def read_header(self):
        found = HEADER.fullmatch(self.next_line())
        if not found:
            raise self.damaged("this is no header of a report")
        size, slots, samples, first, until = (int(found[k]) for k in (1, 2, 3, 5, 6))
        if not (4 <= size <= 64 and size % 2 == 0 and 1 <= slots <= 32 and 1 <= samples <= 256
                and first <= until <= 10 ** 9):
            raise self.damaged("a number of the header isn't lawful")
        return Header(size, slots, samples, found[4].decode(), first, until)

    def read_epoch(self, line):
        """The rows of an epoch, of which `line` is the first."""
        for sample in range(self.header.samples):
            before, seen = self.labels[sample], ([], [])
            for slot in range(self.header.slots):
                if sample or slot:
                    line = self.next_line()
                found = ROW.fullmatch(line)
                if not found:
                    raise self.damaged(f"a row of sample {sample}, slot {slot} is due")
                row = [int(field) for field in found.groups()]
                if not sample and not slot:
                    self.open_epoch(row[0])
                if row[:3] != [self.epoch, sample, slot]:
                    raise self.damaged(f"a row of epoch {self.epoch}, sample {sample}, slot {slot} is due")
                self.take_values(sample, slot, row[3:6])
                for replica in range(2):
                    self.take_label(slot, row[6 + replica], before[replica], seen[replica])
            if self.follows and self.last >= self.skip:
                self.count_exchanges(before, seen)
            self.labels[sample] = list(seen)
        self.walk += bytes(self.labels[0][0])
        self.last = self.epoch
        self.epochs += 1
        self.counted += self.epoch >= self.skip

    def open_epoch(self, epoch):
        first, until, last = self.header.first, self.header.until, self.last
        if not first <= epoch < until:
            raise self.damaged(f"epoch {epoch} isn't one from {first} to {until - 1}")
        if self.epochs == 1 and last < epoch and (last + 1) % (epoch - last) == 0 and last - (epoch - last) < first:
            self.every = epoch - last
        if self.epochs and epoch != last + (self.every or 0):
            raise self.damaged(f"no run records epoch {epoch} after epoch {last}" if self.every is None
                               else f"epoch {epoch}, and epoch {last + self.every} is due")
        if last is None:
            self.first_recorded = epoch
        self.epoch, self.follows = epoch, last is not None and epoch == last + 1

    def take_values(self, sample, slot, values):
        for value, bound in zip(values, (3 * self.volume, 3 * self.volume, self.volume)):
            if abs(value) > bound or value % 2 == 1:
                raise self.damaged(f"{value} is no even number from {-bound} to {bound}")
        parity = values[0] % 4 if self.parities[sample] is None else self.parities[sample]
        if values[0] % 4 != parity or values[1] % 4 != parity:
            raise self.damaged("energies of one sample differ by multiples of 4, and this one doesn't")
        self.parities[sample] = parity
        if self.epoch >= self.skip:
            for replica in range(2):
                self.energies[replica][slot][sample] += values[replica]
            self.squares[slot][sample] += values[2] ** 2
            self.fourth_powers[slot][sample] += values[2] ** 4

    def take_label(self, slot, label, before, seen):
        """Pair k could exchange after epoch e where k and e are equal modulo 2."""
        if label >= self.header.slots or label in seen:
            raise self.damaged(f"replica label {label} is past the slots, or comes twice")
        if self.epoch == 0 and label != slot:
            raise self.damaged(f"replica label {label}, before any exchange")
        if self.follows:
            partner = slot + 1 if (slot + self.last) % 2 == 0 else slot - 1
            if label != before[slot] and not (0 <= partner < len(before) and label == before[partner]):
                raise self.damaged(f"replica label {label} can't have come to slot {slot} by one exchange")
        seen.append(label)

    def count_exchanges(self, before, after):
        for pair in range(self.last % 2, self.header.slots - 1, 2):
            self.tried[pair] += 2
            self.made[pair] += sum(after[replica][pair] != before[replica][pair] for replica in range(2))

    def read_end(self, line):
        if line != b"end,%d" % self.header.until:
            raise self.damaged(f"neither a row nor end,{self.header.until}")
        # A single recorded epoch f can be the only one where each (f + 1)-th is recorded.
        after = None if not self.epochs else self.last + (self.every or self.last + 1)
        if after is not None and after < self.header.until:
            raise self.damaged(f"rows of epoch {after} are missing")

    def read_spins(self):
        """No line more, or one for each sample, slot and replica."""
        if not (line := self.stream.readline(LONGEST_LINE)):
            return
        digits = re.compile(rb"[0-9a-f]{%d}" % (self.volume // 4))
        for n in range(2 * self.header.samples * self.header.slots):
            if n:
                line = self.next_line() + b"\n"
            else:
                self.line_number += 1
            sample, slot, replica = n // (2 * self.header.slots), n // 2 % self.header.slots, n % 2
            start = b"spin,%d,%d,%d," % (sample, slot, replica)
            if not line.startswith(start) or not line.endswith(b"\n") or not digits.fullmatch(line[len(start):-1]):
                raise self.damaged(f"the spins of sample {sample}, slot {slot}, replica {replica} are due")
        if self.stream.readline(1):
            self.line_number += 1
            raise self.damaged("the report has ended before this line")

    def walk_steps(self, most):
        """Recorded epochs with the labels of sample 0, replica 0, by slot: `most` at most, at equal distances."""
        slots = self.header.slots
        for n in range(0, self.epochs, max(1, -(-self.epochs // most))):
            yield self.first_recorded + n * (self.every or 0), self.walk[n * slots:(n + 1) * slots]

    def sample_means(self, replica, slot):
        """The mean energy per site of each sample."""
        return [total / (self.counted * self.volume) for total in self.energies[replica][slot]]

    def mean_energy(self, slot):
        """Per site, over both replicas and all samples."""
        total = sum(self.energies[0][slot]) + sum(self.energies[1][slot])
        return total / (2 * self.counted * self.volume * self.header.samples)


def read_each(names, read):
    """What `read` makes of each file, given its name and its stream."""
    for name in names or ["-"]:
        try:
            if name == "-":
                yield read("standard input", sys.stdin.buffer)
            else:
                with open(name, "rb") as stream:
                    yield read(name, stream)
        except OSError as fault:
            raise Refusal(f"{name} can't be read: {fault.strerror}") from None


def read_any(name, stream, skip):
    """A report, or what `glass lines` prints, by its first bytes."""
    if stream.peek(6)[:6] == b"lines ":
        from lines_report import Lines
        return Lines(name, stream)
    return Report(name, stream, skip)


def same_runs(reports):
    """The reports, which must be of runs that differ in their seeds alone."""
    for report in reports[1:]:
        if (report.header, report.every) != (reports[0].header, reports[0].every):
            raise Refusal(f"{report.name} is of another run than {reports[0].name}: the first lines or epochs differ")
    for n, report in enumerate(reports):
        for other in reports[:n]:
            if report.counted and report.energies == other.energies and report.walk == other.walk:
                raise Refusal(f"{report.name} has the same rows as {other.name}: reports must differ in their seeds")
    return reports


# ---------------------------------------------------------------- mean values

Means = namedtuple("Means", "energies deviations square fourth_power binder acceptance")


def slot_means(reports, slot):
    first = reports[0]
    energies, deviations = [], []
    for replica in range(2):
        values = [value for report in reports for value in report.sample_means(replica, slot)]
        energies.append(math.fsum(values) / len(values))
        deviations.append(deviation(values))
    number = len(reports) * first.counted * first.header.samples
    squares, fourth = (sum(sum(sums[slot]) for sums in lists) for lists in
                       ([r.squares for r in reports], [r.fourth_powers for r in reports]))
    tried, made = sum(r.tried[slot] for r in reports), sum(r.made[slot] for r in reports)
    return Means(energies, deviations, squares / (number * first.volume ** 2), fourth / (number * first.volume ** 4),
                 (3 - number * fourth / squares ** 2) / 2 if squares else None, made / tried if tried else None)


def spelled(value, places, width):
    return ("-" if value is None else f"{value:.{places}f}").rjust(width)


def print_means(reports, names, head):
    first, h = reports[0], reports[0].header
    what = first.name if len(reports) == 1 else f"{len(reports)} reports"
    print(f"{what}: size {h.size}, {h.rule}, slots {h.slots}, samples {h.samples}, epochs {h.first} to {h.until}, "
          f"{first.counted} recorded ones taken")
    print(f"slot {head:>10} {'energy 0':>11} {'std dev':>9} {'energy 1':>11} {'std dev':>9} {'q^2':>9} {'q^4':>9} "
          f"{'Binder':>8} {'acceptance':>10}")
    for slot, name in enumerate(names):
        m = slot_means(reports, slot)
        print(f"{slot:>4} {name:>10} {spelled(m.energies[0], 6, 11)} {spelled(m.deviations[0], 6, 9)} "
              f"{spelled(m.energies[1], 6, 11)} {spelled(m.deviations[1], 6, 9)} {spelled(m.square, 6, 9)} "
              f"{spelled(m.fourth_power, 6, 9)} {spelled(m.binder, 4, 8)} {spelled(m.acceptance, 4, 10)}")


def print_comparison(reports, names, head, exact, blocks=None):
    """Measured energies per site, with errors from several reports, beside the exact ones."""
    several = len(reports) > 1
    print(f"slot {head:>10} {'measured':>11}" + (f" {'error':>9}" if several else "") + (f" {'of seeds':>9}" if blocks else "")
          + (f" {'exact':>11} {'difference':>11}" if exact else "") + (f" {'in errors':>9}" if exact and several else ""))
    for slot, name in enumerate(names):
        mean, error, of_seeds = errors_of([report.mean_energy(slot) for report in reports], blocks)
        line = f"{slot:>4} {name:>10} {mean:>11.6f}"
        if several:
            line += f" {spelled(error, 6, 9)}"
        if blocks:
            line += f" {spelled(of_seeds, 6, 9)}"
        # Of one file there is no error over the disorder, and what is exact is so of its couplings.
        error = of_seeds if blocks and len(set(blocks)) == 1 else error
        if exact:
            line += f" {exact[slot]:>11.6f} {mean - exact[slot]:>+11.6f}"
        if exact and error:
            line += f" {(mean - exact[slot]) / error:>+9.2f}"
        print(line)
    print_few(len(set(blocks)) if blocks else len(reports))


# ---------------------------------------------------------------- the program


def decimals(texts, slots):
    try:
        values = [float(text) for text in texts]
    except ValueError:
        raise Refusal("an exact energy is no number") from None
    if not all(map(math.isfinite, values)):
        raise Refusal("an exact energy is no number")
    if len(values) != slots:
        raise Refusal(f"{len(values)} exact energies, and the report has {slots} slots")
    return values


def study_of_reports(names, run_files, header):
    """The study of reports; of a pipe its first line alone is asked."""
    if names in ([], ["-"]):
        return study_by_header(["-"], run_files, size=header.size, samples=header.samples, rule=header.rule)
    return study_of(tuple(names), tuple(run_files))


def analyse(options):
    typed = inverse_temperatures(options)
    reports = list(read_each(options.reports, lambda name, stream: read_any(name, stream, options.skip)))
    header = reports[0].header
    kinds = {type(report) for report in reports}
    if kinds == {Report}:
        study = study_of_reports(options.reports, options.run, header)
        analyse_reports(options, same_runs(reports), study, slots_of(options, typed, header.slots, study))
    elif Report in kinds:
        raise Refusal("reports and what glass lines prints can't be taken together")
    elif options.skip or options.exact or options.plot:
        raise Refusal("--skip, --exact and --plot are for reports")
    else:
        from lines_report import print_estimates
        study = study_by_header([report.name for report in reports], options.run, size=header.size, samples=header.samples)
        slots = slots_of(options, typed, header.slots, study)
        print_estimates(reports, slots.names, slots.head)


def analyse_reports(options, reports, study, slots):
    count = reports[0].header.slots
    exact = decimals(options.exact, count) if options.exact else None
    if not reports[0].counted:
        raise Refusal(f"{reports[0].name} has no row" + (f" from epoch {options.skip} on" if options.skip else ""))
    print_means(reports, slots.names, slots.head)
    if exact or len(reports) > 1:
        print_comparison(reports, slots.names, slots.head, exact, study.blocks)
    if len(reports) == 1:
        print(NOTE)
    if options.plot:
        temperatures = [1 / beta for beta in slots.betas] if slots.betas and all(slots.betas) else None
        text = plot_text(reports[0], [slot_means(reports, slot) for slot in range(count)], temperatures, exact)
        try:
            with open(options.plot, "w", encoding="ascii", newline="\n") as out:
                out.write(text)
        except OSError as fault:
            raise Refusal(f"{options.plot} can't be written: {fault.strerror}") from None
        print(f"wrote {options.plot}")


def main(words=None):
    parser = OneLineParser(prog="analyse", description=__doc__, allow_abbrev=False,
                           formatter_class=argparse.RawDescriptionHelpFormatter)
    parser.add_argument("reports", nargs="*", metavar="REPORT", help="reports, or files of glass lines, or - for standard input (the default)")
    add_run(add_temperatures(parser))
    parser.add_argument("--skip", type=int, default=0, metavar="EPOCH",
                        help="leave the epochs before this one out of all means")
    parser.add_argument("--exact", nargs="+", metavar="E",
                        help="exact energies per site, one for each slot, to compare with")
    parser.add_argument("--plot", metavar="FILE",
                        help="write a picture (SVG): energy against temperature, and the walks of sample 0")
    parser.add_argument("--self-test", action="store_true",
                        help="analyse reports of an independent program, whole and damaged")
    try:
        options = parser.parse_args(words)
        if options.self_test:
            from analyse_test import self_test
            return self_test(main)
        analyse(options)
    except Refusal as refusal:
        print(f"analyse: {refusal}", file=sys.stderr)
        return 2
    return 0


if __name__ == "__main__":
    sys.exit(status_of("analyse", main))
