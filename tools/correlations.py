#!/usr/bin/env python3
"""Prints two-time correlations from what `glass age` printed, a line a time.

    glass age run.toml 100 3 1 10 100 | python3 tools/correlations.py
    python3 tools/correlations.py tw_10.txt tw_100.txt tw_1000.txt --plot aging.png
    python3 tools/correlations.py tw_10_seed_*.txt tw_100_seed_*.txt

C is the mean over samples and both replicas of A / V, A the sum over the V sites of the spin after the
waiting time times the spin t sweeps later. Several texts must be of one size, rule, and number of slots and
samples. Those of one waiting time are runs that differ in their seeds: C is their mean, and the error is the
standard deviation of their means over the root of their number.
A text that `glass age` does not print is refused with the number of its first such line. The plot needs
matplotlib, and is left out with a line where it is missing.
"""
import argparse
import math
import re
import statistics
import sys
import tempfile
from collections import Counter
from itertools import product
from pathlib import Path

sys.dont_write_bytecode = True
from analyse import deviation, read_each, spelled  # noqa: E402
from exit_status import status_of  # noqa: E402
from make_tables import Checks, OneLineParser, Refusal, outcome  # noqa: E402
from report_errors import few_blocks  # noqa: E402

MOST_SLOTS, MOST_SAMPLES, MOST_TIMES, MOST_SWEEPS = 32, 64, 32, 1000000
LONGEST_LINE = 80
COUNT = rb"(0|[1-9][0-9]{0,6})"
FIRST = re.compile(rb"age 1 size=%b slots=%b samples=%b rule=(heat|metropolis) tw=%b\n" % ((COUNT,) * 4))
LINE = re.compile(rb"age," + b",".join([COUNT] * 4) + rb",(0|-?[1-9][0-9]{0,5})\n")
NOTE = """note: the samples of one run share each random number, so their standard deviation gives no error of a mean.
      Several texts of one waiting time, of other seeds, have one."""


class AgedText:
    """One text. It is read once, line by line, and each line is tested."""

    def __init__(self, name, stream):
        self.name, self.stream, self.number = name, stream, 0
        self.read_first()
        self.next_line()
        # by slot and time, the sum of A over replicas and samples
        self.sums = Counter()
        times = self.read_times()
        for slot, copy in list(product(range(self.slots), range(2)))[1:]:
            for t in times:
                self.take_samples(slot, copy, t)
        if not times or self.line != b"end\n":
            raise self.wrong()
        self.next_line()
        if self.line:
            raise self.wrong()
        terms = 2 * self.samples * self.volume
        self.correlations = [[(t, self.sums[slot, t] / terms) for t in times] for slot in range(self.slots)]

    def wrong(self):
        return Refusal(f"{self.name} is wrong at line {self.number}")

    def next_line(self):
        self.line = self.stream.readline(LONGEST_LINE)
        self.number += 1

    def read_first(self):
        self.next_line()
        found = FIRST.fullmatch(self.line)
        if not found:
            raise self.wrong()
        self.size, self.slots, self.samples, self.wait = (int(found[k]) for k in (1, 2, 3, 5))
        self.rule, self.volume = found[4].decode(), self.size ** 3
        self.kind = self.size, self.slots, self.samples, self.rule
        if not (4 <= self.size <= 64 and self.size % 2 == 0 and 1 <= self.slots <= MOST_SLOTS
                and 1 <= self.samples <= MOST_SAMPLES and self.wait <= MOST_SWEEPS):
            raise self.wrong()

    def read_times(self):
        """The times, which the lines of the first replica of slot 0 tell: they rise."""
        times = []
        while found := re.match(b"age,0,0,%b," % COUNT, self.line):
            t = int(found[1])
            if t > MOST_SWEEPS or times and t <= times[-1] or len(times) == MOST_TIMES:
                raise self.wrong()
            times.append(t)
            self.take_samples(0, 0, t)
        return times

    def take_samples(self, slot, copy, t):
        """The lines of all samples at a time. A has the parity of V, which is even; at time 0 it is V."""
        for sample in range(self.samples):
            found = LINE.fullmatch(self.line)
            if not found or [int(found[k]) for k in range(1, 5)] != [slot, copy, t, sample]:
                raise self.wrong()
            a = int(found[5])
            if abs(a) > self.volume or a % 2 == 1 or t == 0 and a != self.volume:
                raise self.wrong()
            self.sums[slot, t] += a
            self.next_line()


def by_wait(texts):
    """The texts of each waiting time, in the order in which it comes first."""
    groups = {}
    for text in texts:
        group = groups.setdefault(text.wait, [])
        for other in group:
            if [t for t, _ in text.correlations[0]] != [t for t, _ in other.correlations[0]]:
                raise Refusal(f"{text.name} has other times than {other.name}, and the same waiting time")
            # At time 0 alone all are alike.
            if text.sums == other.sums and text.correlations[0][-1][0] > 0:
                raise Refusal(f"{text.name} has the same sums as {other.name}: texts must differ in their seeds")
        group.append(text)
    return list(groups.values())


def averaged(group, slot):
    """Of the texts of one waiting time: each time, the mean of C, and its error or None."""
    for n, (t, _) in enumerate(group[0].correlations[slot]):
        values = [text.correlations[slot][n][1] for text in group]
        error = deviation(values)
        yield t, math.fsum(values) / len(values), None if error is None else error / math.sqrt(len(values))


def table(groups):
    """The lines that are printed."""
    one = groups[0][0]
    yield f"size {one.size}, slots {one.slots}, samples {one.samples}, rule {one.rule}"
    yield f"{'slot':>4} {'tw':>8} {'t':>8} {'C':>10} {'error':>9} {'seeds':>5}"
    for slot in range(one.slots):
        for group in groups:
            for t, c, error in averaged(group, slot):
                yield f"{slot:4d} {group[0].wait:8d} {t:8d} {c:10.6f} {spelled(error, 6, 9)} {len(group):5d}"
    fewest = few_blocks(min(len(group) for group in groups if len(group) > 1) if any(group[1:] for group in groups) else 0)
    if fewest:
        yield fewest


def draw(groups, path):
    """Draws C against t, a curve for each slot and waiting time; answers the line that is told."""
    try:
        import matplotlib
    except ImportError:
        return "no plot: matplotlib is missing"
    matplotlib.use("Agg")
    from matplotlib import pyplot
    figure, axes = pyplot.subplots(figsize=(6, 4.2))
    for group in groups:
        for slot in range(group[0].slots):
            label = f"tw = {group[0].wait}" + (f", slot {slot}" if group[0].slots > 1 else "")
            later = [(t, c, error or 0) for t, c, error in averaged(group, slot) if t > 0]
            axes.errorbar([t for t, _, _ in later], [c for _, c, _ in later], [error for _, _, error in later],
                          marker="o", markersize=3, label=label)
    axes.set_xscale("log")
    axes.set_xlabel("t (sweeps)")
    axes.set_ylabel("C(tw, tw + t)")
    axes.legend(frameon=False)
    figure.tight_layout()
    try:
        # With a format the name is taken as it stands, also one without an ending.
        figure.savefig(path, dpi=150, format=Path(path).suffix[1:] or "png")
    except (OSError, ValueError) as fault:
        raise Refusal(f"{path} can't be written: {fault}") from None
    return f"wrote {path}"


def run(options):
    texts = list(read_each(options.files, AgedText))
    for text in texts:
        if text.kind != texts[0].kind:
            raise Refusal(f"{text.name} is of another size, rule, or number of slots or samples")
    groups = by_wait(texts)
    print("\n".join(table(groups)))
    if any(len(group) == 1 for group in groups):
        print(NOTE)
    if options.plot:
        print(draw(groups, options.plot))


def parser():
    made = OneLineParser(prog="correlations", description=__doc__, allow_abbrev=False,
                         formatter_class=argparse.RawDescriptionHelpFormatter)
    made.add_argument("files", nargs="*", metavar="TEXT", help="what glass age printed; - for standard input (the default)")
    made.add_argument("--plot", metavar="FILE", help="also draw C against t")
    made.add_argument("--self-test", action="store_true", help="test this tool and exit")
    return made


def main(words=None):
    try:
        options = parser().parse_args(words)
        if options.self_test:
            return self_test()
        run(options)
    except Refusal as refusal:
        print(f"correlations: {refusal}", file=sys.stderr)
        return 2
    return 0


# ---------------------------------------------------------------- tests

# Worked out by hand: a sweep against the fields turns one colour of the ferromagnet of 64 sites.
BY_HAND = """age 1 size=4 slots=1 samples=1 rule=heat tw=0
age,0,0,0,0,64
age,0,0,1,0,0
age,0,1,0,0,64
age,0,1,1,0,0
end
"""


def check_refusals(checks, path):
    """Each damage is told with the first line that `glass age` does not print."""
    first, *rest = BY_HAND.splitlines(keepends=True)
    heads = [first.replace(old, new) for old, new in
             (("size=4", "size=0"), ("size=4", "size=5"), ("size=4", "size=66"), ("slots=1", "slots=0"),
              ("slots=1", "slots=33"), ("slots=1", "slots=99999"), ("samples=1", "samples=0"), ("samples=1", "samples=65"),
              ("samples=1", "samples=9999"), ("heat", "glauber"), ("tw=0", "tw=x"), ("tw=0", "tw=1000001"), ("\n", ""),
              ("\n", " " * 99 + "\n"))]
    cases = [("".join([head, *rest]), 1) for head in heads]
    cases += [(BY_HAND.replace(old, new, 1), line) for line, old, new in
              ((2, ",64", ",65"), (2, ",64", ",66"), (2, ",64", ",62"), (3, "age,0,0,1,0,0", "age,0,0,1,1,0"),
               (3, "age,0,0,1,0,0", "age,0,0,0,0,64"), (3, "age,0,0,1,", "age,0,0,1000001,"), (3, ",1,0,0", ",1,0,1"),
               (3, ",1,0,0", ",1,0,-3"), (5, "age,0,1,1,", "age,0,1,2,"), (6, "end", "age,0,1,2,0,0"), (6, "end\n", ""),
               (6, "end\n", "end"), (7, "end\n", "end\n\n"))]
    cases += [(first + "end\n", 2), ("", 1), (first.replace("slots=1", "slots=2") + "".join(rest), 6)]
    many = "".join(f"age,0,0,{t},0,{64 if t == 0 else 0}\n" for t in range(33))
    cases += [(first + many, 34)]
    for text, line in cases:
        path.write_text(text)
        wanted = f"correlations: {path} is wrong at line {line}\n"
        checks.same(f"damage at line {line}", outcome([str(path)], main), (2, "", wanted))


def check_seeds(checks, folder):
    """Of runs that differ in their seeds the error is the standard error of their means."""
    values = {1: (40, 8), 2: (52, 6), 3: (46, -4)}
    names = []
    for seed, (one, other) in values.items():
        names.append(str(folder / f"seed_{seed}.txt"))
        Path(names[-1]).write_text(BY_HAND.replace("1,0,0", f"1,0,{one}", 1).replace("age,0,1,1,0,0", f"age,0,1,1,0,{other}"))
    status, out, err = outcome(names, main)
    means = [(one + other) / 128 for one, other in values.values()]
    wanted = ["0", "0", "1", f"{statistics.mean(means):.6f}", f"{statistics.stdev(means) / math.sqrt(3):.6f}", "3"]
    checks.same("three seeds", (status, err, out.splitlines()[3].split(), "note:" in out), (0, "", wanted, False))
    checks.same("how many seeds", "errors are over 3 blocks, and are themselves uncertain by 50%" in out.splitlines()[-1], True)
    Path(names[0]).write_text(BY_HAND.replace("tw=0", "tw=1"))
    out = outcome(names, main)[1]
    checks.same("two waiting times", [line.split()[-1] for line in out.splitlines()[2:6]], ["1", "1", "2", "2"])
    checks.same("one of them has no error", ("note:" in out, out.splitlines()[3].split()[4]), (True, "-"))
    other_times = folder / "times.txt"
    other_times.write_text(BY_HAND.replace("0,0,1,0,0", "0,0,2,0,0").replace("0,1,1,0,0", "0,1,2,0,0"))
    for given, what in (([names[1], names[1]], "the same sums"), ([names[1], str(other_times)], "other times")):
        status, out, err = outcome(given, main)
        checks.same(what, (status, out, what in err, err.count("\n")), (2, "", True, 1))


def check_words(checks, path):
    path.write_text(BY_HAND)
    other = path.with_name("other.txt")
    other.write_text(BY_HAND.replace("heat", "metropolis"))
    for words in ([str(path) + "x"], [str(path), str(other)], ["--what"]):
        status, out, err = outcome(words, main)
        checks.same(f"{words} is refused in a line", (status, out, err.count("\n")), (2, "", 1))
    for picture in ("x.what", "none/x.png", "."):
        status, out, err = outcome([str(path), "--plot", str(path.parent / picture)], main)
        drawn = "matplotlib is missing" not in out
        checks.same(f"a plot {picture}", (status, err.count("\n")), (2, 1) if drawn else (0, 0))


def self_test():
    checks = Checks("correlations")
    with tempfile.TemporaryDirectory() as folder:
        path = Path(folder) / "aged.txt"
        path.write_text(BY_HAND)
        status, out, _ = outcome([str(path)], main)
        checks.same("status", status, 0)
        means = ["   0        0        0   1.000000         -     1", "   0        0        1   0.000000         -     1"]
        checks.same("means", out.splitlines()[2:4], means)
        # Two slots, two samples and two times, of which A is 2, 4, .. by its place.
        rows = [f"age,{slot},{copy},{t},{b},{16 * slot + 8 * copy + 4 * (t == 9) + 2 * b + 2}\n"
                for slot in range(2) for copy in range(2) for t in (5, 9) for b in range(2)]
        path.write_text("age 1 size=4 slots=2 samples=2 rule=heat tw=3\n" + "".join(rows) + "end\n")
        found = [line.split()[1:4] for line in outcome([str(path)], main)[1].splitlines()[2:6]]
        checks.same("two slots", found, [["3", "5", f"{7 / 64:.6f}"], ["3", "9", f"{11 / 64:.6f}"],
                                         ["3", "5", f"{23 / 64:.6f}"], ["3", "9", f"{27 / 64:.6f}"]])
        check_seeds(checks, Path(folder))
        check_refusals(checks, path)
        check_words(checks, path)
    return checks.end()


if __name__ == "__main__":
    sys.exit(status_of("correlations", main))
