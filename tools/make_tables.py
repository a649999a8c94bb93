#!/usr/bin/env python3
"""Writes the rule table and the swap table of a run for a list of temperatures.

    python3 tools/make_tables.py heat --betas 0.3 0.22165463 0.2 0.1
    python3 tools/make_tables.py metropolis --temperatures 0.8 1.0 1.2 1.4
    python3 tools/make_tables.py metropolis --range 1.1 3 --slots 12 --size 8 --acceptance
    python3 tools/make_tables.py --check run.toml
    python3 tools/make_tables.py metropolis --temperatures 1.1 1.3 1.6 2 --exact

Slot 0 is the coldest: temperatures rise strictly from slot to slot, inverse temperatures fall.
They are in units of the coupling, plain decimals such as 0.2217 or 2.5e-1, and are taken exactly.
--range takes --slots temperatures in geometric steps, with --acceptance such that exchanges of neighbours on
a lattice of --size are about equally probable, and prints them.

--check tells how near the tables of a run are to temperatures, these or those that fit best, and how far from
equilibrium their rounding can lead the run; and it warns where swap records are too short for the lattice.

An entry is 2^32 times a probability, to the nearest whole number:
  heat bath    2^32 / (1 + exp(-2 beta h)),  h = 2a - 6, for a = 0 to 6 aligned neighbours
  Metropolis   2^32 exp(-beta dE),  dE = 4k - 12, for k = 4 to 6 satisfied bonds
  swap         2^32 exp(-(beta of the colder - beta of the hotter) dE),  dE = 2 gap,
               entry j for the gap 2(j + 1): so many more unsatisfied bonds has the hotter slot
A swap record ends before its first entry that is 0, and after 4096 entries. Where rounding puts a threshold off by
more than 0.1 % of itself a warning tells it. --exact takes the nearest Metropolis temperatures at which no threshold
is rounded, those with exp(-4 beta) = j / 1024.

Products and differences of the temperatures are exact fractions. Exponentials are computed with 50
decimal digits, and with more where that leaves the nearest whole number open. So every machine
writes the same bytes.
"""
import argparse
import contextlib
import io
import os
import re
import sys
from decimal import ROUND_HALF_EVEN, ROUND_HALF_UP, Context, Decimal, localcontext
from fractions import Fraction
from pathlib import Path

# An installed tool leaves no bytecode of the modules that it imports.
sys.dont_write_bytecode = True
import exact_tables  # noqa: E402
from exact_tables import rounding_warning  # noqa: E402

SCALE = 2 ** 32
DIGITS = 50
GREATEST_SLOTS = 32
GREATEST_ENTRIES = 4096
# exp(-23) 2^32 is 0.44, so from here on an entry is 0.
LEAST_EXPONENT_OF_ZERO = 23
NUMBER = re.compile(r"([0-9]{1,40}(\.[0-9]{0,40})?|\.[0-9]{1,40})([eE][-+]?[0-9]{1,2})?", re.ASCII)


class Refusal(Exception):
    """Input that isn't lawful; the text is the one line that is told."""


class OneLineParser(argparse.ArgumentParser):
    """Tells a faulty command line in one line, without the usage."""

    def error(self, message):
        raise Refusal(message)


# ---------------------------------------------------------------- temperatures


def add_temperatures(parser):
    group = parser.add_mutually_exclusive_group()
    group.add_argument("--betas", nargs="+", metavar="B", help="inverse temperatures, strictly falling")
    group.add_argument("--temperatures", nargs="+", metavar="T", help="temperatures, strictly rising")
    return group


def positive(text, slot, what):
    if not NUMBER.fullmatch(text) or Fraction(text) == 0:
        raise Refusal(f"the {what} of slot {slot} is no positive decimal number: {text!r}")
    return Fraction(text)


def inverse_temperatures(options):
    """The inverse temperatures of the slots as fractions, or None where the words have none."""
    texts, what = (options.betas, "inverse temperature") if options.betas else (options.temperatures, "temperature")
    if not texts:
        return None
    if len(texts) > GREATEST_SLOTS:
        raise Refusal(f"{len(texts)} {what}s, and a run has at most {GREATEST_SLOTS} slots")
    values = [positive(text, slot, what) for slot, text in enumerate(texts)]
    betas = values if options.betas else [1 / value for value in values]
    for slot in range(len(betas) - 1):
        if betas[slot] <= betas[slot + 1]:
            raise Refusal(f"{what}s must strictly {'fall' if options.betas else 'rise'}, the coldest first: "
                          f"{texts[slot]} is followed by {texts[slot + 1]}")
    return betas


# ---------------------------------------------------------------- thresholds


def nearest(scaled):
    """The whole number nearest to scaled(), a positive number computed in the current context.

    A result below 2^32 with p digits is wrong by less than 10^(13 - p). None lies halfway between
    whole numbers, since exp of a fraction other than 0 is no fraction; so more digits decide.
    """
    digits = DIGITS
    while True:
        with localcontext(Context(prec=digits, rounding=ROUND_HALF_EVEN)):
            value = scaled()
            whole = value.to_integral_value(rounding=ROUND_HALF_UP)
            if abs(abs(value - whole) - Decimal("0.5")) > Decimal(10) ** (20 - digits):
                return int(whole)
        digits *= 2


def exponential(exponent):
    """exp(-exponent) in the current context."""
    return (-(Decimal(exponent.numerator) / Decimal(exponent.denominator))).exp()


def boltzmann_threshold(exponent):
    """2^32 exp(-exponent), to the nearest whole number."""
    if exponent <= 0:
        return SCALE
    if exponent > LEAST_EXPONENT_OF_ZERO:
        return 0
    return nearest(lambda: SCALE * exponential(exponent))


def heat_bath_threshold(beta, field):
    """2^32 / (1 + exp(-2 beta field)), to the nearest whole number."""
    exponent = 2 * beta * abs(field)
    if field == 0:
        return SCALE // 2
    if exponent > LEAST_EXPONENT_OF_ZERO:
        return SCALE if field > 0 else 0
    down = nearest(lambda: SCALE * exponential(exponent) / (1 + exponential(exponent)))
    return SCALE - down if field > 0 else down


def rule_record(rule, beta):
    if rule == "heat":
        return [heat_bath_threshold(beta, 2 * aligned - 6) for aligned in range(7)]
    return [boltzmann_threshold(beta * (4 * satisfied - 12)) for satisfied in (4, 5, 6)]


def swap_entry(difference, j):
    """Entry j at a difference of inverse temperatures: the gap is 2(j + 1), the energies differ by twice that."""
    return boltzmann_threshold(difference * 4 * (j + 1))


def useful_entries(size):
    """Past the greatest gap of a lattice, all 3 size^3 bonds, none is asked for."""
    return 3 * size ** 3 // 2 if size else GREATEST_ENTRIES + 1


def swap_record(difference, size):
    """The record of a pair, and whether it was cut though the next entry would still count.

    With a size, entries past the greatest gap of that lattice are left out: all 3 size^3 bonds.
    """
    entries = [swap_entry(difference, 0)]
    while entries[-1] > 0 and len(entries) < min(useful_entries(size), GREATEST_ENTRIES + 1):
        entries.append(swap_entry(difference, len(entries)))
    if entries[-1] == 0 and len(entries) > 1:
        entries.pop()
    return entries[:GREATEST_ENTRIES], len(entries) > GREATEST_ENTRIES


def text_of(records):
    return "".join(", ".join(map(str, record)) + "\n" for record in records)


def write_text(name, text):
    try:
        Path(name).write_bytes(text.encode("ascii"))
    except OSError as fault:
        raise Refusal(f"{name} can't be written: {fault.strerror}") from None


# ---------------------------------------------------------------- the program


def parser_of_words():
    parser = OneLineParser(prog="make_tables", description=__doc__, allow_abbrev=False,
                           formatter_class=argparse.RawDescriptionHelpFormatter)
    parser.add_argument("rule", nargs="?", choices=("heat", "metropolis"), help="the update of a spin")
    add_temperatures(parser)
    parser.add_argument("--range", nargs=2, metavar=("T0", "T1"), help="the lowest and the highest temperature")
    parser.add_argument("--slots", type=int, metavar="N", help="of a range: the number of temperatures")
    parser.add_argument("--acceptance", nargs="?", const="", metavar="FILE",
                        help="of a range: even acceptance, from lines temperature,energy per site; without FILE those of "
                             "the glass with random couplings")
    parser.add_argument("--exact", action="store_true",
                        help="of metropolis: take the nearest of the 1,025 temperatures whose three thresholds are whole")
    parser.add_argument("--size", type=int, metavar="L",
                        help="leave out swap entries for gaps that a lattice of this size can't have")
    parser.add_argument("--rules", default="rules.csv", metavar="FILE", help="the rule table (rules.csv)")
    parser.add_argument("--swaps", default="swaps.csv", metavar="FILE", help="the swap table (swaps.csv)")
    parser.add_argument("--check", metavar="RUN", help="look at the tables of this run file, and write none")
    parser.add_argument("--self-test", action="store_true", help="compare with values computed another way")
    return parser


def check_size(options):
    if options.size is not None and (options.size % 2 == 1 or not 4 <= options.size <= 64):
        raise Refusal(f"the size is no even number from 4 to 64: {options.size}")


def place(options):
    """Takes the temperatures of a range as those that were given. Returns the lines that tell them."""
    if options.range is None:
        if options.slots is not None or options.acceptance is not None:
            raise Refusal("--slots and --acceptance are of a --range")
        return []
    from place_temperatures import Unlawful, placed
    if options.betas or options.temperatures:
        raise Refusal("temperatures are given, or a range of them")
    try:
        options.temperatures, told = placed(options)
    except Unlawful as fault:
        raise Refusal(str(fault)) from None
    return told


def check(options):
    import table_rounding
    try:
        table_rounding.tell("make_tables", options.check, inverse_temperatures(options))
    except table_rounding.Refusal as fault:
        raise Refusal(str(fault)) from None


def records_of(options, betas):
    """The rule records, the swap records with whether each was cut, and the probability behind the end of each."""
    differences = [colder - hotter for colder, hotter in zip(betas, betas[1:])]
    swaps = [swap_record(difference, options.size) for difference in differences]
    return ([rule_record(options.rule, beta) for beta in betas], swaps,
            [swap_entry(difference, GREATEST_ENTRIES) / SCALE if cut else 0 for difference, (_, cut) in zip(differences, swaps)])


def exact_records(options, betas, placing):
    """The same at the nearest temperatures whose thresholds are whole, which `placing` then tells."""
    if options.rule != "metropolis":
        raise Refusal("--exact is for metropolis: no other temperatures of the heat bath have whole thresholds")
    try:
        ratios = exact_tables.nearest_ratios(betas)
    except exact_tables.Unlawful as fault:
        raise Refusal(str(fault)) from None
    placing += exact_tables.told(ratios)
    useful = useful_entries(options.size)
    pairs = list(zip(ratios, ratios[1:]))
    return ([exact_tables.rule_record(ratio) for ratio in ratios],
            [exact_tables.swap_record(colder, hotter, useful) for colder, hotter in pairs],
            [(colder / hotter) ** (GREATEST_ENTRIES + 1) for colder, hotter in pairs])


def make(options):
    check_size(options)
    placing = place(options)
    betas = inverse_temperatures(options)
    if options.rule is None or betas is None:
        raise Refusal("a rule and --betas, --temperatures or --range are needed; --help says more")
    if os.path.realpath(options.rules) == os.path.realpath(options.swaps):
        raise Refusal(f"both tables would go to one file: {options.rules}")
    rules, swaps, chances = exact_records(options, betas, placing) if options.exact else records_of(options, betas)
    write_text(options.rules, text_of(rules))
    write_text(options.swaps, text_of(entries for entries, _ in swaps))
    for pair, (_, cut) in enumerate(swaps):
        if cut:
            print(f"make_tables: warning: the record of pair {pair} is cut at {GREATEST_ENTRIES} entries: a swap at the "
                  f"gap {2 * GREATEST_ENTRIES + 2} would have the probability {chances[pair]:.2g} and will never be made",
                  file=sys.stderr)
    rounded = None if options.exact else rounding_warning(options.rule, betas, rules)
    if rounded:
        print(f"make_tables: warning: {rounded}", file=sys.stderr)
    for line in placing:
        print(line)
    name = "heat bath" if options.rule == "heat" else "Metropolis"
    print(f"wrote {options.rules}: {name}, {len(rules)} {'slots' if len(rules) > 1 else 'slot'}")
    counts = ", ".join(str(len(entries)) for entries, _ in swaps)
    print(f"wrote {options.swaps}: " + (f"entries of the pairs: {counts}" if swaps else "empty, since there is one slot"))


def main(words=None):
    try:
        options = parser_of_words().parse_args(words)
        if options.self_test:
            from make_tables_test import self_test
            return self_test()
        (check if options.check else make)(options)
    except Refusal as refusal:
        print(f"make_tables: {refusal}", file=sys.stderr)
        return 2
    return 0


# ---------------------------------------------------------------- what self-tests of tools share


def outcome(words, program=main):
    """Status, output and error output of a call."""
    out, err = io.StringIO(), io.StringIO()
    with contextlib.redirect_stdout(out), contextlib.redirect_stderr(err):
        status = program(words)
    return status, out.getvalue(), err.getvalue()


class Checks:
    """Counts comparisons, and tells those that fail."""

    def __init__(self, name):
        self.name, self.done, self.failed = name, 0, 0

    def same(self, what, got, wanted):
        self.done += 1
        if got != wanted:
            self.failed += 1
            print(f"{self.name}: {what}: got {got!r}, wanted {wanted!r}")

    def end(self):
        print(f"{self.name}: {self.done} checks, {self.failed} failed")
        return 1 if self.failed else 0


if __name__ == "__main__":
    from exit_status import status_of
    sys.exit(status_of("make_tables", main))
