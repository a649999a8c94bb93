#!/usr/bin/env python3
"""How near the tables of a run are to temperatures, and how far from equilibrium that can lead the run.

    python3 tools/table_rounding.py run.toml
    python3 tools/table_rounding.py run.toml --betas 0.3 0.22165463 0.2 0.1

r is the greatest distance of a threshold, or of an entry for a gap that the lattice can have, from 2^32 times the exact
probability at the slots' inverse temperatures; it is in draws of 2^32. Without --betas these are the ones that make r least.
Past its last entry a swap record has the entry 0. A run of k decisions by ideal draws that begins in equilibrium leaves the
probability of every event within k r / 2^32 of what it is there (docs/proofs/chain.md). make_tables.py --check prints the same.

The tables are looked for beside the run file. A warning goes to the error output where k r / 2^32 is above 0.05, and
where records are too short. Status 0, or 2 for wrong words or what can't be read."""
import argparse
import math
import sys
from decimal import Context, Decimal, localcontext
from fractions import Fraction
from pathlib import Path
from typing import Callable, Iterator, List, NamedTuple, Optional, Sequence, Tuple

sys.dont_write_bytecode = True
from exit_status import status_of  # noqa: E402
from long_run_folder import Fault, read_keys  # noqa: E402
from make_tables import SCALE, Checks, OneLineParser, Refusal, add_temperatures, inverse_temperatures, outcome, rule_record, \
    swap_record  # noqa: E402

# Enough for 2^32 exp(-x) to twenty places behind the point.
DIGITS = 30
# Above this part of 1 the bound is told as a warning.
GREATEST_BOUND = 0.05
HALVINGS = 48


class Tables(NamedTuple):
    """A run's tables: its size and rule, a record of thresholds for each slot and one of entries for each pair, slot 0 the
    coldest; and the number of decisions that the run makes of one sample."""
    size: int
    rule: str
    rows: List[List[int]]
    swaps: List[List[int]]
    decisions: int

    def half_gaps(self) -> int:
        """Half of the greatest difference of unsatisfied bonds that two configurations of the lattice can have."""
        return 3 * self.size ** 3 // 2

    def entries(self, pair: int) -> Iterator[Tuple[int, int]]:
        """Half gaps and entries of a pair; of those past its record only the first, whose probability is the greatest."""
        yield from enumerate(self.swaps[pair][:self.half_gaps()], 1)
        if self.is_short(pair):
            yield len(self.swaps[pair]) + 1, 0

    def is_short(self, pair: int) -> bool:
        return len(self.swaps[pair]) < self.half_gaps()


class Rounding(NamedTuple):
    """A distance in draws of 2^32, and what it is the distance of."""
    draws: Decimal
    where: str


# ---------------------------------------------------------------- files


def records_in(path: Path) -> List[List[int]]:
    """The records of a table. `glass check` tells what is wrong with one."""
    try:
        lines = path.read_text(encoding="ascii").replace("\r", "\n").split("\n")
        return [[int(field) for field in line.split(",")] for line in lines if line]
    except OSError as fault:
        raise Refusal(f"{path} can't be read: {fault.strerror}") from None
    except ValueError:
        raise Refusal(f"{path} is no table; glass check tells where") from None


def decisions_of(size: int, slots: int, sweeps: int, epochs: int) -> int:
    """How many decisions a run makes of one sample, both replicas together: updates of sites and exchanges."""
    turns = sum((epochs + 1 - pair % 2) // 2 for pair in range(slots - 1))
    return 2 * (epochs * slots * sweeps * size ** 3 + turns)


def tables_of(run_file: Path) -> Tables:
    try:
        keys = read_keys(run_file)
    except Fault as fault:
        raise Refusal(str(fault)) from None
    rows, swaps = (records_in(run_file.parent / str(keys[name])) for name in ("rules", "swaps"))
    width = 7 if keys["rule"] == "heat" else 3
    numbers = [keys[name] for name in ("size", "sweeps", "epochs")]
    if not rows or {len(row) for row in rows} != {width} or len(swaps) != len(rows) - 1 \
            or not all(isinstance(it, int) and it >= 0 for it in numbers):
        raise Refusal(f"{run_file} and its tables make no run; glass check tells why")
    size, sweeps, epochs = map(int, numbers)
    return Tables(size, str(keys["rule"]), rows, swaps, decisions_of(size, len(rows), sweeps, epochs))


# ---------------------------------------------------------------- distances


def probability(exponent: Fraction) -> Decimal:
    """2^32 exp(-exponent)."""
    return SCALE * (-(Decimal(exponent.numerator) / Decimal(exponent.denominator))).exp()


def exact_thresholds(rule: str, beta: Fraction) -> List[Decimal]:
    if rule == "heat":
        ratios = [probability(4 * beta * (aligned - 3)) / SCALE for aligned in range(7)]
        return [SCALE / (1 + ratio) for ratio in ratios]
    return [probability(4 * beta * (satisfied - 3)) for satisfied in (4, 5, 6)]


def pair_roundings(tables: Tables, pair: int, betas: Sequence[Fraction], whole: bool = True) -> Iterator[Rounding]:
    """Those of a pair's record, with the first entry past its end where the whole range of gaps is asked for."""
    step = 4 * (betas[pair] - betas[pair + 1])
    for half_gap, entry in tables.entries(pair):
        if whole or half_gap <= len(tables.swaps[pair]):
            yield Rounding(abs(entry - probability(half_gap * step)), f"the entry of pair {pair} for the gap {2 * half_gap}")


def roundings(tables: Tables, betas: Sequence[Fraction]) -> Iterator[Rounding]:
    for slot, row in enumerate(tables.rows):
        for place, exact in enumerate(exact_thresholds(tables.rule, betas[slot])):
            yield Rounding(abs(row[place] - exact), f"threshold {place} of slot {slot}")
    for pair in range(len(tables.swaps)):
        yield from pair_roundings(tables, pair, betas)


def greatest_rounding(tables: Tables, betas: Sequence[Fraction]) -> Rounding:
    with localcontext(Context(prec=DIGITS)):
        return max(roundings(tables, betas))


# ---------------------------------------------------------------- temperatures of tables

Interval = Tuple[float, float]


def exponents(low: float, high: float, factor: float) -> Interval:
    """Where exp(-factor beta) is from low to high."""
    least = -math.log(high) / factor if high > 0 else math.inf
    return least, -math.log(low) / factor if low > 0 else math.inf


def odds(threshold: float) -> float:
    """The part of the draws above a threshold by the part below it."""
    return (SCALE - threshold) / threshold if threshold > 0 else math.inf


def of_row(rule: str, row: Sequence[int], draws: float) -> Interval:
    """The inverse temperatures whose exact thresholds are within so many draws of a slot's."""
    low, high = -math.inf, math.inf
    for place, threshold in enumerate(row):
        below, above = threshold - draws, threshold + draws
        if rule == "metropolis":
            ends = exponents(below / SCALE, above / SCALE, 4 * (place + 1))
        elif place == 3:
            ends = (-math.inf, math.inf) if below <= SCALE / 2 <= above else (math.inf, -math.inf)
        elif place > 3:
            ends = exponents(odds(above), odds(below), 4 * (place - 3))
        else:
            ends = exponents(1 / odds(below) if below > 0 else 0, 1 / odds(above) if above < SCALE else math.inf, 4 * (3 - place))
        low, high = max(low, ends[0]), min(high, ends[1])
    return low, high


def of_pair(tables: Tables, pair: int, draws: float) -> Interval:
    """The differences of inverse temperatures whose exact entries are within so many draws of a pair's record. What the
    record leaves out is no part of it."""
    ends = [exponents((entry - draws) / SCALE, (entry + draws) / SCALE, 4 * half_gap)
            for half_gap, entry in enumerate(tables.swaps[pair][:tables.half_gaps()], 1)]
    return max(low for low, _ in ends), min(high for _, high in ends)


def chain(tables: Tables, draws: float) -> Optional[List[Interval]]:
    """For each slot its inverse temperatures that go with those of the colder slots, or None where there are none."""
    found: List[Interval] = []
    for slot, row in enumerate(tables.rows):
        low, high = of_row(tables.rule, row, draws)
        if slot > 0:
            least, most = of_pair(tables, slot - 1, draws)
            if least > most:
                return None
            low, high = max(low, found[-1][0] - most), min(high, found[-1][1] - least)
        if low > high:
            return None
        found.append((low, high))
    return found


def middle(ends: Interval) -> float:
    """A finite number of an interval."""
    low, high = (max(-1e6, min(1e6, end)) for end in ends)
    return (low + high) / 2


def fitted(tables: Tables) -> List[Fraction]:
    """Inverse temperatures at which the greatest distance of what the tables have is about the least."""
    least, most = 0.0, float(SCALE)
    for _ in range(HALVINGS):
        draws = (least + most) / 2
        least, most = (least, draws) if chain(tables, draws) else (draws, most)
    found = chain(tables, most)
    assert found is not None, "2^32 draws are met by every temperature"
    betas = [middle(found[-1])]
    for slot in range(len(found) - 2, -1, -1):
        nearest, furthest = of_pair(tables, slot, most)
        low, high = found[slot]
        betas.insert(0, middle((max(low, betas[0] + nearest), min(high, betas[0] + furthest))))
    return [Fraction(beta) for beta in betas]


# ---------------------------------------------------------------- what is told


def told(tables: Tables, betas: Optional[Sequence[Fraction]] = None) -> Tuple[List[str], List[str]]:
    """What is printed of a run's tables, and the warnings."""
    at = list(betas) if betas else fitted(tables)
    if len(at) != len(tables.rows):
        raise Refusal(f"{len(at)} temperatures for {len(tables.rows)} slots")
    rounding = greatest_rounding(tables, at)
    bound = tables.decisions * float(rounding.draws) / SCALE
    listed = " ".join(f"{float(beta):.10g}" for beta in at)
    facts = [f"inverse temperatures{'' if betas else ', as the tables have them'}: {listed}",
             f"r = {float(rounding.draws):.4g} draws of 2^32 at {rounding.where}",
             f"k = {tables.decisions} decisions of a sample: k r / 2^32 = {bound:.2g}"]
    warnings = short_records(tables, at)
    if bound > GREATEST_BOUND:
        warnings.append(f"k r / 2^32 is {bound:.2g}: the bound on the distance from equilibrium that the tables' rounding "
                        "makes is no small part of 1")
    return facts, warnings


def first_missing(tables: Tables, pair: int, betas: Sequence[Fraction]) -> Decimal:
    """2^32 times the probability of the first gap past a record."""
    with localcontext(Context(prec=DIGITS)):
        return probability(4 * (len(tables.swaps[pair]) + 1) * (betas[pair] - betas[pair + 1]))


def short_records(tables: Tables, betas: Sequence[Fraction]) -> List[str]:
    """A line where records end before an entry that is more than twice as far off as all that they have, with the one that
    leaves out the likeliest swap. So a record that was rounded down to its end isn't told."""
    missing = [(first_missing(tables, pair, betas), pair) for pair in range(len(tables.swaps)) if tables.is_short(pair)]
    with localcontext(Context(prec=DIGITS)):
        short = [it for it in missing if it[0] > 2 * max(pair_roundings(tables, it[1], betas, False)).draws + 1]
    if not short:
        return []
    chance, pair = max(short)
    count = len(tables.swaps[pair])
    return [f"{len(short)} of {len(tables.swaps)} swap records are too short for size {tables.size}, where half gaps go to "
            f"{tables.half_gaps()}: that of pair {pair} has {count} entries, so a swap at the gap {2 * count + 2}, of probability "
            f"{float(chance) / SCALE:.2g}, is never made"]


def tell(program: str, run_file: str, betas: Optional[Sequence[Fraction]]) -> None:
    facts, warnings = told(tables_of(Path(run_file)), betas)
    print("\n".join(facts))
    for warning in warnings:
        print(f"{program}: warning: {warning}", file=sys.stderr)


# ---------------------------------------------------------------- the program


def self_test() -> int:
    checks = Checks("table_rounding")
    betas = [Fraction(text) for text in ("0.3", "0.22165463", "0.2", "0.1")]
    for rule in ("heat", "metropolis"):
        made = Tables(4, rule, [rule_record(rule, beta) for beta in betas],
                      [swap_record(betas[k] - betas[k + 1], 4)[0] for k in range(3)], 1000)
        nearest = greatest_rounding(made, betas)
        checks.same(f"{rule}: rounded to the nearest", 0.4 < nearest.draws <= Decimal("0.5"), True)
        fit = fitted(made)
        checks.same(f"{rule}: fitted", max(abs(one - other) for one, other in zip(fit, betas)) < Fraction(1, 10 ** 9), True)
        checks.same(f"{rule}: no worse", greatest_rounding(made, fit).draws < nearest.draws + Decimal("0.01"), True)
        checks.same(f"{rule}: no warning", told(made)[1], [])
        cut = made._replace(swaps=[made.swaps[0][:5]] + made.swaps[1:])
        # exp(-4 * 6 * 0.07834537) is 0.15257..
        checks.same(f"{rule}: a record too short", "1 of 3" in told(cut, betas)[1][0] and "probability 0.15," in told(cut, betas)[1][0], True)
        long = made._replace(decisions=2 ** 32)
        checks.same(f"{rule}: a long run", ["no small part" in it for it in told(long, betas)[1]], [True])
    # By exp(-4 beta) = 1 / 2 Metropolis has the exact thresholds 2^31, 2^30 and 2^29; one is moved by three draws.
    exact = Tables(4, "metropolis", [[2 ** 31, 2 ** 30, 2 ** 29 + 3]], [], 1)
    half = Fraction(math.log(2)) / 4
    checks.same("a threshold that is three draws off", round(float(greatest_rounding(exact, [half]).draws), 3), 3.0)
    checks.same("the fit shares them out", 0.7 < greatest_rounding(exact, fitted(exact)).draws < 2, True)
    # Two slots and three sweeps of 64 sites in both replicas, and two exchanges in each other epoch, from the first on.
    checks.same("decisions", [decisions_of(4, 2, 3, epochs) for epochs in (1, 2)], [2 * 2 * 3 * 64 + 2, 2 * (2 * 2 * 3 * 64) + 2])
    example = Path(__file__).resolve().parent.parent / "examples" / "ising_4" / "run.toml"
    if example.is_file():
        words = [str(example), "--betas", "0.3", "0.22165463", "0.2", "0.1"]
        status, out, err = outcome(words, main)
        checks.same("ising_4", (status, out.splitlines()[2], err), (0, "k = 5135000 decisions of a sample: k r / 2^32 = 0.0006", ""))
        checks.same("other temperatures", outcome(words[:-1], main)[::2],
                    (2, "table_rounding: 3 temperatures for 4 slots\n"))
    checks.same("no file", outcome(["none.toml"], main)[0], 2)
    return checks.end()


def main(words: Optional[Sequence[str]] = None) -> int:
    parser = OneLineParser(prog="table_rounding", description=__doc__, allow_abbrev=False,
                           formatter_class=argparse.RawDescriptionHelpFormatter)
    parser.add_argument("run_file", nargs="?", metavar="RUN", help="a run file, its tables beside it")
    add_temperatures(parser)
    parser.add_argument("--self-test", action="store_true", help="look at tables whose rounding is known")
    try:
        options = parser.parse_args(words)
        if options.self_test:
            return self_test()
        if options.run_file is None:
            raise Refusal("a run file is needed; --help says more")
        tell("table_rounding", options.run_file, inverse_temperatures(options))
    except Refusal as refusal:
        print(f"table_rounding: {refusal}", file=sys.stderr)
        return 2
    return 0


if __name__ == "__main__":
    sys.exit(status_of("table_rounding", main))
