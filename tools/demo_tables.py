#!/usr/bin/env python3
"""Writes the two tables of the run at sixteen temperatures by integer arithmetic alone.

    python3 tools/demo_tables.py            writes rules16.csv and swaps16.csv
    python3 tools/demo_tables.py --size 8   the same with a swap entry for each gap of that lattice

With N = 2^32, and div the whole part of a quotient, slot t has the Metropolis thresholds
    x = N (t + 2) div (t + 10)    y = x x div N    y x div N
so exp(-4 beta) of slot t is near (t + 2) / (t + 10). Pair k has 64 swap entries, which begin with
    w = N (k + 2) (k + 11) div ((k + 10) (k + 3))
and each further entry is the one before it times w div N. Every product is floored, so these are
not the rounded exponentials that make_tables.py writes.

The 64 entries are those of `glass demo` and of a published run, whose digests fix them. They are too few for any
lattice: at a gap of more than 128 unsatisfied bonds no swap is made, however probable it is, so exchange is not in
detailed balance there. --size L goes on to the greatest gap that a lattice of that size has, or to the last entry
that is not 0.
"""
import argparse
import hashlib
import sys
import tempfile
from pathlib import Path

sys.dont_write_bytecode = True
from exit_status import status_of  # noqa: E402
from make_tables import SCALE, Checks, OneLineParser, Refusal, outcome, text_of, write_text  # noqa: E402

SLOTS = 16
ENTRIES = 64
GREATEST_SIZE = 64


def rule_record(slot):
    x = SCALE * (slot + 2) // (slot + 10)
    y = x * x // SCALE
    return [x, y, y * x // SCALE]


def swap_record(pair, count=ENTRIES):
    """The entries of a pair: `count` of them, or fewer where the next would be 0."""
    w = SCALE * (pair + 2) * (pair + 11) // ((pair + 10) * (pair + 3))
    entries = [w]
    while len(entries) < count and entries[-1] * w >= SCALE:
        entries.append(entries[-1] * w // SCALE)
    return entries


def swap_records(size):
    """The records of all pairs: of a lattice with an entry for each half gap, of which it has 3 size^3 / 2."""
    return [swap_record(pair, 3 * size ** 3 // 2 if size else ENTRIES) for pair in range(SLOTS - 1)]


def make(options):
    if options.size is not None and (options.size % 2 == 1 or not 4 <= options.size <= GREATEST_SIZE):
        raise Refusal(f"the size is no even number from 4 to {GREATEST_SIZE}: {options.size}")
    swaps = swap_records(options.size)
    write_text(options.rules, text_of(rule_record(slot) for slot in range(SLOTS)))
    write_text(options.swaps, text_of(swaps))
    print(f"wrote {options.rules}: Metropolis, {SLOTS} slots")
    if options.size is None:
        print(f"wrote {options.swaps}: {SLOTS - 1} pairs of {ENTRIES} entries, too few for any lattice; --size goes on")
    else:
        print(f"wrote {options.swaps}: {SLOTS - 1} pairs of {len(swaps[0])} to {len(swaps[-1])} entries")


def main(words=None):
    parser = OneLineParser(prog="demo_tables", description=__doc__, allow_abbrev=False,
                           formatter_class=argparse.RawDescriptionHelpFormatter)
    parser.add_argument("--rules", default="rules16.csv", metavar="FILE", help="the rule table (rules16.csv)")
    parser.add_argument("--swaps", default="swaps16.csv", metavar="FILE", help="the swap table (swaps16.csv)")
    parser.add_argument("--size", type=int, metavar="L", help="swap entries for each gap of a lattice of this size")
    parser.add_argument("--self-test", action="store_true", help="compare with published values")
    try:
        options = parser.parse_args(words)
        if options.self_test:
            return self_test()
        make(options)
    except Refusal as refusal:
        print(f"demo_tables: {refusal}", file=sys.stderr)
        return 2
    return 0


# ---------------------------------------------------------------- the self-test

# Of the tables whose run gives the published report of sixteen temperatures.
RULES_DIGEST = "43a8285d3e55c50ab949a1485bc0e385e13e3dbef2d9b68dce47bf5ed746464c"
SWAPS_DIGEST = "7b8aeeb9cf6707ed3ba32a68cf973f30e9b796da69133f2f0baa571a15e61dc3"


def self_test():
    checks = Checks("demo_tables")
    checks.same("slot 0", rule_record(0), [858993459, 171798691, 34359738])
    checks.same("pair 0", swap_record(0)[:2], [3149642683, 2309737966])
    # A floored product is below the exact power by less than the sum of the factors that it lost.
    for slot in range(SLOTS):
        for power, threshold in enumerate(rule_record(slot), 1):
            exact = SCALE * (slot + 2) ** power / (slot + 10) ** power
            checks.same(f"power {power} of slot {slot}", 0 <= exact - threshold < power, True)
    for pair in range(SLOTS - 1):
        entries = swap_record(pair)
        checks.same(f"entries of pair {pair}", (len(entries), entries == sorted(entries, reverse=True)), (ENTRIES, True))
        for entry, later in zip(entries, entries[1:]):
            checks.same(f"a step of pair {pair}", 0 <= entry * entries[0] - later * SCALE < SCALE, True)
    # The 64 entries are the first of a longer record, which ends at the lattice's greatest gap or before an entry of 0.
    for pair, record in enumerate(swap_records(8)):
        checks.same(f"pair {pair} goes on", (record[:ENTRIES], record[-1] > 0), (swap_record(pair), True))
        checks.same(f"pair {pair} ends", len(record) == 768 or record[-1] * record[0] < SCALE, True)
    with tempfile.TemporaryDirectory() as folder:
        made = Path(folder) / "rules16.csv", Path(folder) / "swaps16.csv"
        status, _, err = outcome(["--rules", str(made[0]), "--swaps", str(made[1])], main)
        checks.same("a call", (status, err), (0, ""))
        rules, swaps = (name.read_bytes() for name in made)
        status, out, err = outcome(["--rules", folder], main)
        checks.same("a folder in place of a file", (status, out, err.count("\n")), (2, "", 1))
        checks.same("an odd size", outcome(["--size", "5"], main)[0], 2)
        checks.same("an unknown word", outcome(["rules"], main)[::2], (2, "demo_tables: unrecognized arguments: rules\n"))
    checks.same("first line of rules16.csv", rules.split(b"\n")[0], b"858993459, 171798691, 34359738")
    checks.same("swaps16.csv begins", swaps[:24], b"3149642683, 2309737966, ")
    checks.same("lines", (rules.count(b"\n"), swaps.count(b"\n"), rules[-1:], swaps[-1:]), (16, 15, b"\n", b"\n"))
    checks.same("digest of rules16.csv", hashlib.sha256(rules).hexdigest(), RULES_DIGEST)
    checks.same("digest of swaps16.csv", hashlib.sha256(swaps).hexdigest(), SWAPS_DIGEST)
    example = Path(__file__).resolve().parent.parent / "examples" / "glass_8"
    if example.is_dir():
        checks.same("tables of glass_8", [(example / name).read_bytes() for name in ("rules16.csv", "swaps16.csv")],
                    [rules, text_of(swap_records(8)).encode()])
    return checks.end()


if __name__ == "__main__":
    sys.exit(status_of("demo_tables", main))
