#!/usr/bin/env python3
"""Prints the first lines of this example by another program, which goes one spin at a time.

    python3 examples/aging_32/expected.py     sample 0 at the times 1 and 2 after 10 sweeps

It is the program of tools/reference, with its own generators, lattice and couplings; a sweep
takes it about half a second.
"""
import sys
from pathlib import Path

FOLDER = Path(__file__).resolve().parent
sys.path.insert(0, str(FOLDER.parent.parent / "tools"))
from reference.grid import Tempering  # noqa: E402

WAIT, TIMES, SEED, SIZE = 10, (1, 2), 1, 32


def main():
    row = [int(entry) for entry in (FOLDER / "rules.csv").read_text().split(",")]
    sample = Tempering(SIZE, "heat", [row], [], 1, SEED, 0, "random", 0)
    print(f"age 1 size={SIZE} slots=1 samples=64 rule=heat tw={WAIT}")
    for copy, replica in enumerate(sample.slots[0]):
        for _ in range(WAIT):
            sample.sweep(0, replica)
        kept, done = dict(replica.grid), 0
        for time in TIMES:
            for _ in range(time - done):
                sample.sweep(0, replica)
            done = time
            print(f"age,0,{copy},{time},0,{sum(s * replica.grid[site] for site, s in kept.items())}")


if __name__ == "__main__":
    if sys.argv[1:]:
        sys.exit(print(__doc__) if sys.argv[1:] == ["--help"] else "expected: no words are understood but --help")
    main()
