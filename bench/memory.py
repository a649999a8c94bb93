#!/usr/bin/env python3
"""Says how much memory `glass measure` takes beside `glass run`, by size and number of bins.

    bench/memory.py ./glass                       sizes 16, 32 and 64 with 32 temperatures, some seconds
    bench/memory.py ./glass --sizes 16 --slots 8  others

Of each size it prints the most memory of `run` with one epoch, of `measure` with one epoch, which is one bin, and with 32
epochs, which are six bins, each with one worker; then what a bin takes for one temperature and 64 samples, what is said of
it, and the quotient. What is said is BIN bytes, the struct BinSums of plane_sums. Then come what `measure` with one bin takes
beside the replicas (8 L^3 bytes each), the couplings (24 L^3) and the sums, and what each further worker takes.

The memory is the VmHWM of /proc, in kB of 1024 bytes, read while the program waits for someone to take its text: it takes
no memory any more then. Status: 0 where a bin takes what is said of it within --limit percent (5), else 1; 2 for a wrong
word or a run that fails."""
import argparse
import fcntl
import re
import subprocess
import sys
import tempfile
from pathlib import Path
from typing import List, Sequence

TOOLS = Path(__file__).resolve().parent.parent / "tools"
sys.path.insert(0, str(TOOLS))
from exit_status import status_of  # noqa: E402
from make_tables import OneLineParser, Refusal  # noqa: E402

# 64 samples with eleven sums of 16 bytes, 32 classes of 4, and correlations of 8 bytes at the 33 distances of the greatest
# side, twice; and the number of epochs.
BIN = 64 * (11 * 16 + 32 * 4 + 2 * 33 * 8) + 8
EPOCHS, BINS = 32, 6
WORKERS = 3
SHORT_PIPE = 4096
RUN = """size = {size}
rule = "metropolis"
rules = "rules.csv"
swaps = "swaps.csv"
couplings = "random"
sweeps = 1
seed = 1
samples = 64
epochs = {epochs}
every = 1
start = "random"
spins = false
"""


def most_memory(program: str, folder: Path, words: Sequence[str]) -> int:
    """The most kB that a run takes, whose text is longer than a short pipe."""
    with subprocess.Popen([program, *words], cwd=folder, stdout=subprocess.PIPE) as run:
        assert run.stdout is not None
        fcntl.fcntl(run.stdout, fcntl.F_SETPIPE_SZ, SHORT_PIPE)
        begun = run.stdout.read(1)
        status = Path(f"/proc/{run.pid}/status").read_text(encoding="ascii")
        run.stdout.read()
    found = re.search(r"^VmHWM:\s+(\d+) kB$", status, re.MULTILINE)
    if run.returncode != 0 or not begun or found is None:
        raise Refusal(f"the run ended with status {run.returncode}, or too soon to be looked at: {' '.join(words)}")
    return int(found[1])


def measured(program: str, size: int, slots: int) -> List[int]:
    """The most kB of `run` with one epoch, of `measure` with one and with EPOCHS, and of that with one by WORKERS."""
    with tempfile.TemporaryDirectory() as name:
        folder = Path(name)
        temperatures = [f"{1 + slot / 20:.2f}" for slot in range(slots)]
        subprocess.run([sys.executable, str(TOOLS / "make_tables.py"), "metropolis", "--temperatures", *temperatures], cwd=folder,
                       stdout=subprocess.DEVNULL, check=True)
        for epochs in (1, EPOCHS):
            (folder / f"run_{epochs}.toml").write_text(RUN.format(size=size, epochs=epochs))
        return [most_memory(program, folder, (command, f"run_{epochs}.toml", "--workers", str(workers))) for command, epochs, workers in
                (("run", 1, 1), ("measure", 1, 1), ("measure", EPOCHS, 1), ("measure", 1, WORKERS))]


def main() -> int:
    parser = OneLineParser(prog="memory", description=__doc__, allow_abbrev=False, formatter_class=argparse.RawDescriptionHelpFormatter)
    parser.add_argument("program", metavar="PROGRAM")
    parser.add_argument("--sizes", type=int, nargs="+", default=[16, 32, 64], metavar="SIZE")
    parser.add_argument("--slots", type=int, default=32, metavar="N")
    parser.add_argument("--limit", type=float, default=5, metavar="PERCENT")
    options = parser.parse_args()
    program, is_far = str(Path(options.program).resolve()), False
    print("size,slots,run_kb,one_bin_kb,six_bins_kb,bin_kb,said_kb,ratio,besides_kb,worker_kb")
    for size in options.sizes:
        run, one, six, by_workers = measured(program, size, options.slots)
        of_bin, said = (six - one) / (BINS - 1) / options.slots, BIN / 1024
        besides = one - (16 * options.slots + 24) * size ** 3 / 1024 - said * options.slots
        print(f"{size},{options.slots},{run},{one},{six},{of_bin:.2f},{said:.2f},{of_bin / said:.3f},{besides:.0f},"
              f"{(by_workers - one) / (WORKERS - 1):.0f}", flush=True)
        is_far |= abs(of_bin / said - 1) > options.limit / 100
    return 1 if is_far else 0


if __name__ == "__main__":
    sys.exit(status_of("memory", main))
