#!/usr/bin/env bash
# Times `glass lines` on a checkpoint of size 64 with 32 temperatures.

usage() {
    cat <<'END'
usage: bench/lines.sh [--turns N] [--limit SECONDS]

Saves the opening state of 64 samples of size 64 in 32 slots with random spins and couplings, 136 MB, and times
./glass lines on it. It prints the least seconds from start to end and of processor time.

  --turns N        turns, 5 if left out
  --limit SECONDS  the most seconds that are right, 3 if left out

Status: 0 where that time is not above the limit, 1 where it is, 2 for a wrong word or without ./glass.
END
}

limit=3
. "$(dirname "$0")/common.sh"
unset cpu
read_words "$@"
begin_with_glass
exec python3 - "$turns" "$limit" <<'END'
import os, resource, subprocess, sys, tempfile, time

SLOTS = 32
RUN = """size = 64
rule = "heat"
rules = "rules.csv"
swaps = "swaps.csv"
couplings = "random"
sweeps = 1
seed = 1
samples = 64
epochs = 0
every = 1
start = "random"
spins = false
"""
turns, limit = int(sys.argv[1]), float(sys.argv[2])
glass = os.path.abspath("glass")


def timed(folder):
    before, start = resource.getrusage(resource.RUSAGE_CHILDREN), time.monotonic()
    subprocess.run([glass, "lines", "run.toml", "saved"], cwd=folder, stdout=subprocess.DEVNULL, check=True)
    passed, after = time.monotonic() - start, resource.getrusage(resource.RUSAGE_CHILDREN)
    return passed, after.ru_utime + after.ru_stime - before.ru_utime - before.ru_stime


with tempfile.TemporaryDirectory() as folder:
    for name, text in (("run.toml", RUN), ("rules.csv", "0,0,0,0,0,0,0\n" * SLOTS), ("swaps.csv", "0\n" * (SLOTS - 1))):
        with open(os.path.join(folder, name), "w") as out:
            out.write(text)
    subprocess.run([glass, "run", "run.toml", "--save", "saved"], cwd=folder, stdout=subprocess.DEVNULL, check=True)
    least = [min(column) for column in zip(*(timed(folder) for _ in range(turns)))]
    size = os.path.getsize(os.path.join(folder, "saved")) / 1e6
    print(f"{size:6.1f} MB: {least[0]:.2f} s, {least[1]:.2f} s of processor time")
sys.exit(least[0] > limit)
END
