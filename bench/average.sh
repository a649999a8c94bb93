#!/usr/bin/env bash
# Times `glass average` on a report of 60 MB.

usage() {
    cat <<'END'
usage: bench/average.sh [--turns N] [--limit SECONDS]

Makes a lawful report of 64 samples in 32 slots with rows by chance, 59.9 MB, and of half as many epochs, and times
./glass average on both, with 64 blocks. It prints the least seconds from start to end and of processor time.

  --turns N        turns, 5 if left out
  --limit SECONDS  the most seconds that are right for the whole report, 1.5 if left out

Status: 0 where that time is not above the limit, 1 where it is, 2 for a wrong word or without ./glass.
END
}

limit=1.5
. "$(dirname "$0")/common.sh"
unset cpu
read_words "$@"
begin_with_glass
exec python3 - "$turns" "$limit" <<'END'
import os, random, resource, subprocess, sys, tempfile, time

SAMPLES, SLOTS = 64, 32
turns, limit = int(sys.argv[1]), float(sys.argv[2])


def write_report(name, epochs):
    chance = random.Random(1)
    with open(name, "w") as out:
        out.write(f"glass 1 size=32 slots={SLOTS} samples={SAMPLES} rule=metropolis from=0 to={epochs}\n")
        for epoch in range(epochs):
            for place in range(SAMPLES * SLOTS):
                values = (chance.randrange(-49000, -1000), chance.randrange(-49000, -1000), chance.randrange(-30000, 30000))
                slot = place % SLOTS
                out.write(f"row,{epoch},{place // SLOTS},{slot},{values[0]},{values[1]},{values[2]},{slot},{slot}\n")
        out.write(f"end,{epochs}\n")


def timed(folder, name):
    before, start = resource.getrusage(resource.RUSAGE_CHILDREN), time.monotonic()
    subprocess.run([os.path.abspath("glass"), "average", name, "64"], cwd=folder, stdout=subprocess.DEVNULL, check=True)
    passed, after = time.monotonic() - start, resource.getrusage(resource.RUSAGE_CHILDREN)
    return passed, after.ru_utime + after.ru_stime - before.ru_utime - before.ru_stime


with tempfile.TemporaryDirectory() as folder:
    least = {}
    for epochs in (380, 760):
        name = f"report_{epochs}.txt"
        write_report(os.path.join(folder, name), epochs)
        times = [timed(folder, name) for _ in range(turns)]
        least[epochs] = [min(column) for column in zip(*times)]
        size = os.path.getsize(os.path.join(folder, name)) / 1e6
        print(f"{size:6.1f} MB, {epochs * SAMPLES * SLOTS} rows: {least[epochs][0]:.2f} s, {least[epochs][1]:.2f} s of processor time")
sys.exit(least[760][0] > limit)
END
