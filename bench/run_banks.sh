#!/usr/bin/env bash
# Says what four banks of 64 samples cost against one. bench/run.sh --banks calls it.

usage() {
    cat <<'END'
usage: bench/run.sh --banks [--cpu CPU] [--sizes "SIZE .."] [--passes N] [--turns N] [--limit RATIO]

Times whole runs of ./glass with 256 samples against the same runs with 64, each with one worker, by turns: Metropolis,
8 temperatures, random couplings from a random start, 10 sweeps an epoch, each tenth epoch recorded. For each size it
prints the least milliseconds of processor time on both sides and their ratio, and the most memory that each took.
The rows of the samples below 64 must be the same, byte for byte.

  --cpu CPU      x86-64-v2 (as if left out) or x86-64-v3
  --sizes ..     of 8, 16, 32 and 64, all four if left out
  --passes N     epochs at size 16, 500 if left out; at the other sizes as many as have about as many spin
                 updates, and 10 at the least
  --turns N      turns, 5 if left out; of each run the least time counts
  --limit RATIO  the greatest ratio that is right, 4.1 if left out

Status: 0 where no ratio is above the limit, 1 where one is or rows differ, 2 for a wrong word or where the program
can't be built. Needs rt and python3.
END
}

passes=500
limit=4.1
sizes="8 16 32 64"
. "$(dirname "$0")/common.sh"
begin_runs "$@"
rule=metropolis
# shellcheck disable=SC2086
make_tables banks "$rule" $temperatures

# One run: its size, its samples, the milliseconds of processor time, the most kilobytes, and the digest of the rows of
# the samples below 64.
measure_run() {
    local size=$1 samples=$2 used
    used=$(cd "$build" && python3 -c '
import resource, subprocess, sys
with open("banks.txt", "wb") as out:
    subprocess.run(sys.argv[1:], stdout=out, check=True)
used = resource.getrusage(resource.RUSAGE_CHILDREN)
print(1000 * (used.ru_utime + used.ru_stime), used.ru_maxrss)' ./glass run "banks_${size}_$samples.toml" --workers 1) \
        || fail "a run failed: size $size, $samples samples"
    echo "$size $samples $used $(awk -F, '$1 == "row" && $3 < 64' "$build/banks.txt" | sha256sum | cut -d' ' -f1)"
}

for size in $sizes; do
    for samples in 64 256; do
        tables=banks sweeps=10 epochs=$(epochs_at "$size") write_run "banks_${size}_$samples"
    done
done
for _ in $(seq "$turns"); do
    for size in $sizes; do
        measure_run "$size" 64
        measure_run "$size" 256
    done
done > "$build/banks.times" || exit 1

awk -v cpu="$cpu" -v limit="$limit" '
    {
        size = $1
        at = size " " $2
        if (!(size in rows)) { names[++count] = size; rows[size] = $5 }
        if (rows[size] != $5) { print "size " size ": rows of the samples below 64 differ"; bad = 1 }
        if (!(at in least) || $3 + 0 < least[at]) least[at] = $3 + 0
        if (!(at in most) || $4 + 0 > most[at]) most[at] = $4 + 0
    }
    END {
        for (i = 1; i <= count; i++) {
            one = names[i] " 64"
            four = names[i] " 256"
            printf "%s size %s: 64 samples %.0f ms, 256 samples %.0f ms, ratio %.2f; %.1f MB and %.1f MB\n", cpu, names[i],
                least[one], least[four], least[four] / least[one], most[one] * 1.024 / 1000, most[four] * 1.024 / 1000
            if (least[four] > limit * least[one]) bad = 1
        }
        exit bad || !count
    }' "$build/banks.times"
