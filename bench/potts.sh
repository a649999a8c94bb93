#!/usr/bin/env bash
# Compares the sweep of the Potts glass with the fastest form in C that is known, built for the same processor.

usage() {
    cat <<'END'
usage: bench/potts.sh [--cpu CPU] [--sizes "SIZE .."] [--passes N] [--turns N] [--limit RATIO]

Times sweep of the crate potts_glass at each size against a form in C (bench/potts.c, gcc -O3). The
two programs run by turns from the same state. For each size it prints the least picoseconds of an update
on both sides and their ratio. An update is that of one site in one of the 64 samples, the random numbers
included.

  --cpu CPU      x86-64-v2 (as if left out) or x86-64-v3, for both compilers
  --sizes ..     of 8, 16, 32 and 64, all four if left out
  --passes N     passes of a turn, 30 if left out, each of 262144 / SIZE^3 sweeps
  --turns N      turns, 5 if left out
  --limit RATIO  the greatest ratio that is right, 2.5 if left out

Status: 0 where no ratio is above the limit, 1 where one is or the two sides left different colours, 2 for
a wrong word or where a side can't be built. Needs rt and gcc 12.
END
}

passes=30
limit=2.5
sizes="8 16 32 64"
. "$(dirname "$0")/common.sh"
read_words "$@"
check_sizes
build_sides potts bench_kernels

# One run of a side, in picoseconds.
run_side() {
    local side=$1 program=$2 size=$3
    local sweeps=$((262144 / size ** 3))
    $program "$size" "$sweeps" "$passes" \
        | awk -v name="$side $size" '{ print name, $1 * 1000 / (64 * 262144), $2 }'
}

# Turns come first, so that a busy moment of the machine doesn't fall on all those of one size.
for _ in $(seq "$turns"); do
    for size in $sizes; do
        run_side C "$build/potts_c" "$size"
        run_side Rattle "$build/bench_kernels potts" "$size"
    done
done | compare ps
