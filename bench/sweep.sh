#!/usr/bin/env bash
# Compares the packed sweep with the same form in C, built for the same processor.

usage() {
    cat <<'END'
usage: bench/sweep.sh [--cpu CPU] [--sizes "SIZE .."] [--replicas N] [--passes N] [--turns N] [--limit RATIO]

Times sweep of the crate plane_sweep, in one thread, at each size and by both rules, against the same form
in C (bench/sweep.c, gcc -O3). The two programs run by turns from the same state. For each size and rule
it prints the least picoseconds of a spin update on both sides and their ratio. A spin update is that of one
spin in one of the 64 samples, the random numbers included.

  --cpu CPU      x86-64-v2 (as if left out) or x86-64-v3, for both compilers
  --sizes ..     of 8, 12, 16 and so on to 64, with x86-64-v3 also 10, 14, 18, 22, 26 and 30; 8, 16, 32 and 64
                 if left out
  --replicas N   1 (as if left out), or 2: sweep_duo_often of both replicas of a slot, as a run makes it, for
                 Rattle alone; a spin update takes half the time of one of each
  --passes N     passes of a turn, 100 if left out, each of 262144 / SIZE^3 sweeps
  --turns N      turns, 5 if left out
  --limit RATIO  the greatest ratio that is right, 1.4 if left out

Status: 0 where no ratio is above the limit, 1 where one is or the two sides left different spins, 2 for
a wrong word or where a side can't be built. Needs rt and gcc 12.
END
}

passes=100
limit=1.4
sizes="8 16 32 64"
replicas=1
. "$(dirname "$0")/common.sh"
read_words "$@"
odd_halves=
[ "$cpu" != x86-64-v3 ] || odd_halves=" 10 14 18 22 26 30"
check_sizes "8 12 16 20 24 28 32 36 40 44 48 52 56 60 64$odd_halves"
build_sides sweep bench_kernels

# One run of a side, in picoseconds.
run_side() {
    local side=$1 program=$2 size=$3 rule=$4
    local sweeps=$((262144 / size ** 3)) words=
    [ "$side $replicas" != "Rattle 2" ] || words=both
    $program "$size" "$rule" "$sweeps" "$passes" $words \
        | awk -v name="$side $size $rule" -v updates=$((64 * size ** 3 * sweeps)) \
            '{ print name, $1 * 1000 / updates, $2 }'
}

# Turns come first, so that a busy moment of the machine doesn't fall on all those of one size.
for _ in $(seq "$turns"); do
    for size in $sizes; do
        for rule in metropolis heat; do
            run_side C "$build/sweep_c" "$size" "$rule"
            run_side Rattle "$build/bench_kernels sweep" "$size" "$rule"
        done
    done
done | compare ps
