#!/usr/bin/env bash
# Compares the sums over planes and their correlations with a program in C, built for the same processor.

usage() {
    cat <<'END'
usage: bench/planes.sh [--sizes "SIZE .."] [--passes N] [--turns N] [--limit RATIO]

Times plane_numbers and correlations of the crate plane_sums at each size, together, against a program in C
(bench/planes.c, gcc -O3), both for x86-64-v3. The two programs run by turns. For each size it prints the least
time of a pass on both sides and their ratio.

  --sizes ..     of 8, 16, 32 and 64, all of them if left out
  --passes N     passes of a turn, 50 if left out
  --turns N      turns, 5 if left out
  --limit RATIO  the greatest ratio that is right, 12.0 if left out

Status: 0 where no ratio is above the limit, 1 where one is or the two sides left different correlations, 2 for
a wrong word or where a side can't be built. Needs rt and gcc.
END
}

passes=50
limit=12.0
sizes="8 16 32 64"
. "$(dirname "$0")/common.sh"
unset cpu
read_words "$@"
check_sizes
cpu=x86-64-v3
build_sides planes bench_kernels

# Turns come first, so that a busy moment of the machine doesn't fall on all those of one size.
for _ in $(seq "$turns"); do
    for size in $sizes; do
        "$build/planes_c" "$size" "$passes" | sed "s/^/C $size /"
        "$build/bench_kernels" planes "$size" "$passes" | sed "s/^/Rattle $size /"
    done
done | compare ns
