#!/usr/bin/env bash
# Compares unsatisfied and agreeing with the same form in C, built for the same processor.

usage() {
    cat <<'END'
usage: bench/totals.sh [--cpu CPU] [--sizes "SIZE .."] [--passes N] [--turns N] [--limit RATIO]

Times unsatisfied and agreeing of the crate bit_totals at each size, against the same form in C
(bench/totals.c, gcc -O3). The two programs run by turns. For each function and size it prints the least
time of a pass on both sides and their ratio.

  --cpu CPU      x86-64-v2 (as if left out) or x86-64-v3, for both compilers
  --sizes ..     even numbers from 4 to 64, "16 32 64" if left out
  --passes N     passes of a turn, 200 if left out
  --turns N      turns, 5 if left out
  --limit RATIO  the greatest ratio that is right, 2.0 if left out

Status: 0 where no ratio is above the limit, 1 where one is or the two sides left different planes, 2 for
a wrong word or where a side can't be built. Needs rt and gcc.
END
}

passes=200
limit=2.0
sizes="16 32 64"
. "$(dirname "$0")/common.sh"
read_words "$@"
for size in $sizes; do
    { [ "$(number --sizes "$size")" -ge 4 ] && [ "$size" -le 64 ] && [ $((size % 2)) -eq 0 ]; } \
        || fail "--sizes takes even numbers from 4 to 64, not '$size'"
done
build_sides totals bench_kernels

# Turns come first, so that a busy moment of the machine doesn't fall on all those of one size.
for _ in $(seq "$turns"); do
    for size in $sizes; do
        "$build/totals_c" "$size" "$passes" | sed "s/^/C $size /"
        "$build/bench_kernels" totals "$size" "$passes" | sed "s/^/Rattle $size /"
    done
done | compare ns
