#!/usr/bin/env bash
# Compares count6 and add_count with the same functions in C, built for the same processor.

usage() {
    cat <<'END'
usage: bench/bit_arithmetic.sh [--cpu CPU] [--passes N] [--turns N] [--limit RATIO]

Times count6 and add_count of the crate bit_compare, each over a megabyte of words, against the same
functions in C (bench/bit_arithmetic.c, gcc -O3). The two programs run by turns. For each function it
prints the least time of a pass on both sides and their ratio.

  --cpu CPU      x86-64-v2 (as if left out) or x86-64-v3, for both compilers
  --passes N     passes of a turn, 1000 if left out
  --turns N      turns, 5 if left out
  --limit RATIO  the greatest ratio that is right, 1.2 if left out

Status: 0 where no ratio is above the limit, 1 where one is or the two sides left different words, 2 for
a wrong word or where a side can't be built. Needs rt and gcc.
END
}

passes=1000
limit=1.2
. "$(dirname "$0")/common.sh"
read_words "$@"
build_sides bit_arithmetic bench_kernels

for _ in $(seq "$turns"); do
    "$build/bit_arithmetic_c" "$passes" | sed 's/^/C /'
    "$build/bench_kernels" bits "$passes" | sed 's/^/Rattle /'
done | compare ns
