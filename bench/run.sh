#!/usr/bin/env bash
# Compares whole runs of the program with those of a hand-made one in C++, built for the same processor.

usage() {
    cat <<'END'
usage: bench/run.sh [--cpu CPU] [--sizes "SIZE .."] [--sweeps N] [--passes N] [--turns N] [--limit RATIO]
       bench/run.sh --workers ..    (see bench/run.sh --workers --help)
       bench/run.sh --banks ..      (see bench/run.sh --banks --help)
       bench/run.sh --cost ..       (see bench/run.sh --cost --help)

Times whole runs of ./glass, from its words to the last byte of its report, in one thread, against
bench/run.cpp (g++ -O3), which reads the same run file and prints the same report: 64 samples with random
couplings from a random start, 8 temperatures, both rules, each tenth epoch recorded. The two programs run by turns
as processes. Their outputs must be the same, byte for byte. For each size and rule it prints the least
milliseconds of processor time on both sides and their ratio, and the picoseconds of a spin update on our side:
that is of one spin in one of the 64 samples, with everything else that the run does shared out over them.

  --cpu CPU      x86-64-v2 (as if left out) or x86-64-v3, for both compilers
  --sizes ..     of 8, 16, 32 and 64, all four if left out
  --sweeps N     sweeps of an epoch, 10 if left out
  --passes N     epochs at size 16, 500 if left out; at the other sizes as many as have about as many spin
                 updates, and 10 at the least
  --turns N      turns, 5 if left out
  --limit RATIO  the greatest ratio that is right at size 16 by Metropolis, 1.5 if left out; the others are
                 only told

Status: 0 where that ratio is not above the limit, 1 where it is or two outputs differ, 2 for a wrong word or
where a side can't be built. Needs rt, python3 and g++ 12.
END
}

case "${1-}" in
    --workers | --banks | --cost)
        script=run_${1#--}.sh
        shift
        exec "$(dirname "$0")/$script" "$@"
        ;;
esac
passes=500
limit=1.5
sweeps=10
sizes="8 16 32 64"
. "$(dirname "$0")/common.sh"
begin_runs "$@"
g++ -std=c++20 -O3 "-march=$cpu" bench/run.cpp -o "$build/run_c" || fail "g++ failed"

# One run of a side: the milliseconds of processor time, and the digest of its output.
run_side() {
    local side=$1 name=$2 out="$1_$2.txt" took
    shift 2
    took=$(timed '%U %S' "$out" "$@" "run_$name.toml") || exit 2
    echo "$side ${name/_/ } $took $(sha256sum < "$build/$out" | cut -d' ' -f1)"
}

for rule in metropolis heat; do
    # shellcheck disable=SC2086
    make_tables "run_$rule" "$rule" $temperatures
    for size in $sizes; do
        tables=run_$rule epochs=$(epochs_at "$size") write_run "run_${size}_$rule"
    done
done

# Turns come first, so that a busy moment of the machine doesn't fall on all those of one size.
for _ in $(seq "$turns"); do
    for size in $sizes; do
        for rule in metropolis heat; do
            run_side C "${size}_$rule" ./run_c
            run_side Rattle "${size}_$rule" ./glass run
            cmp "$build/C_${size}_$rule.txt" "$build/Rattle_${size}_$rule.txt" >&2 || exit 1
        done
    done
done > "$build/run.times" || exit 1

# The least of our times at a size and rule, as picoseconds of a spin update.
for size in $sizes; do
    for rule in metropolis heat; do
        awk -v size="$size" -v rule="$rule" -v sweeps="$sweeps" -v epochs="$(epochs_at "$size")" '
            $1 == "Rattle" && $2 == size && $3 == rule && (!least || $4 < least) { least = $4 + 0 }
            END { printf "%s %s: %.1f ps a spin update\n", size, rule,
                  least * 1e9 / (64 * 16 * size ^ 3 * sweeps * epochs) }' "$build/run.times"
    done
done
status=0
grep ' 16 metropolis ' "$build/run.times" > "$build/run.limited" && { compare ms < "$build/run.limited" || status=1; }
grep -v ' 16 metropolis ' "$build/run.times" > "$build/run.told" && { limit=1000 compare ms < "$build/run.told" || status=1; }
exit "$status"
