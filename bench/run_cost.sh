#!/usr/bin/env bash
# Measures what a run costs, as the constants of a formula. bench/run.sh --cost calls it.

usage() {
    cat <<'END'
usage: bench/run.sh --cost [--cpu CPU] [--sizes "SIZE .."] [--passes N] [--turns N]

Times whole runs of ./glass with one worker: 64 samples, 8 temperatures, random couplings from a random start, each
tenth epoch recorded, with no epoch, with 1 sweep an epoch and with 10. For each size and both rules it prints

  sweep    picoseconds of a spin update, that of one spin in one of the 64 samples, by the difference of the last two
  exchange microseconds of one temperature in one epoch for all that isn't a sweep: sums, exchange, records and rows
  start    milliseconds before the first epoch

A run of S temperatures, E epochs and n sweeps an epoch then takes start + E S (128 n L^3 sweep + exchange).

  --cpu CPU     x86-64-v2 (as if left out) or x86-64-v3
  --sizes ..    of 8, 16, 32 and 64, all four if left out
  --passes N    epochs at size 16, 500 if left out; at the other sizes as many as have about as many spin
                updates, and 10 at the least
  --turns N     turns, 5 if left out; of each run the least processor time counts

Status: 0, or 2 for a wrong word or where the program can't be built. Needs rt and python3.
END
}

passes=500
sizes="8 16 32 64"
. "$(dirname "$0")/common.sh"
begin_runs "$@"

# One run: its size, rule and sweeps, and the milliseconds of processor time.
time_run() {
    local size=$1 rule=$2 sweeps=$3 took
    shift 3
    took=$(timed '%U %S' cost.txt ./glass run "cost_${size}_${rule}_${sweeps/none/1}.toml" "$@") || exit 2
    echo "$size $rule $sweeps $took $(epochs_at "$size")"
}

for rule in metropolis heat; do
    # shellcheck disable=SC2086
    make_tables "cost_$rule" "$rule" $temperatures
    for size in $sizes; do
        for sweeps in 1 10; do
            tables=cost_$rule epochs=$(epochs_at "$size") write_run "cost_${size}_${rule}_$sweeps"
        done
    done
done
for _ in $(seq "$turns"); do
    for size in $sizes; do
        for rule in metropolis heat; do
            time_run "$size" "$rule" none --until 0
            time_run "$size" "$rule" 1
            time_run "$size" "$rule" 10
        done
    done
done > "$build/cost.times" || exit 1

awk -v cpu="$cpu" '
    {
        name = $1 " " $2
        if (!(name in epochs)) { names[++count] = name; epochs[name] = $5 }
        at = name " " $3
        if (!(at in least) || $4 + 0 < least[at]) least[at] = $4 + 0
    }
    END {
        for (i = 1; i <= count; i++) {
            name = names[i]
            split(name, part, " ")
            start = least[name " none"]
            visits = 8 * epochs[name]
            updates = 128 * part[1] ^ 3 * visits
            sweep = (least[name " 10"] - least[name " 1"]) / 9 / updates
            printf "%s size %s %s: sweep %.1f ps, exchange %.1f us, start %.1f ms\n", cpu, part[1], part[2], sweep * 1e9,
                (least[name " 1"] - start - sweep * updates) / visits * 1e3, start
        }
        exit !count
    }' "$build/cost.times"
