#!/usr/bin/env bash
# Says how much faster a run is with more workers. bench/run.sh --workers calls it.

usage() {
    cat <<'END'
usage: bench/run.sh --workers [--cpu CPU] [--sizes "SIZE .."] [--passes N] [--turns N] [--steady RATIO] [--limit RATIO]

Times whole runs of ./glass by Metropolis with 64 samples, by the clock and less the time of a run of no epoch, with
10 sweeps an epoch and with 1:

  16 temperatures  1, 2, 4 and 8 workers, and four runs of 1 worker at once
  2 temperatures   1, 2 and 4 workers, and 1 worker with 2 and 4 pieces

For each it prints the least milliseconds with one worker, and how many times as fast the others are. Of four runs
at once it prints how many times the throughput of one they have, which is what the processors give. All outputs of a
run must be the same, byte for byte. The machine must be idle and have 4 processors, or the ratios say little.
On one that others use too --steady leaves out what they disturb: before and behind each run bench/steady.c (gcc -O3)
does the same work on four processors at once, and the run counts only where both times the slowest of them took at
most RATIO times the least of all such times; where it took longer before a run, that is left out of the turn. Short
runs are disturbed less often: take --passes 100 and many turns.

  --cpu CPU      x86-64-v2 (as if left out) or x86-64-v3
  --sizes ..     of 8, 16, 32 and 64; 16 and 64 if left out
  --passes N     epochs at size 16, 500 if left out; at the other sizes as many as have about as many spin
                 updates, and 10 at the least
  --turns N      turns, 5 if left out; of each run the least time counts
  --steady RATIO the greatest ratio of a run that counts, such as 1.15; all count if left out
  --limit RATIO  the least ratio that is right of 4 workers at 16 temperatures with 10 sweeps, 3.3 if left out;
                 the others are only told

Status: 0 where no such ratio is below the limit, 1 where one is, a run never counted or two outputs differ, 2 for a
wrong word or where the program can't be built. Needs rt and python3, with --steady gcc.
END
}

passes=500
limit=3.3
steady=0
sizes="16 64"
. "$(dirname "$0")/common.sh"
begin_runs "$@"
[ "$steady" = 0 ] || gcc -O3 "-march=$cpu" -pthread bench/steady.c -o "$build/steady" || fail "gcc failed"
make_tables workers_16 metropolis 1.0 1.05 1.1 1.15 1.2 1.25 1.3 1.35 1.4 1.45 1.5 1.55 1.6 1.65 1.7 1.75
make_tables workers_2 metropolis 1.1 1.2

# Takes the gauge: the microseconds that the slowest of four processors needs now, and the least so far; 0 where
# nobody asks.
take_gauge() {
    [ "$steady" != 0 ] || return 0
    gauge=$("$build/steady") || fail "steady failed"
    if [ "$fastest" = 0 ] || [ "$gauge" -lt "$fastest" ]; then fastest=$gauge; fi
}

is_steady() {
    awk -v gauge="$gauge" -v fastest="$fastest" -v steady="$steady" 'BEGIN { exit gauge > steady * fastest }'
}

# Does the words four times at once.
at_once() {
    local job jobs=() status=0
    for job in 1 2 3; do
        "$@" > "workers_$job.txt" &
        jobs+=($!)
    done
    "$@" || status=1
    for job in "${jobs[@]}"; do
        wait "$job" || status=1
    done
    return "$status"
}

# One run: its name, what it is done with, the milliseconds by the clock, the digest of its output, and the gauge
# before it and behind it. Where the machine is not steady, its name and what it would be done with alone.
time_run() {
    local name=$1 with=$2 before=$gauge command=(./glass run "workers_$1.toml") took job
    shift 2
    if ! is_steady; then
        take_gauge
        echo "$name $with"
        return
    fi
    if [ "$with" = at_once ]; then
        command=(at_once "${command[@]}")
        rm -f "$build"/workers_[123].txt
    fi
    took=$(timed '%R' workers.txt "${command[@]}" "$@") || exit 2
    take_gauge
    if [ "$with" = at_once ]; then
        for job in 1 2 3; do
            cmp "$build/workers.txt" "$build/workers_$job.txt" || exit 2
        done
    fi
    echo "$name $with $took $(sha256sum < "$build/workers.txt" | cut -d' ' -f1) $before $gauge"
}

# As many epochs as make the work of each run alike.
rule=metropolis
for size in $sizes; do
    for sweeps in 10 1; do
        for slots in 16 2; do
            tables=workers_$slots epochs=$(epochs_at "$size" $((16 / slots * 10 / sweeps))) write_run "workers_${size}_${slots}_$sweeps"
        done
    done
done
gauge=0
fastest=0
take_gauge
for _ in $(seq "$turns"); do
    for size in $sizes; do
        for sweeps in 10 1; do
            time_run "${size}_16_$sweeps" start --until 0
            time_run "${size}_2_$sweeps" start --until 0
            for workers in 1 2 4 8; do
                time_run "${size}_16_$sweeps" "$workers" --workers "$workers"
            done
            time_run "${size}_16_$sweeps" at_once
            for workers in 1 2 4; do
                time_run "${size}_2_$sweeps" "$workers" --workers "$workers"
            done
            for pieces in 2 4; do
                time_run "${size}_2_$sweeps" "1x$pieces" --pieces "$pieces"
            done
        done
    done
done > "$build/workers.times" || exit 1

awk -v cpu="$cpu" -v limit="$limit" -v most="$(awk "BEGIN { print $steady * $fastest }")" '
    {
        name = $1
        at = name " " $2
        if (!(name in with)) { names[++count] = name; with[name] = "" }
        if (!(at in turns) && $2 != "start") with[name] = with[name] " " $2
        turns[at]++
        if (NF == 2) next
        if ($2 != "start") {
            if (!(name in left)) left[name] = $4
            if (left[name] != $4) { print name ": two outputs differ"; bad = 1 }
        }
        if ($5 > most || $6 > most) next
        counted[at]++
        if (!(at in least) || $3 + 0 < least[at]) least[at] = $3 + 0
    }
    END {
        for (at in turns) if (!counted[at]) { print at ": no run counts"; bad = 1 }
        for (i = 1; i <= count; i++) {
            name = names[i]
            split(name, part, "_")
            if (!counted[name " 1"] || !counted[name " start"]) continue
            one = least[name " 1"] - least[name " start"]
            printf "%s size %s, %s temperatures, %s sweeps: %.0f ms", cpu, part[1], part[2], part[3], one
            n = split(with[name], ways, " ")
            for (k = 2; k <= n; k++) {
                at = name " " ways[k]
                if (!counted[at]) continue
                ratio = (ways[k] == "at_once" ? 4 : 1) * one / (least[at] - least[name " start"])
                split(ways[k], way, "x")
                what = way[2] ? way[2] " pieces" : way[1] " workers"
                printf ", %s %.2f", ways[k] == "at_once" ? "four runs at once" : what, ratio
                if (ways[k] == "4" && part[2] == 16 && part[3] == 10 && ratio < limit) bad = 1
            }
            print ""
        }
        exit bad || !count
    }' "$build/workers.times"
