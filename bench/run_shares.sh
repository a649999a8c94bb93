#!/usr/bin/env bash
# Says where the time of a run goes, by differences between whole runs.

usage() {
    cat <<'END'
usage: bench/run_shares.sh [--cpu CPU] [--passes N] [--turns N]

Times ./glass at size 16, 8 temperatures, Metropolis, 64 samples, each tenth epoch recorded, with 10 sweeps an
epoch and with 1, and prints what part of its processor time each of these takes:

  start     a run of no epoch
  sweeps    by twice as many sweeps an epoch
  report    records, rows and the overlaps in them: by runs in which no epoch is recorded
  exchange  what the other three leave: the sums of bonds, which the exchange asks for, and the exchange

  --cpu CPU   x86-64-v2 (as if left out) or x86-64-v3
  --passes N  epochs, 500 if left out
  --turns N   turns, 5 if left out; of each run the least time counts

Status: 0, or 2 for a wrong word or where the program can't be built. Needs rt and python3.
END
}

passes=500
. "$(dirname "$0")/common.sh"
begin_runs "$@"
size=16
rule=metropolis
# shellcheck disable=SC2086
make_tables shares_8 "$rule" $temperatures

never=1000000000
for n in 1 10; do
    sweeps=$n
    tables=shares_8 epochs=$passes write_run "share_whole_$n"
    tables=shares_8 epochs=$passes sweeps=$((2 * n)) write_run "share_more_$n"
    tables=shares_8 epochs=$passes every=$never write_run "share_silent_$n"
done
tables=shares_8 epochs=0 sweeps=1 write_run share_start

for _ in $(seq "$turns"); do
    for file in "$build"/share_*.toml; do
        name=${file##*/share_}
        took=$(timed '%U %S' share.txt ./glass run "${file##*/}") || exit 2
        echo "${name%.toml} $took"
    done
done | awk -v cpu="$cpu" '
    !($1 in least) || $2 + 0 < least[$1] { least[$1] = $2 + 0 }
    END {
        for (sweeps = 1; sweeps <= 10; sweeps += 9) {
            whole = least["whole_" sweeps]
            start = least["start"]
            sweep = least["more_" sweeps] - whole
            report = whole - least["silent_" sweeps]
            printf "%s, %d sweeps an epoch: %.0f ms; start %.1f %%, sweeps %.1f %%, exchange %.1f %%, report %.1f %%\n",
                cpu, sweeps, whole, 100 * start / whole, 100 * sweep / whole,
                100 * (whole - start - sweep - report) / whole, 100 * report / whole
        }
    }'
