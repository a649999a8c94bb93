#!/usr/bin/env bash
# Runs an array of three seeds under Slurm with an early signal, a killed task and a lost node, and compares each
# joined report with that of one run, byte for byte. It takes under three minutes.
#
#     tests/slurm.sh [PROGRAM]
#
# It installs Debian's Slurm and munge where they are missing, needs root for that and for its daemons, keeps all
# in a folder of its own, listens on loopback alone, and ends its daemons by their ids. Where Slurm can't be had
# it says so in a line, with status 0: then nothing was tested.
set -u
root=$(cd "$(dirname "$0")/.." && pwd -P)
program=${1:-$("$root/tests/program.sh")}
[ -x "$program" ] || { echo "slurm: there is no program glass: build it first; nothing was tested" >&2; exit 2; }
program=$(readlink -f "$program")

not_run() {
    echo "slurm: NOT RUN, nothing was tested: $1"
    exit 0
}

[ "$(id -u)" = 0 ] || not_run "its daemons need root"
if ! command -v slurmctld >/dev/null || ! command -v slurmd >/dev/null || ! command -v munged >/dev/null; then
    command -v apt-get >/dev/null || not_run "Slurm is missing, and this system has no apt-get"
    { apt-get update && DEBIAN_FRONTEND=noninteractive apt-get install -y --no-install-recommends \
        slurmctld slurmd slurm-client munge; } >/dev/null 2>&1 || not_run "Slurm's packages can't be installed"
fi

began=$SECONDS
work=$(mktemp -d /tmp/glass-slurm.XXXXXX)
cluster=$work/cluster
mkdir "$cluster"
chmod a+x "$work"
trap '"$root/tests/slurm_cluster.sh" stop "$cluster"; rm -rf "$work"' EXIT
trap 'exit 1' INT TERM
export SLURM_CONF=$cluster/slurm.conf

say() { echo "slurm: $((SECONDS - began)) s: $1"; }
fail() {
    say "FAILED: $1"
    tail -n 5 "$work"/study/task-*.log 2>/dev/null
    squeue 2>/dev/null
    exit 1
}
wait_for() { # SECONDS WHAT COMMAND ..
    local end=$((SECONDS + $1)) what=$2
    shift 2
    until "$@"; do
        [ $SECONDS -lt $end ] || fail "$what"
        sleep 0.2
    done
}
parts() {
    find "$work/study/seed-000$1/parts" -mindepth 1 -maxdepth 1 -name '[0-9]*' 2>/dev/null | wc -l
}
has_parts() { [ "$(parts "$1")" -ge "$2" ]; }
ended_as() { scontrol show job "$1" 2>/dev/null | grep -q "JobState=$2"; }
starts_again() { scontrol show job "$1" 2>/dev/null | grep -q 'Restarts=[1-9]'; }
node_of() { squeue -h -j "$1" -o %N; }
# The wrapper's sleep may hold the folder's lock for a moment yet.
is_submitted() { again=$(submitted) && [ -n "$again" ]; }
is_empty() { [ -z "$(squeue -h)" ]; }
submitted() {
    "$root/examples/slurm/start" "$work/study" --cpus-per-task=1 | sed -n 's/^Submitted batch job //p'
}

# Each part takes three seconds more than it works, so that the run lasts without much work.
cat >"$work/slow" <<END
#!/bin/sh
[ "\$1" = check ] || sleep 3
exec "$program" "\$@"
END
chmod +x "$work/slow"
mkdir "$work/template"
cp "$root"/examples/ising_4/*.csv "$work/template"
sed 's/^epochs = .*/epochs = 200000/; s/^every = .*/every = 6000/; s/^samples = .*/samples = 64/
    s/^couplings = .*/couplings = "random"/; s/^sweeps = .*/sweeps = 1/; s/^spins = .*/spins = true/' \
    "$root/examples/ising_4/run.toml" >"$work/template/run.toml"
"$root/tools/make_seeds.py" "$work/template/run.toml" --count 3 --into "$work/study" || exit 1
"$root/tests/slurm_cluster.sh" start "$cluster" || fail "Slurm doesn't start"
say "two nodes are up"

export GLASS=$work/slow PART_TIME=0:00:10
array=$(submitted)
[ -n "$array" ] || fail "the array is not taken"
for seed in 1 2 3; do wait_for 30 "task $seed makes no part" has_parts $seed 1; done
say "three tasks are at work"

scancel --batch --signal=USR1 "${array}_1"
kill -9 "$(sed -n 's/.* pid \([0-9]*\) .*/\1/p' "$work/study/seed-0002/lock")"
wait_for 30 "the killed task doesn't fail" ended_as "${array}_2" FAILED
wait_for 20 "the killed task is not submitted again" is_submitted
[ "$(squeue -h -r -j "$again" -o %K)" = 2 ] || fail "not the killed task alone is submitted again"
say "task 2 was killed and failed, and is submitted again"
wait_for 30 "task 1 doesn't begin again" starts_again "${array}_1"
say "task 1 was warned, and begins again"
node=$(node_of "${array}_3")
kill -9 "$(cat "$cluster/run/slurmd-$node.pid")"
wait_for 60 "the task of the lost node doesn't begin again" starts_again "${array}_3"
say "$node was lost, and its task begins again"
"$root/tests/slurm_cluster.sh" node "$cluster" "$node"
wait_for 120 "the tasks don't end" is_empty
say "the queue is empty"

"$root/examples/slurm/collect" "$work/study" --skip 20000 || fail "the folders are not whole"
for seed in 1 2 3; do
    (cd "$work/study/seed-000$seed" && "$program" run run.toml >"$work/whole") || fail "one run"
    cmp "$work/whole" "$work/study/seed-000$seed/report" || fail "seed $seed has another report than one run"
done
say "passed: three reports are those of one run each, $(parts 1), $(parts 2) and $(parts 3) parts"
