#!/usr/bin/env bash
# Compares runs of a large lattice in one piece with the same runs in pieces and on two workers. In one piece the
# last sweep of an epoch counts the unsatisfied bonds on its way, in both replicas of a slot by turns; in pieces
# they are counted behind the sweeps. Report and checkpoint must be the same, byte for byte.
#
#     tests/large_lattices.sh [PROGRAM]
#
# Status: 0 where all are equal; 1 where one is not, or a run fails; 2 where there is no program.
set -u
cd "$(dirname "$0")/.." || exit 1
program=${1:-$(tests/program.sh)}
[ -x "$program" ] || { echo "large_lattices: there is no program $program: build it first; nothing was tested" >&2; exit 2; }
program=$(readlink -f "$program")
place=$(mktemp -d)
trap 'rm -rf "$place"' EXIT

# Two slots, three epochs of two sweeps, each recorded.
write_run() {
    cat > "$place/run.toml" <<END
size = $1
rule = "$2"
rules = "$2_rules.csv"
swaps = "$2_swaps.csv"
couplings = "random"
sweeps = 2
seed = 20240611
samples = 64
epochs = 3
every = 1
start = "random"
spins = true
END
}

# The report and the checkpoint of the run with the words behind a name.
run() {
    (cd "$place" && name=$1 && shift && "$program" run run.toml "$@" --save "$name.checkpoint" > "$name.report")
}

status=0
for rule in metropolis heat; do
    python3 tools/make_tables.py "$rule" --temperatures 1.1 1.2 \
        --rules "$place/${rule}_rules.csv" --swaps "$place/${rule}_swaps.csv" > /dev/null || exit 1
    for size in 48 56 64; do
        write_run "$size" "$rule"
        if ! { run whole && run pieces --pieces 3 && run workers --workers 2 &&
            cmp "$place/whole.report" "$place/pieces.report" && cmp "$place/whole.report" "$place/workers.report" &&
            cmp "$place/whole.checkpoint" "$place/pieces.checkpoint" &&
            cmp "$place/whole.checkpoint" "$place/workers.checkpoint"; }; then
            echo "large_lattices: FAILED: size $size, $rule" >&2
            status=1
        fi
    done
done
[ "$status" -ne 0 ] || echo "large_lattices: all right"
exit "$status"
