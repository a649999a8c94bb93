#!/usr/bin/env bash
# Compares writing and reading of the greatest checkpoint with the time that sha2 alone takes over its bytes.

usage() {
    cat <<'END'
usage: bench/checkpoint.sh [--cpu CPU] [--turns N] [--limit RATIO]

Times processes that make the beginning of a run at size 64 with 32 slots, the greatest of all, and then do one
piece of work: none, the plan's digest, the checkpoint written, and, once it is written, its digest taken by the
crate sha2 or its bytes read. The differences of their least processor times are the times of the pieces. It
prints them, the ratios of writing and reading to sha2, and the most memory that the one that reads took. First
a state that was read is written again, and must be the same bytes.

  --cpu CPU      x86-64-v2 (as if left out) or x86-64-v3
  --turns N      turns, 5 if left out
  --limit RATIO  the greatest ratio that is right, 1.5 if left out

Status: 0 where no ratio is above the limit, the plan's digest takes at most 0.2 s and the memory is at most
1.05 times the file and the state, the plan besides; 1 where one is not so or the bytes are others; 2 for a
wrong word or where the program can't be built. Needs rt and GNU time as /usr/bin/time.
END
}

limit=1.5
. "$(dirname "$0")/common.sh"
read_words "$@"
begin_build
build_crate bench_kernels
program="$build/bench_kernels"
told=$("$program" checkpoint 64 again) || { echo "the state that was read is not written as the same bytes"; exit 1; }
bytes=$(awk '{ print $3 }' <<< "$told")

# One run with a piece of work: its name, the seconds of processor time and the most kilobytes.
run_work() {
    /usr/bin/time -f "$1 %U %S %M" "$program" checkpoint 64 "$1" 2>&1 > /dev/null || fail "a run failed: $1"
}

# Turns come first, so that a busy moment of the machine doesn't fall on all those of one piece of work.
for _ in $(seq "$turns"); do
    for work in opening plan encode sha2 decode; do
        run_work "$work"
    done
done > "$build/checkpoint.times"

# The state has the spins and the generators of its file in as many bytes, 12 more for each generator.
awk -v bytes="$bytes" -v limit="$limit" -v cpu="$cpu" '
    { at = $2 + $3; if (!($1 in least) || at < least[$1]) least[$1] = at; if ($4 > most[$1]) most[$1] = $4 }
    END {
        plan = least["plan"] - least["opening"]
        encode = least["encode"] - least["opening"]
        sha2 = least["sha2"] - least["encode"]
        decode = least["decode"] - least["encode"]
        wanted = 2 * bytes / 1024
        printf "%s size 64, 32 slots: %d bytes\n", cpu, bytes
        printf "digest of the plan %.2f s, sha2 alone %.2f s\n", plan, sha2
        printf "written %.2f s, ratio %.2f; read %.2f s, ratio %.2f\n", encode, encode / sha2, decode, decode / sha2
        printf "most memory of the one that reads: %d KB, %.3f of the file and the state\n", most["decode"], most["decode"] / wanted
        exit encode > limit * sha2 || decode > limit * sha2 || plan > 0.2 || most["decode"] > 1.05 * wanted
    }' "$build/checkpoint.times"
