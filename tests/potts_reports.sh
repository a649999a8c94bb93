#!/usr/bin/env bash
# Compares reports of `glass potts` byte by byte with those of tools/plain_potts.py, which goes one sample and
# one site at a time over plain lists: four runs, with each word for the couplings and the start. Words that are no
# command both refuse with status 2.
#
#     tests/potts_reports.sh [PROGRAM]
#
# Status: 0 where all reports are equal; 1 where one is not, or is refused; 2 where there is no program.
set -u
cd "$(dirname "$0")/.." || exit 1
program=${1:-$(tests/program.sh)}
[ -x "$program" ] || { echo "potts_reports: there is no program $program: build it first; nothing was tested" >&2; exit 2; }
program=$(readlink -f "$program")
place=$(mktemp -d)
trap 'rm -rf "$place"' EXIT

status=0
while read -r line; do
    read -ra words <<<"$line"
    if ! { "$program" potts "${words[@]}" > "$place/report" &&
        python3 tools/plain_potts.py "${words[@]}" > "$place/plain" && cmp "$place/report" "$place/plain"; }; then
        echo "potts_reports: FAILED: potts $line" >&2
        status=1
    fi
done <<'END'
4 5 1 64 random random 1746203392 709953319 288645479 117354494 47712777 19398567
6 4 9223372036854775807 3 random zero 3000000000 2000000000 1200000000 700000000 400000000 200000000
8 3 0 2 plus random 4294967296 2147483648 1 0 0 0
10 2 12345 1 plus zero 4294967296 4294967296 4294967296 4294967296 4294967296 4294967296
END
while read -r line; do
    read -ra words <<<"$line"
    "$program" potts "${words[@]}" > "$place/out" 2> "$place/err"
    refused=$?
    python3 tools/plain_potts.py "${words[@]}" > "$place/plain" 2> "$place/err"
    refused="$refused $?"
    if [ "$refused" != "2 2" ] || [ -s "$place/out" ] || [ -s "$place/plain" ] || [ "$(wc -l < "$place/err")" != 1 ]; then
        echo "potts_reports: FAILED: potts $line has the statuses $refused" >&2
        status=1
    fi
done <<'END'
5 1 1 1 plus zero 0 0 0 0 0 0
66 1 1 1 plus zero 0 0 0 0 0 0
4 1000001 1 1 plus zero 0 0 0 0 0 0
4 1 9223372036854775808 1 plus zero 0 0 0 0 0 0
4 1 -1 1 plus zero 0 0 0 0 0 0
4 1 1 0 plus zero 0 0 0 0 0 0
4 1 1 65 plus zero 0 0 0 0 0 0
4 1 1 1 minus zero 0 0 0 0 0 0
4 1 1 1 plus up 0 0 0 0 0 0
4 1 1 1 plus zero 0 0 0 0 0 4294967297
4 1 1 1 plus zero 0 0 0 0 0
END
[ "$status" -ne 0 ] || echo "potts_reports: all right"
exit "$status"
