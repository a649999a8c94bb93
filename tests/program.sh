#!/usr/bin/env bash
# Prints the path of the built program, for the tests that run it: the one that the variable GLASS names, else
# one that is newer than every source, ./glass or the one that `rt ci` and `rt run` leave. Where there is none
# tools/build takes it from dist/ or builds it, and what that tells goes to the error output. Status 1 where there is none
# then.
set -u
top=$(cd "$(dirname "$0")/.." && pwd) || exit 1
if [ -n "${GLASS:-}" ]; then
    if [ ! -x "$GLASS" ] || [ -d "$GLASS" ]; then
        echo "program.sh: GLASS is no program: $GLASS" >&2
        exit 1
    fi
    realpath "$GLASS"
    exit
fi

# Whether no source of a crate is newer than a file.
is_fresh() {
    [ -f "$1" ] && [ -z "$(find "$top/crates" "$top/crates.txt" -path '*/out' -prune -o \
        \( -name '*.rt' -o -name '*.antt' -o -name crates.txt \) -newer "$1" -print -quit)" ]
}

for program in "$top/glass" "$top/crates/glass/out/glass"; do
    if is_fresh "$program" && { [ -x "$program" ] || chmod +x "$program"; }; then
        echo "$program"
        exit
    fi
done
"$top/tools/build" >&2 || exit 1
echo "$top/glass"
