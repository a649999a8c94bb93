# What the scripts of the examples share. A script reads it with its own words: it goes to the script's folder, answers
# --help with the script's first comment, and names the program and Python.
# shellcheck shell=bash
# shellcheck disable=SC2034  # the scripts use them
set -eu -o pipefail
cd "$(dirname "$0")"
script=$(basename "$0")
if [ "${1:-}" = --help ]; then
    sed -n '2,/^[^#]/s/^# \{0,1\}//p' "$script"
    exit 0
fi
program=${GLASS:-../../glass}
python=${PYTHON:-python3}

refuse() {
    echo "$script: $1" >&2
    exit 2
}

needs_program() {
    [ -x "$program" ] && [ ! -d "$program" ] || refuse "there is no program $program: make builds it, and GLASS names another"
}

# Before anything is run, so that no time is lost.
needs_arrays() {
    "$python" -c 'import matplotlib, numpy, scipy' 2>/dev/null \
        || refuse "$python lacks numpy, scipy or matplotlib (tools/glass_analysis/README.md); PYTHON names another Python"
}

# Refuses $1 where it is no whole number from $2 on, which is what $3 says.
check_number() {
    case $1 in
        *[!0-9]* | '' | 0*) refuse "$3 is a whole number from $2 on: $1" ;;
    esac
    [ "$1" -ge "$2" ] || refuse "$3 is a whole number from $2 on: $1"
}
