# What the benchmark scripts share. A script sources it after it has set passes, limit, sizes, replicas, sweeps and
# steady, each where it takes it, and a function usage. One that takes no --cpu unsets cpu then.
set -euo pipefail

script=${0##*/}
cpu=x86-64-v2
turns=5
# Those of the runs of eight.
temperatures="1.1 1.2 1.3 1.4 1.55 1.7 1.85 2.0"

fail() {
    echo "$script: $1" >&2
    exit 2
}

number() {
    case "$2" in
        '' | 0* | *[!0-9]*) fail "$1 takes a number above 0, not '$2'" ;;
        *) echo "$2" ;;
    esac
}

ratio() {
    case "$2" in
        '' | . | *[!0-9.]* | *.*.*) fail "$1 takes a ratio such as 1.5, not '$2'" ;;
    esac
}

# Refuses the word --$1 where the script has no such variable: it would do nothing.
takes() {
    [ -n "${!1+set}" ] || fail "unknown word '--$1' (see --help)"
}

check_words() {
    case "${cpu-x86-64-v2}" in
        x86-64-v2 | x86-64-v3) ;;
        *) fail "--cpu takes x86-64-v2 or x86-64-v3, not '$cpu'" ;;
    esac
    case "${replicas-1}" in
        1 | 2) ;;
        *) fail "--replicas takes 1 or 2, not '$replicas'" ;;
    esac
    ratio --limit "${limit-1}"
    case "${steady-0}" in
        0) ;;
        0* | .*) fail "--steady takes a ratio above 1, not '$steady'" ;;
        *) ratio --steady "$steady" ;;
    esac
}

# Takes the words of the command line.
read_words() {
    while [ $# -gt 0 ]; do
        case "$1" in
            --help) usage; exit 0 ;;
            --cpu) takes cpu; cpu=${2-} ;;
            --limit) takes limit; limit=${2-} ;;
            --passes) takes passes; passes=$(number --passes "${2-}") ;;
            --turns) turns=$(number --turns "${2-}") ;;
            --sweeps) takes sweeps; sweeps=$(number --sweeps "${2-}") ;;
            --steady) takes steady; steady=${2-} ;;
            --replicas) takes replicas; replicas=${2-} ;;
            --sizes) takes sizes; sizes=${2-} ;;
            *) fail "unknown word '$1' (see --help)" ;;
        esac
        shift 2 || fail "a value is missing (see --help)"
    done
    check_words
}

# The sizes that the C side runs: those for which it has code of its own, or the words of $1, which is what it runs.
check_sizes() {
    local run=${1-8 16 32 64}
    for size in $sizes; do
        case " $run " in
            *" $size "*) ;;
            *) fail "--sizes takes ${run// /, }, not '$size'" ;;
        esac
    done
}

# Goes to the repository's folder, where $build is.
begin_build() {
    cd "$(dirname "$0")/.."
    build=bench/build
    mkdir -p "$build"
}

# Builds the program crate $1 into $build by a run with the words that follow.
build_crate() {
    local crate=$1
    shift
    [ $# -eq 0 ] || set -- -- "$@"
    (cd "crates/$crate" && rt run "--cpu=$cpu" "$@") > "$build/$crate.log" 2>&1 \
        || fail "rt run failed: see $build/$crate.log"
    cp "crates/$crate/out/$crate" "$build/$crate"
}

# Goes to the repository's folder, where ./glass has to stand.
begin_with_glass() {
    cd "$(dirname "$0")/.."
    [ -x ./glass ] || fail "there is no ./glass: make builds it"
}

# What a script begins with that times whole runs: takes the words of the command line, and builds the program into $build.
begin_runs() {
    read_words "$@"
    [ -z "${sizes-}" ] || check_sizes
    begin_build
    build_crate glass plain 4 0 0 0 0 0 0 0 0 0
}

# Makes the tables $build/$1_rules.csv and $build/$1_swaps.csv of the rule $2 at the temperatures that follow.
make_tables() {
    local name=$1 rule=$2
    shift 2
    python3 tools/make_tables.py "$rule" --temperatures "$@" \
        --rules "$build/${name}_rules.csv" --swaps "$build/${name}_swaps.csv" > /dev/null || fail "make_tables.py failed"
}

# The epochs at size $1: a multiple of ten that has about as many spin updates as $passes at size 16 have, or $2 times as
# many, and 10 at the least.
epochs_at() {
    local epochs=$((passes * 4096 / $1 ** 3 * ${2-1} / 10 * 10))
    echo $((epochs < 10 ? 10 : epochs))
}

# Writes the run file $build/$1.toml. A caller sets its size, rule, tables (their name), sweeps and epochs before the call;
# samples are 64 and each tenth epoch is recorded where it sets no other.
write_run() {
    cat > "$build/$1.toml" <<END
size = $size
rule = "$rule"
rules = "${tables}_rules.csv"
swaps = "${tables}_swaps.csv"
couplings = "random"
sweeps = $sweeps
seed = 20240611
samples = ${samples-64}
epochs = $epochs
every = ${every-10}
start = "random"
spins = false
END
}

# Does the words behind $2 in $build, with their output in the file $2 there, and prints the milliseconds by $1: '%U %S' of
# the processor, '%R' by the clock. A caller goes on only where it succeeds. An older output is removed before, since to
# empty a file of many megabytes takes up to 40 of them.
timed() {
    local TIMEFORMAT=$1 out=$2 took
    shift 2
    rm -f "$build/$out"
    took=$(cd "$build" && { time "$@" > "$out"; } 2>&1) || fail "a run failed: $*: $took"
    awk '{ print ($1 + $2) * 1000 }' <<< "$took"
}

# Builds bench/$1.c and the crate $2 into $build, for the same processor.
build_sides() {
    begin_build
    gcc -O3 "-march=$cpu" "bench/$1.c" -o "$build/$1_c" || fail "gcc failed"
    build_crate "$2"
}

# Reads lines of a side (C or Rattle), a name of one or more words, a time, and what was left. Prints for
# each name the least time of both sides in the unit $1 and their ratio; status 1 where a ratio is above
# the limit, or the sides left something different. That is compared as text, since awk's numbers have 53
# bits.
compare() {
    awk -v cpu="$cpu" -v limit="$limit" -v unit="$1" '
        function shown(time) { return sprintf(time < 1000 ? "%.1f" : "%.0f", time) }
        {
            name = $2
            for (i = 3; i < NF - 1; i++) name = name " " $i
            if (!(name in left)) { names[++count] = name; left[name] = $NF "" }
            if (left[name] != $NF "") { print name ": the two sides left something different"; bad = 1 }
            at = $1 " " name
            if (!(at in least) || $(NF - 1) < least[at]) least[at] = $(NF - 1)
        }
        END {
            for (i = 1; i <= count; i++) {
                rattle = least["Rattle " names[i]]
                c = least["C " names[i]]
                if (!rattle || !c) { print names[i] ": not timed"; bad = 1; continue }
                printf "%s %-14s Rattle %s %s, C %s %s, ratio %.2f\n", cpu, names[i],
                    shown(rattle), unit, shown(c), unit, rattle / c
                if (rattle > limit * c) bad = 1
            }
            exit bad || !count
        }'
}
