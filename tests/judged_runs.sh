# How a run of the program is judged, and the files that it is given, for real_files.sh, which reads this file: it has
# set `here`, the folder of the tests, `room`, a folder with `work` and `kept` in it, and `glass`, the program.
# shellcheck shell=bash
# shellcheck disable=SC2154  # they are set by the reader
out=$room/kept/out err=$room/kept/err whole=$room/kept/whole known=$room/kept/known
runs=0 failed=0 skipped=0

# Each status of the manual with the lines that it may have, as one pattern a line.
known_lines() {
    sed -nE 's/^\| ([0-9, ]+) \| `(glass: .*)` \|$/\1|\2/p' "$here/../docs/specification/messages.md" |
        sed -E -e 's/\bFILE\b/(run file|rule table|swap table|couplings file|(second )?checkpoint|report)/' \
            -e 's/\bTABLE\b/(rule|swap) table/' -e 's/\bCHECKPOINT\b/(second )?checkpoint/' -e 's/\bDIGEST\b/[0-9a-f]{64}/g' -e 's/\bTEXT\b/[ -~]*/' \
            -e 's/: V$/: -?[0-9]+/' -e 's/key K /key [a-z]+ /' -e 's/\b[A-Z]\b/[0-9]+/g' \
            -e 's/^([0-9, ]+)\|(.*)$/^\1 \2$/' -e ':more' -e 's/^([^ ]*), /\1|/' -e 'tmore' -e 's/^\^([^ ]*) /^(\1) /'
}

make_known() {
    known_lines >"$known"
    [ "$(wc -l <"$known")" -ge 36 ] || complain "the manual's table of lines was not read"
}

complain() {
    failed=$((failed + 1))
    local text=$*
    echo "real_files: ${text:0:600}" >&2
}

skip() {
    skipped=$((skipped + 1))
    echo "real_files: skipped, $*"
}

# Judges a run that ended: judge GOT WANTED LINE WORDS. WANTED is a pattern of statuses, LINE one of lines.
judge() {
    local got=$1 wanted=$2 line=$3 words=$4 told
    runs=$((runs + 1))
    told=$(cat "$err"; echo .)
    told=${told%.}
    [[ $got =~ ^($wanted)$ ]] || complain "$words: status $got, not $wanted, with '$told'"
    if [ "$got" = 0 ]; then
        [ -z "$told" ] || complain "$words: status 0 with '$told'"
        return
    fi
    # shellcheck disable=SC2053  # the line is a pattern
    [[ $told == glass:\ $line$'\n' ]] || complain "$words: '$told', not '$line'"
    grep -qE -f "$known" <<<"$got ${told%$'\n'}" || complain "$words: status $got with '$told' is not in the manual"
    case $got in
        9 | 10) ;;
        *) [ ! -s "$out" ] || complain "$words: status $got with $(wc -c <"$out") bytes on the output" ;;
    esac
}

# Runs words with what is before them, as a limit or another user: ends WANTED LINE WORD..
as=()
ends() {
    local wanted=$1 line=$2
    shift 2
    "${as[@]}" timeout -k 1 60 "$glass" "$@" >"$out" 2>"$err" </dev/null
    judge $? "$wanted" "$line" "$*"
}

# Reads a name as one of the files: reads ROLE NAME WANTED LINE
reads() {
    local role=$1 name=$2 key
    shift 2
    case $role in
        'run file') ends "$@" check "$name" ;;
        checkpoint) ends "$@" run run.toml --from "$name" ;;
        report) ends "$@" average "$name" 1 ;;
        *)
            case $role in
                'rule table') key=rules ;;
                'swap table') key=swaps ;;
                *) key=couplings name=file:$name ;;
            esac
            sed "s|^$key = .*|$key = \"$name\"|" run.toml >other.toml
            ends "$@" check other.toml
            ;;
    esac
}

# Saves under a name, with a report that is whole: saves NAME WANTED LINE
saves() {
    local name=$1
    shift
    ends "$@" run run.toml --save "$name"
    cmp -s "$out" "$whole" || complain "--save $name: the report is not whole"
}

# Whether a name has exactly these bytes: holds NAME FILE
holds() {
    cmp -s -- "$1" "$2" || complain "$1 is not what it must be after the run"
}

# The names of a folder, to see that nothing is left behind in it.
names() {
    (cd "$1" && printf '%s\n' * .[!.]*)
}

# ---------------------------------------------------------------- the files

long=$(printf 'n%.0s' {1..255})
roles=('run file' 'rule table' 'swap table' 'couplings file' checkpoint report)

# A run of two slots and 64 samples, and each file that it can read.
make_files() {
    printf '%s\n' 'size = 4' 'rule = "heat"' 'rules = "rules"' 'swaps = "swaps"' 'couplings = "random"' 'sweeps = 1' \
        'seed = 7' 'samples = 64' 'epochs = 2' 'every = 1' 'start = "random"' 'spins = true' >run.toml
    echo '4294967296,4294967296,4294967296,0,0,0,0' >rules
    echo '0,0,0,0,0,0,4294967296' >>rules
    echo '4294967296' >swaps
    # The antiferromagnet of 64 sites, with its digest from docs/specification/couplings.md.
    # shellcheck disable=SC2001
    printf 'GLASSCJ1\0\0\0\4\0\0\0\1%b%b' "$(printf '\\xff%.0s' {1..24})" "$(
        sed 's/../\\x&/g' <<<dd5a3d2ab1a5d9264a0f11a04a9bff41ea9def8afefd907285fcfe21bcce810a)" >couplings
    ends 0 '' run run.toml --save checkpoint
    cp "$out" "$whole"
    cp "$out" report
    cp checkpoint "$room/kept/checkpoint"
    [ "$(wc -l <report)" = 514 ] || complain "the report has $(wc -l <report) lines, not 514"
    [ "$(wc -c <checkpoint)" = 10688 ] || complain "the checkpoint has $(wc -c <checkpoint) bytes, not 10688"
}

file_of() {
    case $1 in
        'run file') echo run.toml ;;
        'rule table') echo rules ;;
        'swap table') echo swaps ;;
        'couplings file') echo couplings ;;
        *) echo "$1" ;;
    esac
}
