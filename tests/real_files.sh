#!/usr/bin/env bash
# Runs the built program on files, pipes, disks and limits that fail, and holds each run to the status and the line
# of the manual (docs/specification/messages.md): with 2 to 8, 11 and 12 nothing is on the output, with 9 a front of
# the text, with 0 and 10 all of it; no part of a checkpoint ever stands under the name of --save; and the program
# never ends by a signal. What can't be made here, another user or a small disk, is skipped with a line.
#
#     tests/real_files.sh        status 0 where every run ended as it must, 1 where one did not or there is no program
#
# The variable GLASS names another program than the repository's. It takes about half a minute.
set -u
here=$(cd "$(dirname "$0")" && pwd) || exit 1
built=$("$here/program.sh") || { echo "real_files: there is no program, so nothing was run" >&2; exit 1; }

room=$(mktemp -d) || exit 1
disk=''
# Ends what was begun: the small disk and the folder.
finish() {
    cd / || exit 1
    [ -z "$disk" ] || umount "$disk" 2>/dev/null
    rm -rf "$room"
}
trap finish EXIT
chmod 711 "$room"
mkdir "$room/work" "$room/kept" && cd "$room/work" || exit 1
glass=$room/glass
cp "$built" "$glass" && chmod 755 "$glass" || exit 1
# shellcheck source=tests/judged_runs.sh
. "$here/judged_runs.sh"

# ---------------------------------------------------------------- what is read

# What each role says of a file without bytes, and of one that does not end.
nothing_in() {
    case $1 in
        'run file') reads "$1" "$2" 3 'key size is missing' ;;
        'rule table' | 'swap table') reads "$1" "$2" 4 "the $1 has 0 records, not 1" ;;
        'couplings file') reads "$1" "$2" 5 'the couplings file is too short: 0 bytes' ;;
        checkpoint) reads "$1" "$2" 6 'the checkpoint is too short: 0 bytes' ;;
        report) reads "$1" "$2" 12 'the report is wrong at line 0' ;;
    esac
}

no_end_in() {
    case $1 in
        'run file') reads "$1" "$2" 3 'the run file is too long: 1048577 bytes' ;;
        'rule table') reads "$1" "$2" 4 'the rule table is too long: 65537 bytes' ;;
        'swap table') reads "$1" "$2" 4 'the swap table is too long: 4194305 bytes' ;;
        'couplings file') reads "$1" "$2" 5 'the couplings file is too long: 25165873 bytes' ;;
        # A machine may lack the memory for the greatest checkpoint.
        checkpoint) reads "$1" "$2" '6|11' '@(the checkpoint is too long: 544943597 bytes|no memory)' ;;
        report) reads "$1" "$2" 12 'the report is too long: 67108865 bytes' ;;
    esac
}

wrong_files() {
    local role
    mkdir folder
    ln -s nowhere dangling
    ln -s round round
    for role in "${roles[@]}"; do
        reads "$role" absent 7 "the $role is not held"
        reads "$role" dangling 7 "the $role is not held"
        reads "$role" folder 8 "reading the $role failed"
        reads "$role" . 8 "reading the $role failed"
        reads "$role" run.toml/x 8 "reading the $role failed"
        reads "$role" round 8 "reading the $role failed"
        # It is opened, and then each read fails, as on a disk with a fault.
        reads "$role" /proc/self/mem 8 "reading the $role failed"
        nothing_in "$role" /dev/null
        no_end_in "$role" /dev/zero
    done
}

# No permission binds root, so the program runs as another user.
without_permission() {
    local role
    as=()
    if [ "$(id -u)" = 0 ]; then
        as=(setpriv --reuid=65534 --regid=65534 --clear-groups)
        if ! "${as[@]}" true 2>/dev/null; then
            skip "files without permission: no other user can be taken here"
            as=()
            return
        fi
    fi
    mkdir shut closed
    cp run.toml shut/x
    cp run.toml secret
    chmod 0 secret shut
    for role in "${roles[@]}"; do
        reads "$role" secret 8 "reading the $role failed"
        reads "$role" shut/x 8 "reading the $role failed"
    done
    cp checkpoint closed/c
    chmod 444 closed/c
    chmod 555 closed
    saves closed/d 10 'placing the checkpoint failed'
    saves closed/c 10 'placing the checkpoint failed'
    saves shut/c 10 'placing the checkpoint failed'
    holds closed/c "$room/kept/checkpoint"
    [ "$(ls -A closed)" = c ] || complain "a folder without permission has $(ls -A closed)"
    chmod 755 shut closed
    as=()
}

# Names of 1 and 255 bytes, and names that begin with hyphens.
names_of_files() {
    local role name
    for role in "${roles[@]}"; do
        for name in n "$long" - -n -- --n; do
            cp -- "$(file_of "$role")" "./$name"
            case $role$name in
                'run file--'* | report--*) reads "$role" "$name" 2 'the command line is not understood' ;;
                *) reads "$role" "$name" 0 '' ;;
            esac
            rm -- "./$name"
        done
    done
    for name in n "$long" - -n -- --n; do
        saves "$name" 0 ''
        holds "./$name" checkpoint
        ends 0 '' run run.toml "--from=$name" "--save=$name"
        holds "./$name" checkpoint
        rm -- "./$name"
    done
    for name in '' "n$long" $'\xff'; do
        ends 2 'the command line is not understood' check "$name"
        ends 2 'the command line is not understood' run run.toml --from "$name"
        ends 2 'the command line is not understood' run run.toml --save "$name"
        ends 2 'the command line is not understood' average "$name" 1
    done
    ends 2 'the command line is not understood'
    ends 2 'the command line is not understood' --help
}

# A text over and over again, up to a number of bytes: over_and_over TEXT BYTES
over_and_over() {
    yes "$1" | tr -d '\n' | head -c "$2"
}

# Run files that are deep, wide or long: none takes the program past its stack or its time.
huge_run_files() {
    local text
    for text in '[' '{a=' 1 '"' '\' '[[],' '0x'; do
        { printf 'size = '; over_and_over "$text" 1000000; echo; } >huge
        ends 3 'the run file is not TOML' check huge
    done
    { printf 'size = '; over_and_over '[' 500000; over_and_over ']' 500000; echo; } >huge
    ends 3 'the run file is not TOML' check huge
    { over_and_over 'a.' 1000000; echo 'a = 1'; } >huge
    ends 3 '@(the run file is not TOML|key size is missing)' check huge
    { echo -n '['; over_and_over 'a.' 1000000; echo 'a]'; } >huge
    ends 3 '@(the run file is not TOML|key size is missing)' check huge
    seq 80000 | sed 's/.*/k& = 0/' >huge
    ends 3 'key size is missing' check huge
    { cat run.toml; yes '[[t]]' | head -n 160000; } >huge
    ends 3 'unknown key t' check huge
    { sed '/^rules/d' run.toml; echo -n 'rules = "'; over_and_over n 1000000; echo '"'; } >huge
    ends 3 'key rules has an unknown word' check huge
    { cat run.toml; echo -n '"'; over_and_over 'é' 1000000; echo '" = 0'; } >huge
    ends 3 'unknown key *' check huge
    [ "$(tr -d -c '?' <"$err" | wc -c)" = 1000000 ] || complain "a long unknown key is not told whole"
    rm huge
}

# A pipe gives its bytes in two parts, and one gives bytes without end; a file gets longer while it is read.
files_that_grow() {
    local role file writer k
    for role in "${roles[@]}"; do
        file=$(file_of "$role")
        rm -f pipe
        mkfifo pipe
        { head -c 10 "$file"; sleep 0.1; tail -c +11 "$file"; } >pipe &
        reads "$role" pipe 0 ''
        wait $!
    done
    { cat run.toml; exec yes '# more'; } >pipe 2>/dev/null &
    reads 'run file' pipe 3 'the run file is too long: 1048577 bytes'
    wait $!
    cp run.toml longer
    cp checkpoint longer.c
    (
        for ((k = 0; k < 50000; k++)); do
            echo '# more' >&7
            echo '# more' >&8
        done
    ) 7>>longer 8>>longer.c &
    writer=$!
    for ((k = 0; k < 20; k++)); do
        reads 'run file' longer 0 ''
        reads checkpoint longer.c '0|6' 'the checkpoint has +([0-9]) bytes, not 10688'
    done
    kill $writer 2>/dev/null
    wait $writer 2>/dev/null
    rm longer longer.c
}

# ---------------------------------------------------------------- what is written

commands=('plain 4 1 7 0 0 0 0 0 0 0' 'check run.toml' 'run run.toml --save never' 'average report 4')

# Runs each command with an output that fails: fails_to NAME, with the output at descriptor 8
fails_to() {
    local words
    for words in "${commands[@]}"; do
        : >"$out"
        # shellcheck disable=SC2086  # the words of a command
        timeout -k 1 60 "$glass" $words >&8 2>"$err" </dev/null
        judge $? 9 'writing the report failed' "$words > $1"
    done
    [ ! -e never ] || complain "a checkpoint was placed behind a report that failed"
}

outputs_that_fail() {
    local signal words
    fails_to /dev/full 8>/dev/full
    fails_to 'an output for reading alone' 8</dev/null
    for signal in --default-signal=PIPE --ignore-signal=PIPE; do
        for words in "${commands[@]}"; do
            exec 8> >(:)
            wait $!
            : >"$out"
            # shellcheck disable=SC2086  # the words of a command
            env "$signal" "$glass" $words >&8 2>"$err" </dev/null
            judge $? 9 'writing the report failed' "$words | (ended), $signal"
            exec 8>&-
        done
    done
    for words in "${commands[@]}"; do
        : >"$out"
        # shellcheck disable=SC2086  # the words of a command
        timeout -k 1 60 "$glass" $words 2>"$err" </dev/null >&-
        judge $? 9 'writing the report failed' "$words, no output"
    done
    # A reader that goes away in the middle of a report that no pipe holds.
    {
        "$glass" run run.toml --until 50 2>"$err" </dev/null
        echo $? >"$room/kept/status"
    } | head -c 100 >"$room/kept/front"
    : >"$out"
    judge "$(cat "$room/kept/status")" 9 'writing the report failed' 'run --until 50 | head -c 100'
    # An error output that fails changes no status.
    "$glass" check absent 2>/dev/full >"$out"
    judge_silent $? 7 'check absent 2> /dev/full'
    exec 8> >(:)
    wait $!
    env --default-signal=PIPE "$glass" check absent 2>&8 >"$out"
    judge_silent $? 7 'check absent 2> (ended)'
    exec 8>&-
    "$glass" check absent 2>&- >"$out"
    judge_silent $? 7 'check absent, no error output'
}

judge_silent() {
    runs=$((runs + 1))
    if [ "$1" != "$2" ] || [ -s "$out" ]; then
        complain "$3: status $1, not $2, or bytes on the output"
    fi
}

checkpoints_that_fail() {
    local before
    before=$(names .)
    saves nowhere/c 10 'placing the checkpoint failed'
    saves folder 10 'placing the checkpoint failed'
    saves . 10 'placing the checkpoint failed'
    saves folder/ 10 'placing the checkpoint failed'
    saves run.toml/c 10 'placing the checkpoint failed'
    saves round 10 'placing the checkpoint failed'
    saves /dev/full 10 'placing the checkpoint failed'
    [ "$(names .)" = "$before" ] || complain "a checkpoint that failed left a file: $(names .)"
    # What stands and is no regular file is written as it stands.
    saves /dev/null 0 ''
    [ -c /dev/null ] || complain "/dev/null was replaced"
    rm -f pipe
    mkfifo pipe
    cat pipe >through &
    saves pipe 0 ''
    wait $!
    holds through checkpoint
    ln -s target link
    saves link 0 ''
    holds target checkpoint
    [ -L link ] || complain "a link was replaced"
    # What a run left that was killed while it placed a file is removed.
    echo 'a part' >.both.new
    # One name for what is read and what is saved.
    cp checkpoint both
    ends 0 '' run run.toml --from both --save both
    holds both checkpoint
    cp run.toml both
    ends 0 '' run both --save both
    holds both checkpoint
    [ ! -e .both.new ] || complain "the new file of an earlier run still stands"
    rm through both pipe link target
}

# A disk of two pages: a report of 90 KB and a checkpoint of 11 KB don't fit.
full_disk() {
    mkdir small
    if ! mount -t tmpfs -o size=8k none small 2>/dev/null; then
        skip "a full disk: no small disk can be mounted here"
        return
    fi
    disk=$room/work/small
    timeout -k 1 60 "$glass" run run.toml --save small/c >small/out 2>"$err" </dev/null
    judge $? 9 'writing the report failed' 'run run.toml > small/out'
    if [ ! -s small/out ] || ! cmp -s -n "$(wc -c <small/out)" small/out "$whole"; then
        complain "small/out is no front of the report"
    fi
    [ ! -e small/c ] || complain "a checkpoint stands behind a report that failed"
    rm small/out
    saves small/c 10 'placing the checkpoint failed'
    [ -z "$(ls -A small)" ] || complain "a checkpoint that did not fit left $(ls -A small)"
    echo 'an older one' >small/c
    cp small/c "$room/kept/older"
    saves small/c 10 'placing the checkpoint failed'
    holds small/c "$room/kept/older"
    [ "$(ls -A small)" = c ] || complain "a checkpoint that did not fit left $(ls -A small)"
    umount small
    disk=''
}

# Saves under a limit of 8 KB for a file, less than a checkpoint, into a pipe: sized HOW NAME, HOW sets what the signal
# does
sized() {
    {
        (eval "$1"; ulimit -f 8; exec "$glass" run run.toml --save "$2" 2>"$err" </dev/null)
        echo $? >"$room/kept/status"
    } 2>/dev/null | cat >"$out"
    cmp -s "$out" "$whole" || complain "run under a limit of 8 KB: the report is not whole"
    holds "$2" "$room/kept/older"
}

# A limit on the length of files is a full disk where its signal is ignored. Else the system kills the program with
# half a checkpoint written, as at any kill: the older one stands whole, and the next run removes what is left.
limited_length() {
    local name=$1 new=$2
    echo 'an older one' >"$name"
    cp "$name" "$room/kept/older"
    sized "trap '' XFSZ" "$name"
    judge "$(cat "$room/kept/status")" 10 'placing the checkpoint failed' 'run --save under a limit of 8 KB'
    [ ! -e "$new" ] || complain "a checkpoint that did not fit left its new file $new"
    sized : "$name"
    [ "$(cat "$room/kept/status")" -gt 128 ] || complain "a limit of 8 KB did not kill the program: $(cat "$room/kept/status")"
    [ -e "$new" ] || complain "a killed run left no new file $new"
    saves "$name" 0 ''
    holds "$name" checkpoint
    [ ! -e "$new" ] || complain "the new file $new of a killed run still stands"
    rm "$name"
}

# So many dots: dots COUNT
dots() {
    printf '%*s' "$1" '' | tr ' ' .
}

# Names up to the greatest length. Behind a dot and before .new, 250 bytes of the last one would be the name itself.
limited_lengths() {
    limited_length sized .sized.new
    limited_length "$(over_and_over n 250)" ".$(over_and_over n 250).new"
    limited_length "$(over_and_over n 251)" ".$(over_and_over n 245).new"
    limited_length "$(dots 251).new" "$(dots 246).new"
}

# ---------------------------------------------------------------- memory

# Runs words with less and less address space, from 10 MB up in steps: limited STEP WORD..
limited() {
    local step=$1 kilobytes last=11 none=0
    shift
    for ((kilobytes = 10240; kilobytes <= 1048576; kilobytes += step)); do
        rm -f limited.c
        timeout -k 1 60 bash -c 'ulimit -v "$1" && shift && exec "$@"' '' "$kilobytes" "$glass" "$@" \
            >"$out" 2>"$err" </dev/null
        last=$?
        judge $last '0|11' 'no memory' "$* in $kilobytes KB"
        [ $last = 11 ] && none=$((none + 1))
        [ $last != 11 ] || [ ! -e limited.c ] || complain "$* in $kilobytes KB: a checkpoint without a report"
        [ $last = 11 ] || break
    done
    [ $last = 0 ] || complain "$*: it did not end with status 0 in any memory"
    echo "real_files: $* has status 11 in $none limits of memory, and 0 in $kilobytes KB"
}

# Runs of 32 slots, which take some 25 MB and little time.
little_memory() {
    sed -e 's/^size = .*/size = 20/' -e 's/^samples = .*/samples = 1/' -e 's/^spins = .*/spins = false/' \
        -e 's/"rules"/"rules32"/' -e 's/"swaps"/"swaps32"/' run.toml >big.toml
    yes '4294967296,4294967296,4294967296,2147483648,0,0,0' | head -n 32 >rules32
    yes '4294967296,2147483648' | head -n 31 >swaps32
    ends 0 '' run big.toml --until 0 --save big
    limited 512 run big.toml --until 1 --workers 2 --pieces 2 --save limited.c
    limited 512 run big.toml --until 1 --from big --save limited.c
    # The caller's stack has a call for each worker.
    limited 512 run big.toml --until 1 --workers 32
    rm big
}

make_known
make_files
wrong_files
without_permission
names_of_files
huge_run_files
files_that_grow
outputs_that_fail
checkpoints_that_fail
full_disk
limited_lengths
little_memory
if [ "$failed" -gt 0 ]; then
    echo "real_files: $failed of the checks of $runs runs failed" >&2
    exit 1
fi
echo "real_files: $runs runs ended with their status and line, $skipped parts were skipped"
