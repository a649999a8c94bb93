#!/usr/bin/env bash
# Makes the Debian package and the archive of a program twice, holds the package to lintian, installs it in a root of its
# own, uses it there and removes it, and uses the archive where it is unpacked.
#
#     tests/package.sh [PROGRAM]
#
# What is missing here, dpkg or lintian, is told in a line. Status: 0 where all is right, also that nothing is left; 1
# where something is not; 2 where there is no program.
set -u
cd "$(dirname "$0")/.." || exit 1
program=${1:-$(tests/program.sh)}
[ -x "$program" ] || { echo "package: there is no program $program: build it first; nothing was tested" >&2; exit 2; }
program=$(readlink -f "$program")
for needed in make git dpkg dpkg-deb; do
    command -v $needed >/dev/null || { echo "package: NOT RUN, nothing was tested: $needed is missing"; exit 0; }
done
place=$(mktemp -d)
trap 'rm -rf "$place"' EXIT
fail() {
    echo "package: FAILED: $1" >&2
    exit 1
}
# The variables of whoever tests are none of an installed tool's.
unset GLASS PYTHONDONTWRITEBYTECODE

# Both are the same bytes whoever makes them and when.
(umask 077 && tools/make_package.py --portable "$program" --wide "$program" --into "$place/one" >/dev/null) || fail "make_package"
tools/make_package.py --portable "$program" --wide "$program" --into "$place/other" >/dev/null || fail "make_package"
diff -r "$place/one" "$place/other" || fail "two packages of one program differ"
package=$(echo "$place"/one/glass_*_amd64.deb)
archive=$(echo "$place"/one/glass-*.tar.gz)

# The notice of copyright waits for the owner's choice of a licence.
if command -v lintian >/dev/null; then
    told=$(lintian --allow-root "$package" 2>&1 | grep -v '^[NI]: ' | grep -vx 'W: glass: copyright-without-copyright-notice')
    [ -z "$told" ] || fail "lintian: $told"
else
    echo "package: lintian is missing, so its rules were not tried"
fi

# Uses what lies below the prefix $1.
use() {
    local at=$1 tool
    # A spin turns against its neighbours surely: checkerboard order, in which all 192 bonds are unsatisfied.
    "$at/bin/glass" plain 4 1 7 4294967296 4294967296 4294967296 0 0 0 0 >"$place/said" || fail "$at/bin/glass plain"
    grep -qx 'energy,192' "$place/said" || fail "$at/bin/glass plain told something else: $(cat "$place/said")"
    "$at/bin/glass" no command 2>"$place/said"
    [ $? = 2 ] || fail "the status of $at/bin/glass is not the program's"
    for tool in "$at"/bin/glass-*; do
        "$tool" --help >/dev/null || fail "$tool --help"
        [ -s "$at/share/man/man1/$(basename "$tool").1.gz" ] || fail "there is no manual page of $tool"
        [ -e "$at/share/bash-completion/completions/$(basename "$tool")" ] || fail "there is no completion of $tool"
    done
    gzip -cd "$at/share/man/man1/glass.1.gz" | cmp - docs/manual/glass.1 || fail "the manual page is another"
    # A study is run in a copy, with the tools beside it.
    rm -rf "$place/copy" && cp -r "$at/share/glass" "$place/copy" || exit 1
    GLASS=$at/bin/glass "$place/copy/examples/ising_4/study" 1 >"$place/said" || fail "the example of $at"
    grep -q '^ *0  *0.3  *-2\.5' "$place/said" || fail "the example of $at told something else: $(cat "$place/said")"
}

# What bash offers for the words $2.., the last of which is begun, by the completion of the prefix $1.
offered() {
    local at=$1
    shift
    PATH=$at/bin:$PATH bash -c '. "$0/share/bash-completion/completions/glass"
        COMP_WORDS=("$@") COMP_CWORD=$(($# - 1))
        name=_glass; [ "$1" = glass ] || name=_glass_tool
        $name "$1" "${COMP_WORDS[COMP_CWORD]}" "${COMP_WORDS[COMP_CWORD - 1]}"
        echo "${COMPREPLY[*]}"' "$at" "$@"
}

complete_words() {
    [ "$(offered "$1" glass a)" = 'age average' ] || fail "completion of commands"
    [ "$(offered "$1" glass run run.toml --s)" = '--save --stop-after' ] || fail "completion of options"
    [ -z "$(offered "$1" glass run run.toml --save --)" ] || fail "an option is offered where a file stands"
    [ "$(offered "$1" glass potts 4 5 1 64 r)" = 'random' ] || fail "completion of couplings"
    [ "$(offered "$1" glass-make-seeds --cou)" = '--count --couplings' ] || fail "completion of a tool"
}

# dpkg gives files to root.
root=()
[ "$(id -u)" = 0 ] || root=(fakeroot)
if [ ${#root[@]} = 0 ] || command -v fakeroot >/dev/null; then
    at=$place/root
    mkdir -p "$at/var/lib/dpkg/info" "$at/var/lib/dpkg/updates" && : > "$at/var/lib/dpkg/status" || exit 1
    # The packages that it depends on are this machine's.
    words=(dpkg "--root=$at" --force-not-root --force-depends "--log=$place/log")
    "${root[@]}" "${words[@]}" --install "$package" >"$place/said" 2>&1 || fail "dpkg --install: $(cat "$place/said")"
    use "$at/usr"
    complete_words "$at/usr"
    "${root[@]}" "${words[@]}" --purge glass >"$place/said" 2>&1 || fail "dpkg --purge: $(cat "$place/said")"
    [ -z "$(find "$at" -name '*glass*')" ] || fail "something is left: $(find "$at" -name '*glass*')"
else
    echo "package: fakeroot is missing, so nothing was installed by dpkg"
fi

mkdir "$place/elsewhere" || exit 1
tar -C "$place/elsewhere" -xf "$archive" || fail "tar"
at=$(echo "$place"/elsewhere/glass-*)
use "$at"
# Which of the two programs is started, also through a link.
for processor in x86-64 x86-64-v3; do
    printf '#!/bin/sh\necho %s "$@"\n' $processor > "$at/lib/glass/glass-$processor"
done
ln -s "$at/bin/glass" "$place/link"
wanted=$(python3 -c 'import importlib.machinery, importlib.util, sys
sys.path.insert(0, "tools")
loader = importlib.machinery.SourceFileLoader("build", "tools/build")
build = importlib.util.module_from_spec(importlib.util.spec_from_loader("build", loader))
loader.exec_module(build)
print("x86-64-v3" if build.is_wide() else "x86-64")')
[ "$("$place/link" 'two words' more)" = "$wanted two words more" ] || fail "another program is started than that for $wanted"
echo "package: passed"
