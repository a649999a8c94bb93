#!/usr/bin/env bash
# Installs the program, the tools and the manual page below a new folder, uses them there, and takes them away.
#
#     tests/install.sh [PROGRAM]
#
# Status: 0 where all is right, also that nothing is left; 1 where something is not; 2 where there is no program.
set -u
cd "$(dirname "$0")/.." || exit 1
program=${1:-$(tests/program.sh)}
[ -x "$program" ] || { echo "install: there is no program $program: build it first; nothing was tested" >&2; exit 2; }
command -v make >/dev/null || { echo "install: NOT RUN, nothing was tested: make is missing"; exit 0; }
program=$(readlink -f "$program")
place=$(mktemp -d)
trap 'rm -rf "$place"' EXIT
fail() {
    echo "install: FAILED: $1" >&2
    exit 1
}

make -s install DESTDIR="$place/stage" PREFIX=/opt/glass PROGRAM="$program" || fail "make install"
at=$place/stage/opt/glass
cmp "$program" "$at/bin/glass" || fail "the program is another"
for file in man/man1/glass.1 bash-completion/completions/glass doc/glass/docs/manual/tutorial.md doc/glass/examples/ising_4/study; do
    [ -f "$at/share/$file" ] || fail "there is no $file"
done
# The variables of whoever tests are none of an installed tool's.
unset GLASS PYTHONDONTWRITEBYTECODE
for tool in "$at"/bin/glass-*; do
    "$tool" --help >/dev/null || fail "$tool --help"
done
# A run by the installed tools alone: they find the program beside them.
mkdir "$place/template" || exit 1
cp examples/glass_8/run.toml examples/glass_8/*.csv "$place/template"
"$at/bin/glass-make-seeds" "$place/template/run.toml" --into "$place/study" >/dev/null || fail "glass-make-seeds"
"$at/bin/glass-long-run" run "$place/study/seed-0001" >/dev/null || fail "glass-long-run"
described=$("$at/bin/glass-describe" "$place/study/seed-0001") || fail "glass-describe: $described"
grep -qx '  whole' <<<"$described" || fail "glass-describe tells no whole folder: $described"
[ -s "$place/study/seed-0001/report.toml" ] || fail "glass-long-run leaves no manifest"
cp "$place/study/seed-0001/report" "$place/template/report"
"$at/bin/glass-manifest" "$place/template/run.toml" "$place/template/report" >/dev/null || fail "glass-manifest"
"$at/bin/glass-make-tables" heat --range 1 2 --slots 3 --rules "$place/rules.csv" --swaps "$place/swaps.csv" >/dev/null \
    || fail "glass-make-tables"
(cd "$place/template" && "$at/bin/glass" age run.toml 1 1 1) > "$place/aged.txt" || fail "glass age"
"$at/bin/glass-correlations" "$place/aged.txt" >/dev/null || fail "glass-correlations"
for python in python3 /usr/bin/python3; do
    "$python" -c 'import matplotlib, numpy, scipy' 2>/dev/null || continue
    "$python" "$at/bin/glass-estimate" means "$place/study/seed-0001/report" --plot "$place/means.png" >/dev/null \
        || fail "glass-estimate"
    [ -s "$place/means.png" ] || fail "glass-estimate draws nothing"
    break
done
make -s uninstall DESTDIR="$place/stage" PREFIX=/opt/glass || fail "make uninstall"
[ -z "$(find "$place/stage" ! -type d)" ] || fail "something is left: $(find "$place/stage" ! -type d)"
[ ! -e "$at/share/glass" ] || fail "a folder is left"
echo "install: passed"
