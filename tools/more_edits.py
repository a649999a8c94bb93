#!/usr/bin/env python3
"""Tries the edits that the gate leaves out, those of tests/more_edits/CRATE: each changes a line of the crate's code
to a wrong one, and the crate's own contracts must refuse it.

    tools/more_edits.py [CRATE ...]

Without a name it takes every crate that has such edits, which is an hour of processor time and more: before a release.
The crates are copied into a temporary folder with what is kept of their libraries. There the edits take the place of
those of must-fail/, and `rt must-fail` tries them. Its lines are passed on; the last one says how many were refused.

--check says whether each edit can still be applied: the text that it changes stands once in its file. It needs no kit.
--self-test runs the tests of this tool.

Status: 0 where each edit is refused, or can be applied; 1 where one is not, with a line for each; 2 for a wrong word."""
import contextlib
import io
import os
import shutil
import subprocess
import sys
import tempfile
from pathlib import Path
from typing import Dict, List, Optional, Sequence

FOLDER = "tests/more_edits"
REFUSED = "refused, as it must be"
# What a crate's contracts are tried on: its parts that a check reads, and its library as it was last made.
PARTS = ("src", "specs", "proofs", "out/rlib")


def edits_of(root: Path) -> Dict[str, List[Path]]:
    """The edits of each crate that has some."""
    found: Dict[str, List[Path]] = {}
    for edit in sorted((root / FOLDER).glob("*/*.edit")):
        found.setdefault(edit.parent.name, []).append(edit)
    return found


def why_not(edit: Path, crate: Path) -> Optional[str]:
    """Why an edit can't be applied to its crate; nothing where it can."""
    text, old, pairs = "", None, 0
    for line in edit.read_text(encoding="utf-8").splitlines():
        if line.startswith("file: "):
            file = crate / line[len("file: "):].strip()
            if not file.is_file():
                return f"there is no file {file.relative_to(crate)}"
            text = file.read_text(encoding="utf-8")
        elif line.startswith("old: "):
            old = line[len("old: "):]
            if text.count(old) != 1:
                return f"its text stands {text.count(old)} times in the file: {old}"
        elif line.startswith("new:"):
            if old is None:
                return "it has a new text without an old one"
            text, old, pairs = text.replace(old, line[len("new:"):].removeprefix(" ")), None, pairs + 1
    return None if pairs else "it changes nothing"


def stale_edits(root: Path) -> List[str]:
    """The edits that can't be applied, a line each."""
    found: List[str] = []
    for crate, edits in edits_of(root).items():
        reasons = {it: why_not(it, root / "crates" / crate) for it in edits}
        found += [f"{it.relative_to(root)}: {why}" for it, why in reasons.items() if why]
    return found


def link_or_copy(source: str, target: str) -> None:
    """Makes a file of the copy. A kept library is large and is never written over: `rt` removes it and makes it anew."""
    try:
        os.link(source, target)
    except OSError:
        shutil.copy2(source, target)


def copy_crates(root: Path, room: Path, edits: Dict[str, List[Path]]) -> None:
    """Copies the crates into a folder, with these edits in must-fail/ and no others."""
    for name in ("crates.txt", "HANDLES"):
        shutil.copy2(root / name, room / name)
    for crate in (root / "crates").iterdir():
        for part in PARTS:
            if (crate / part).is_dir():
                copy = link_or_copy if part.startswith("out") else shutil.copy2
                shutil.copytree(crate / part, room / "crates" / crate.name / part, copy_function=copy)
    for name, files in edits.items():
        (room / "crates" / name / "must-fail").mkdir(parents=True)
        for file in files:
            shutil.copy2(file, room / "crates" / name / "must-fail")


def lines_of_rt(room: Path, command: Sequence[str]) -> List[str]:
    """Runs a command in the copy, passes its lines on and returns them."""
    lines: List[str] = []
    with subprocess.Popen(command, cwd=room, stdout=subprocess.PIPE, text=True, errors="replace") as running:
        for line in running.stdout or ():
            print(line, end="", flush=True)
            lines.append(line.rstrip("\n"))
    return lines


def not_refused(root: Path, names: Sequence[str], command: Sequence[str]) -> List[str]:
    """Tries the edits of these crates by a command that takes their names, and returns those that weren't refused."""
    edits = {name: files for name, files in edits_of(root).items() if name in names}
    with tempfile.TemporaryDirectory(prefix="more-edits-") as at:
        room = Path(at)
        copy_crates(root, room, edits)
        lines = lines_of_rt(room, [*command, *edits])
    tried = [f"{name}/{it.name}" for name, files in edits.items() for it in files]
    refused = {it for it in tried if any(f"must-fail {it}: {REFUSED}" in line for line in lines)}
    print(f"more_edits: {len(refused)} of {len(tried)} edits were refused", flush=True)
    return [f"{it} was not refused" for it in tried if it not in refused]


def fail(lines: List[str]) -> int:
    """Prints the lines on the error output. Returns the exit status."""
    for line in lines:
        print(f"more_edits: {line}", file=sys.stderr)
    return 1 if lines else 0


# Refuses each edit that stands in must-fail/ but those whose name begins with "kept".
STAND_IN = """
import pathlib, sys
for name in sys.argv[1:]:
    for edit in sorted(pathlib.Path("crates", name, "must-fail").iterdir()):
        said = "NOT REFUSED" if edit.name.startswith("kept") else "refused, as it must be: src/lib.rt:1:1: error"
        print(f"rt: must-fail {name}/{edit.name}: {said}")
"""


def make_small_repository(root: Path) -> None:
    """Makes a repository of one crate with one edit in must-fail/ and three that are tried on demand."""
    for folder in ("crates/c/src", "crates/c/must-fail", f"{FOLDER}/c"):
        (root / folder).mkdir(parents=True)
    for name in ("crates.txt", "HANDLES"):
        (root / name).write_text("")
    (root / "crates/c/src/lib.rt").write_text("one\ntwo\ntwo\n")
    (root / "crates/c/must-fail/kept_one.edit").write_text("file: src/lib.rt\nold: one\nnew: two\n")
    (root / FOLDER / "c/no_one.edit").write_text("file: src/lib.rt\nold: one\nnew:\n")
    (root / FOLDER / "c/no_two.edit").write_text("file: src/lib.rt\nold: two\nnew: one\n")
    (root / FOLDER / "c/kept_three.edit").write_text("file: src/gone.rt\nold: one\nnew: two\n")


def self_test() -> int:
    """Tests the tool on a small repository and a stand-in for rt. Returns the exit status."""
    stale = [f"{FOLDER}/c/kept_three.edit: there is no file src/gone.rt",
             f"{FOLDER}/c/no_two.edit: its text stands 2 times in the file: two"]
    with tempfile.TemporaryDirectory() as at, contextlib.redirect_stdout(io.StringIO()):
        root = Path(at)
        make_small_repository(root)
        stand_in = root / "stand_in.py"
        stand_in.write_text(STAND_IN)
        found = {"stale": (stale_edits(root), stale),
                 "of one crate": (not_refused(root, ["c"], [sys.executable, str(stand_in)]),
                                  ["c/kept_three.edit was not refused"]),
                 "rt says nothing": (not_refused(root, ["c"], ["true"]),
                                     [f"c/{it}.edit was not refused" for it in ("kept_three", "no_one", "no_two")]),
                 "of none": (not_refused(root, [], ["true"]), [])}
    wrong = [f"self-test: {name}: {it} in place of {wanted}" for name, (it, wanted) in found.items() if it != wanted]
    if not wrong:
        print(f"more_edits: {len(found)} tests passed")
    return fail(wrong)


def main(words: List[str]) -> int:
    root = Path(__file__).resolve().parent.parent
    edits = edits_of(root)
    if words == ["--help"]:
        print(__doc__)
        return 0
    if words == ["--self-test"]:
        return self_test()
    if words == ["--check"]:
        stale = stale_edits(root)
        if not stale:
            print(f"more_edits: {sum(map(len, edits.values()))} edits can be applied")
        return fail(stale)
    unknown = [it for it in words if it not in edits]
    if unknown:
        print(f"more_edits: {unknown[0]} has no edits in {FOLDER}; --help says more", file=sys.stderr)
        return 2
    return fail(not_refused(root, words or list(edits), ["rt", "must-fail"]))


if __name__ == "__main__":
    sys.exit(main(sys.argv[1:]))
