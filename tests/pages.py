#!/usr/bin/env python3
"""Runs the commands of manual pages, and compares what they print with what the pages show.

    python3 tests/pages.py PROGRAM [PAGE ..]        all pages of docs/manual, where none is named
    python3 tests/pages.py --write PROGRAM PAGE ..  puts what is printed into these pages, for a reader to look at
    python3 tests/pages.py --not-run                the blocks of docs/manual that it leaves out, each with its reason
    python3 tests/pages.py --self-test

A page is read from its top, and its commands go to one shell. A block that is indented by four blanks is of
commands; a block between ``` is what the blocks of commands before it print, output and errors together, since the
last one. Under a heading nothing may be printed that the page doesn't show, and where nothing is shown the last
command of each block ends with status 0. A block between ```text and ``` is neither.
An indented block whose first line begins with "$ " has commands behind that mark, and between them what they print.

Behind a line `<!-- not run: REASON -->` the next block of commands is left out. Behind `<!-- differs: PATTERN -->` the
next shown block is compared without what the pattern finds, in it and in what is printed, as times and names of machines.

The folder is a new one with the program as ./glass, which is also found as glass, the tools, and copies of the examples
and of the manual. Commands begin there, or in the folder of it that a line `<!-- commands begin in FOLDER -->` names.

Pages with the line `<!-- needs arrays -->` have as python3 the first Python with numpy, scipy, matplotlib and h5py. Where
none has them these pages are skipped, with a line.

Status: 0 where all is as the pages say, 1 where something is not, with a line a fault, 2 for a wrong word."""
import os
import re
import shutil
import subprocess
import sys
import tempfile
from pathlib import Path
from typing import Iterator, List, NamedTuple, Optional, Tuple

TOP = Path(__file__).resolve().parent.parent
MANUAL = "docs/manual"
NEEDS_ARRAYS = "<!-- needs arrays -->"
BEGIN = re.compile(r"^<!-- commands begin in (\S+) -->$", re.MULTILINE)
NOT_RUN = re.compile(r"<!-- not run: (.+) -->")
DIFFERS = re.compile(r"<!-- differs: (.+) -->")
MARK = "@@ end of block"


class Segment(NamedTuple):
    """A part of a page: commands, shown output or a heading, with the number of its first line and the mark before it."""

    kind: str
    line: int
    text: str
    mark: str


class Step(NamedTuple):
    """Blocks of commands, what they are to print, and the page's lines at which the first one and what is shown begin.
    What the pattern finds is not compared."""

    line: int
    blocks: List[str]
    shown: str
    differs: str
    shown_line: int


def segments(page: str) -> Iterator[Segment]:
    """What a page has of commands, of shown output and of headings."""
    lines = page.splitlines()
    at, mark = 0, ""
    while at < len(lines):
        start, line = at, lines[at]
        at += 1
        if line.startswith("```"):
            while at < len(lines) and not lines[at].startswith("```"):
                at += 1
            if line == "```":
                yield Segment("shown", start + 1, "".join(text + "\n" for text in lines[start + 1:at]), mark)
            at += 1
        elif line.startswith("    ") and (start == 0 or not lines[start - 1].strip()):
            while at < len(lines) and (lines[at].startswith("    ") or not lines[at].strip()):
                at += 1
            block = "\n".join(text[4:] for text in lines[start:at]).strip()
            if NOT_RUN.fullmatch(mark) or not block.startswith("$ "):
                yield Segment("commands", start + 1, block, mark)
            else:
                yield from dialogue(block, start + 1, mark)
        elif line.startswith("#"):
            yield Segment("heading", start + 1, line, "")
        if line.strip():
            mark = line if line.startswith("<!-- ") else ""


def dialogue(block: str, start: int, mark: str) -> Iterator[Segment]:
    """The commands and the outputs of a block of both."""
    for part in re.split(r"^(?=\$ )", block, flags=re.MULTILINE)[1:]:
        command, _, shown = part.partition("\n")
        yield Segment("commands", start, command[2:], mark)
        yield Segment("shown", start, shown.rstrip("\n") + "\n" if shown.strip() else "", mark)


def steps(page: str) -> Iterator[Step]:
    """The steps of a page in their order; one whose output isn't shown is to print nothing."""
    start, blocks = 0, []  # type: int, List[str]
    for kind, line, text, mark in (*segments(page), Segment("heading", 0, "the end", "")):
        if kind == "commands" and not NOT_RUN.fullmatch(mark):
            start = start if blocks else line
            blocks.append(text)
        elif kind != "commands" and blocks:
            differs = DIFFERS.fullmatch(mark)
            yield Step(start, blocks, text if kind == "shown" else "", differs[1] if differs else "(?!)", line)
            blocks = []


def left_out(name: str, page: str) -> Iterator[str]:
    """The blocks of a page that are not run, each with its place and reason."""
    for segment in segments(page):
        reason = NOT_RUN.fullmatch(segment.mark)
        if segment.kind == "commands" and reason:
            yield f"{name}:{segment.line}: {segment.text.splitlines()[0]}: {reason[1]}"


def script(found: List[Step]) -> str:
    """The commands of all steps, each block with a line behind it that tells its status."""
    return "".join(f"{block}\necho \"{MARK} $?\"\n" for step in found for block in step.blocks)


def ran(found: List[Step], folder: Path, begin: str) -> List[str]:
    """What the blocks of all steps print, each with the line of its status, in one shell."""
    environment = {**os.environ, "PATH": f"{folder}{os.pathsep}{os.environ.get('PATH', '')}", "PYTHONUNBUFFERED": "1", "PYTHONDONTWRITEBYTECODE": "1", "LC_ALL": "C.UTF-8"}
    output = subprocess.run(["bash"], input=script(found), cwd=folder / begin, env=environment, stdout=subprocess.PIPE,
                            stderr=subprocess.STDOUT, universal_newlines=True, check=False).stdout
    return re.findall(rf"(?:.*\n)*?{MARK} \d+\n", output)


def printed(page: str, folder: Path) -> Iterator[Tuple[Step, str, List[str]]]:
    """Each step with what its blocks print together, and their statuses."""
    found = list(steps(page))
    begin = BEGIN.search(page)
    blocks = iter(ran(found, folder, begin[1] if begin else "."))
    for step in found:
        parts = [next(blocks, f"{MARK} none\n").rpartition(MARK) for _ in step.blocks]
        yield step, "".join(output for output, _, _ in parts), [status.strip() for _, _, status in parts]


def rewritten(page: str, folder: Path) -> str:
    """The page with what its commands print where it shows something else."""
    lines = page.splitlines(keepends=True)
    for step, text, _ in reversed(list(printed(page, folder))):
        at, old = step.shown_line, step.shown.splitlines(keepends=True)
        if old and lines[at:at + len(old)] == old and re.sub(step.differs, "", text) != re.sub(step.differs, "", step.shown):
            lines[at:at + len(old)] = text.splitlines(keepends=True)
    return "".join(lines)


def faults(name: str, page: str, folder: Path) -> Iterator[str]:
    """What a page's commands do otherwise than it says."""
    for step, text, statuses in printed(page, folder):
        for block, status in zip(step.blocks, statuses):
            if status != "0" and not step.shown:
                yield f"{name}:{step.line}: status {status} of {block.splitlines()[-1]}"
        if re.sub(step.differs, "", text) != re.sub(step.differs, "", step.shown):
            pairs = zip(text.splitlines() + ["(its end)"], step.shown.splitlines() + ["(its end)"])
            one, other = next(((got, shown) for got, shown in pairs
                               if re.sub(step.differs, "", got) != re.sub(step.differs, "", shown)), (text, step.shown))
            yield f"{name}:{step.line}: the commands print {one!r}, and the page shows {other!r}"


def prepare(folder: Path, program: Path) -> None:
    """Puts the program, the tools and the examples into a folder."""
    shutil.copy(program, folder / "glass")
    # A copy, since a tool looks for the program beside its own folder.
    shutil.copytree(TOP / "tools", folder / "tools", ignore=shutil.ignore_patterns("__pycache__"))
    shutil.copytree(TOP / "examples", folder / "examples", ignore=shutil.ignore_patterns("__pycache__", "seed_*"))
    shutil.copytree(TOP / MANUAL, folder / MANUAL)


def named_python3(folder: Path, python: str) -> None:
    """Leaves a command of this name that is another Python; a link to one of a virtual environment would lose its packages."""
    command = folder / "python3"
    command.write_text(f'#!/bin/sh\nexec "{python}" "$@"\n')
    command.chmod(0o755)


def python_with_arrays() -> Optional[str]:
    """The first Python that has what the tools for figures need."""
    for name in ("python3", "/usr/bin/python3"):
        found = shutil.which(name)
        if found and subprocess.run([found, "-c", "import h5py, matplotlib, numpy, scipy"], stderr=subprocess.DEVNULL,
                                    check=False).returncode == 0:
            return found
    return None


def self_test() -> int:
    """Tests the tool on small pages, each with the lines of its faults."""
    cases = {
        "Text\n\n    echo a\n\n```\na\n```\n": [], "Text\n\n    echo a\n\n```\nb\n```\n": [3],
        "    a=1\n\nText\n\n    echo $a\n\n```\n1\n```\n": [], "    echo a\n": [1], "    echo a\n\n# Next\n": [1],
        "    false\n": [1], "<!-- not run: why -->\n\n    false\n\nText\n\n    true\n": [],
        "<!-- not run: why -->\n\nText\n\n    false\n": [5], "<!-- not run: why -->\n\n    $ false\n\n    true\n\nText\n\n    false\n": [9],
        "    echo a 12 s\n\n<!-- differs: \\d+ s -->\n```\na 7 s\n```\n": [],
        "    echo a 12 s\n    echo b\n\n<!-- differs: \\d+ s -->\n```\na 7 s\nc\n```\n": [1],
        "    echo a 12 s\n\n```\na 7 s\n```\n": [1], "```text\nno output\n```\n\n    echo a\n\n```text\nb\n```\n\n```\na\n```\n": [],
        "    false\n    echo a >&2; false\n\n```\na\n```\n": [],
        "    cat <<'END'\n    x\n    END\n\n```\nx\n```\n": [],
        "    echo a >&2\n    echo b\n\nText\n\n```\na\nb\n```\n\n    echo c\n\n```\nd\n```\n": [11],
        "    $ echo a; echo b\n    a\n    b\n    $ echo c\n    d\n": [1],
        "    $ a=1\n\nText\n\n    $ echo $a >&2; false\n    1\n": [],
        "<!-- commands begin in / -->\n\n    $ pwd\n    /\n": [],
        "```\nonly shown\n```\n": [], "    echo a\n\n    echo b\n\n```\na\nb\n```\n": [], "    exit 0\n": [1]}
    with tempfile.TemporaryDirectory() as name:
        for page, wanted in cases.items():
            found = [int(fault.split(":")[1]) for fault in faults("page", page, Path(name))]
            if found != wanted:
                print(f"pages: self-test: {page!r}: faults at {found}, not {wanted}", file=sys.stderr)
                return 1
        page = "    seq 3\n\n```\n9\n8\n```\n\n    echo a 3 s\n\n<!-- differs: \\d s -->\n```\na 7 s\n```\n"
        if rewritten(page, Path(name)) != page.replace("9\n8\n", "1\n2\n3\n"):
            print(f"pages: self-test: {page!r} is not written anew", file=sys.stderr)
            return 1
    print(f"pages: {len(cases) + 1} tests passed")
    return 0


def main(words: List[str]) -> int:
    if words == ["--help"]:
        print(__doc__)
        return 0
    if words == ["--self-test"]:
        return self_test()
    pages = sorted(path.relative_to(TOP).as_posix() for path in (TOP / MANUAL).glob("*.md"))
    if words == ["--not-run"]:
        print("".join(f"{it}\n" for name in pages for it in left_out(name, (TOP / name).read_text(encoding="utf-8"))), end="")
        return 0
    is_writing = words[:1] == ["--write"] and len(words) > 2
    words = words[is_writing:]
    if not words or words[0].startswith("-") or not Path(words[0]).is_file():
        print("pages: name the program, and pages behind it; --help says more", file=sys.stderr)
        return 2
    found: List[str] = []
    python, passed = python_with_arrays(), []
    for name in words[1:] or pages:
        page = (TOP / name).read_text(encoding="utf-8")
        if NEEDS_ARRAYS in page and python is None:
            print(f"pages: {name} is skipped: no Python has numpy, scipy, matplotlib and h5py")
            continue
        passed.append(name)
        with tempfile.TemporaryDirectory() as folder:
            prepare(Path(folder), Path(words[0]))
            if NEEDS_ARRAYS in page:
                named_python3(Path(folder), str(python))
            if is_writing:
                (TOP / name).write_text(rewritten(page, Path(folder)), encoding="utf-8")
            else:
                found += faults(name, page, Path(folder))
    for fault in found:
        print(fault, file=sys.stderr)
    if not found:
        print(f"pages: {'written' if is_writing else 'passed'}, {', '.join(passed)}")
    return 1 if found else 0


if __name__ == "__main__":
    sys.exit(main(sys.argv[1:]))
