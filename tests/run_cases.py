#!/usr/bin/env python3
"""Runs the cases of tests/cases against the built program, each in a temporary folder of its own, and holds each call to
its status, its bytes on the output, its line on the error output and the files that it leaves.

    tests/run_cases.py ./glass            every table
    tests/run_cases.py ./glass run age    tables by their names
    tests/run_cases.py --self-test        whether a wrong expectation of each kind is noticed

tests/README.md says how a table is written. It needs Python 3.11 or later.

Status: 0 where all passed, 1 where one failed, with a line on the error output for each fault, 2 for wrong words."""
import sys
import tempfile
from pathlib import Path
from typing import Any, Dict, Iterator, List, Set

sys.dont_write_bytecode = True
from case_calls import call, faults_of, faults_of_sum, files_now, shorter_rooms  # noqa: E402
from case_files import CASES, WrongTable, give  # noqa: E402

try:
    import tomllib
except ImportError:
    sys.exit("run_cases: Python 3.11 or later is wanted, which reads TOML")

Table = Dict[str, Any]
GIVEN = {"files", "change", "pad", "lost", "folders"}
EXPECTED = {"status", "out", "begins", "sha256", "rows", "line", "line_begins", "saved"}
CALLED = {"words", "room", "mute", "each_room"}
OF_CASE = {"name", "steps", "adds_up"}


def joined(case: Table, row: Any) -> Table:
    """A case with one row of its list `each`: what the row says of a key stands in place of the case's, of a table's
    names in place of those names. A row that is a text is the words."""
    if isinstance(row, str):
        row = {"words": row}
    found = {key: it for key, it in case.items() if key != "each"}
    for key, it in row.items():
        found[key] = {**found[key], **it} if isinstance(it, dict) and isinstance(found.get(key), dict) else it
    return found


def parts_of(table: Table) -> Iterator[Table]:
    """The cases of a table, one for each row of those that have a list. One whose list is empty keeps it, a key that is
    refused."""
    for case in table["case"]:
        yield from [joined(case, row) for row in case.get("each", [{}])] or [case]


def known(keys: Table, allowed: Set[str]) -> None:
    """Refuses a key that no case has."""
    if set(keys) - allowed:
        raise WrongTable(f"unknown keys: {', '.join(sorted(set(keys) - allowed))}")


def faults_of_step(program: str, step: Table, named: Table, folder: Path, outputs: List[bytes]) -> Iterator[str]:
    """Calls the program for one step of a case, and yields its faults; first with each lesser room, where that is asked.
    What it printed goes behind the other outputs."""
    if "words" not in step:
        raise WrongTable("a step without words")
    for lesser in shorter_rooms(step, named, folder) if step.get("each_room") else []:
        before = files_now(folder)
        yield from faults_of(lesser, call(program, lesser, folder), before, named, folder)
    before = files_now(folder)
    ended = call(program, step, folder)
    outputs.append(ended.out)
    yield from faults_of(step, ended, before, named, folder)


def faults_of_case(program: str, case: Table, table: Table, folder: Path) -> Iterator[str]:
    """Runs a case in an empty folder, and yields what is otherwise than expected."""
    named, outputs = table.get("named", {}), []
    known(case, GIVEN | OF_CASE if "steps" in case else GIVEN | OF_CASE | CALLED | EXPECTED)
    if not case.get("steps", [case]) or "name" not in case:
        raise WrongTable("a case without steps or a name")
    give({"files": table.get("files", {})}, named, folder)
    give(case, named, folder)
    for step in case.get("steps", [case]):
        if "steps" in case:
            known(step, GIVEN | CALLED | EXPECTED)
            give(step, named, folder)
        yield from faults_of_step(program, step, named, folder, outputs)
    yield from faults_of_sum(case, outputs)


def failures(program: str, file: Path) -> Iterator[List[str]]:
    """The faults of each case of a table, in their order: none where it passed."""
    table = tomllib.loads(file.read_text(encoding="utf-8"))
    known(table, {"files", "named", "case"})
    for case in parts_of(table):
        with tempfile.TemporaryDirectory(prefix="glass_case_") as folder:
            found: List[str] = []
            try:
                for fault in faults_of_case(program, case, table, Path(folder)):
                    found.append(fault)
            except (WrongTable, OSError, LookupError, ValueError) as wrong:
                found.append(f"{type(wrong).__name__}: {wrong}")
        yield [f"{file.stem}: {case.get('name')}: {it}" for it in found]


def run_tables(program: str, files: List[Path]) -> int:
    """Runs tables, tells their faults and prints how many cases passed. Returns the exit status."""
    found = [faults for file in files for faults in failures(program, file)]
    for line in (line for faults in found for line in faults):
        print(f"run_cases: {line}", file=sys.stderr)
    failed = sum(1 for faults in found if faults)
    print(f"cases: {len(found) - failed} passed, {failed} failed")
    return 1 if failed or not found else 0


def main(words: List[str]) -> int:
    if words == ["--help"]:
        print(__doc__)
        return 0
    if words == ["--self-test"]:
        import run_cases_test
        return run_cases_test.self_test()
    files = {file.stem: file for file in sorted(CASES.glob("*.toml"))}
    if not words or not Path(words[0]).is_file() or set(words[1:]) - set(files):
        print(f"run_cases: the words are a program and names of tables: {', '.join(files)}", file=sys.stderr)
        return 2
    return run_tables(str(Path(words[0]).resolve()), [files[name] for name in words[1:] or files])


if __name__ == "__main__":
    sys.exit(main(sys.argv[1:]))
