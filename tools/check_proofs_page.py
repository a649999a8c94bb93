#!/usr/bin/env python3
"""Holds docs/proofs/source.md to the sources.

The pages below docs/proofs are made of it (tools/proofs_pages.py). Each row of its tables names public calls and clauses,
definitions, edits and tests. Each of these must exist in crates/, or where edits are named as tried on demand in
tests/more_edits/, or where tests are named as cases in tests/cases/. Each edit, test, case and public call must be named
on the page, an edit, a test and a case with the place where it stands. A definition that is named behind a file of specs/
must stand in that file; so must those of the tables of nouns and of laws. The benchmarks' crates and those of tests alone
owe no rows for their calls.

--self-test runs the tests of this tool.

Status: 0 where page and sources agree, 1 where they do not, with a line a difference, 2 for a wrong word."""
import re
import sys
import tempfile
from pathlib import Path
from typing import Dict, Iterator, List, Set, Tuple

import source_check

PAGE = "docs/proofs/source.md"
# Crates whose calls nobody outside calls.
WITHOUT_ROWS = re.compile(r"bench_\w+|glass|\w+_tests")
WORD = re.compile(r"[A-Za-z_][A-Za-z0-9_]*")
# Names of edits and tests are sentences: they have an underscore.
SENTENCE = re.compile(r"[a-z0-9]+(?:_[a-z0-9]+)+")
# A crate in front of edits, what ends its part of a cell, or an edit, perhaps with a crate in brackets behind it.
NAMED_EDIT = re.compile(r"in (?P<front>\w+):|(?P<end>;)|(?P<name>[a-z0-9]+(?:_[a-z0-9]+)+)(?: \[(?P<behind>\w+)\])?")
# What stands in a cell in front of the edits that the gate leaves out.
ON_DEMAND = "on demand:"
# Tests, and in brackets behind them the place where they stand.
NAMED_TESTS = re.compile(r"([^\[\];]+)(?:\[(\w+)\])?")
# That place, of cases that run against the built program, and how a table of them names one.
CASES = "cases"
NAME_OF_CASE = re.compile(r'^name = "(\w+)"$', re.M)
# What a file of specs/ defines: definitions and fields of records, and behind spaces the cases of types.
DEFINED = re.compile(r"^ *(?:(?:abbrev |unfoldable )?pub (?:record |data )?| +(?=\w+ :))(\w+)", re.M)
# A definition in backticks, a semicolon, or a word that may be a crate, a file or what is not the page's ("std's").
NAMED = re.compile(r"`(?P<code>[^`]*)`|(?P<end>;)|(?P<word>[A-Za-z_][A-Za-z0-9_]*(?:'s)?)")
# The columns of a row.
PROMISE, CALLS, DEFINITIONS, EDITS, TESTS, SILENCE = range(6)
# An edit with its crate.
Edit = Tuple[str, str]
# Of the other tables that name definitions: the heads of their columns, and the crate of a definition without one.
OTHER_TABLES = {("the noun", "its definition"): (1, ""),
                ("the law read aloud", "function", "statement", "what it doesn't say"): (2, "model_laws")}


class Sources:
    """What the crates have: their edits, tests, clauses, words, and public calls."""

    def __init__(self, root: Path) -> None:
        self.crates: Set[str] = set()
        self.edits: Set[Edit] = set()
        self.more_edits: Set[Edit] = {(it.parent.name, it.stem) for it in root.glob("tests/more_edits/*/*.edit")}
        self.tests: Set[str] = set()
        self.cases: Set[str] = {name for it in root.glob("tests/cases/*.toml")
                                for name in NAME_OF_CASE.findall(it.read_text(encoding="utf-8"))}
        self.clauses: Set[str] = set()
        self.words: Set[str] = set()
        self.files: Dict[Tuple[str, str], Set[str]] = {}
        self.file_names: Set[str] = set()
        self.calls: Dict[str, Set[str]] = {}
        for crate in sorted(it for it in (root / "crates").iterdir() if it.is_dir()):
            self.crates.add(crate.name)
            self.edits |= {(crate.name, it.stem) for it in crate.glob("must-fail/*.edit")}
            code = {it: it.read_text(encoding="utf-8") for it in sorted(crate.glob("src/**/*.rt"))}
            for text in code.values():
                self.read_code(text)
            for file in crate.glob("specs/**/*.antt"):
                specs = file.read_text(encoding="utf-8")
                self.words |= set(WORD.findall(specs)) | {file.stem}
                self.files[crate.name, file.stem] = set(DEFINED.findall(specs))
                self.file_names.add(file.stem)
            self.words |= {it.stem for it in crate.glob("proofs/**/*.antt")}
            if not WITHOUT_ROWS.fullmatch(crate.name):
                self.calls[crate.name] = public_calls(code)

    def read_code(self, text: str) -> None:
        """Takes the words, tests and clauses of a source file."""
        self.words |= set(WORD.findall(text))
        self.tests |= set(re.findall(r"#\[test\]\s*fn (\w+)", text))
        self.clauses |= set(re.findall(r"(?:ensures|requires)\*? (\w+)", text))


def handed_out(root_file: str) -> Set[str]:
    """The names that a crate's root file hands out."""
    names: Set[str] = set()
    for path in re.findall(r"^pub use ([^;]+);", root_file, re.M):
        names |= set(WORD.findall(path.rsplit("::", 1)[-1] if "{" not in path else path.split("{", 1)[1]))
    return names


def public_calls(code: Dict[Path, str]) -> Set[str]:
    """The functions, and the methods of types, that a crate hands out."""
    roots = [text for file, text in code.items() if file.name == "lib.rt"]
    names = handed_out(roots[0]) if roots else set()
    calls: Set[str] = set()
    for text in code.values():
        calls |= {it for it in re.findall(r"^pub fn (\w+)", text, re.M) if it in names}
        for block in re.findall(r"^impl[^\n]*\{\n(?:(?!^\}).*\n)*", text, re.M):
            head = block.split("{", 1)[0]
            if " for " not in head and names & set(WORD.findall(head)):
                calls |= set(re.findall(r"^    pub fn (\w+)", block, re.M))
    return calls


def cells_of(line: str) -> List[str]:
    """The cells of a line of a table; none of another line."""
    return [it.strip() for it in line.strip().split("|")[1:-1]]


def rows_of(page: str) -> Iterator[List[str]]:
    """The rows of promises, by their cells."""
    for line in page.splitlines():
        cells = cells_of(line)
        if len(cells) == 6 and not set(line) <= set("|- ") and cells[PROMISE] != "promise":
            yield cells


def others_of(page: str) -> Iterator[Tuple[str, str, str]]:
    """Of each row of the other tables: its first cell, its definitions, and the crate of one that names none."""
    column, crate = -1, ""
    for line in page.splitlines():
        cells = cells_of(line)
        if not cells:
            column = -1
        elif tuple(cells) in OTHER_TABLES:
            column, crate = OTHER_TABLES[tuple(cells)]
        elif column >= 0 and not set(line) <= set("|- "):
            yield cells[0], cells[column], crate


def misplaced(cell: str, crate: str, ends: bool, has: Sources) -> Iterator[str]:
    """What a cell names behind a file of specs/ that this file does not define. The crate is the one that stands in
    front, or the given one; where a semicolon ends a file, it ends a crate too."""
    at, file = crate, ""
    for it in NAMED.finditer(cell):
        if it["end"]:
            at, file = (crate, "") if ends else (at, file)
        elif it["code"] is not None:
            if file and WORD.fullmatch(it["code"]) and it["code"] not in has.files[at, file]:
                yield f"{at}/specs/{file}.antt does not define {it['code']}"
        elif (at, it["word"]) in has.files:
            file = it["word"]
        elif it["word"] in has.crates:
            at, file = it["word"], ""
        elif it["word"].endswith("'s"):
            file = ""
        elif it["word"] in has.file_names:
            file = ""
            yield f"{at or 'no crate'} has no file specs/{it['word']}.antt"


def without_asides(cell: str) -> str:
    """A cell without what stands in parentheses and brackets."""
    return re.sub(r"\([^)]*\)|\[[^\]]*\]", " ", cell)


def named_clauses(cell: str) -> Set[str]:
    """The clauses that a cell of calls names: the words behind a call and a colon, up to the next call."""
    clauses: Set[str] = set()
    for after in re.findall(r"`:([^`;]*)", without_asides(cell)):
        clauses |= set(SENTENCE.findall(after)) | set(re.findall(r"(?:^|,)\s*([a-z]+)(?=\s*(?:,|$))", after))
    return clauses


def crate_of(cells: List[str]) -> str:
    """The crate of a row's first call; nothing where it names none."""
    first_call = re.match(r"`(\w+)::", cells[CALLS])
    return first_call[1] if first_call else ""


def edits_in(part: str, crate: str, crates: Set[str]) -> Iterator[Edit]:
    """The edits that part of a cell names, each with the crate behind it, else the one in front, else the given one."""
    at = crate
    for it in NAMED_EDIT.finditer(re.sub(r"\([^)]*\)|`[^`]*`", " ", part)):
        if it["end"]:
            at = crate
        elif it["front"]:
            at = it["front"] if it["front"] in crates else at
        else:
            yield it["behind"] or at, it["name"]


def edits_of(cells: List[str], has: Sources) -> Tuple[Set[Edit], Set[Edit]]:
    """The edits that a row names: those that the gate tries, and those that are tried on demand."""
    tried, _, more = cells[EDITS].partition(ON_DEMAND)
    return set(edits_in(tried, crate_of(cells), has.crates)), set(edits_in(more, crate_of(cells), has.crates))


def tests_of(cells: List[str]) -> Tuple[Set[str], Set[str]]:
    """The tests of crates that a row names, and the cases of tests/cases."""
    tests: Set[str] = set()
    cases: Set[str] = set()
    for names, place in NAMED_TESTS.findall(re.sub(r"\([^)]*\)|`[^`]*`", " ", cells[TESTS])):
        (cases if place == CASES else tests).update(SENTENCE.findall(names))
    return tests, cases


def faults_of_row(cells: List[str], has: Sources) -> Iterator[str]:
    """What a row names that the sources don't have."""
    names = has.crates | has.words
    for word in WORD.findall(" ".join(re.findall(r"`([^`]*)`", cells[CALLS] + cells[DEFINITIONS]))):
        if word not in names and word not in ("antt", "specs", "docs"):
            yield f"no source has the word {word}"
    for clause in sorted(named_clauses(cells[CALLS]) - has.clauses - names):
        yield f"no contract has a clause {clause}"
    tried, more = edits_of(cells, has)
    for crate, edit in sorted(tried - has.edits):
        yield f"{crate} has no edit {edit} in must-fail"
    for crate, edit in sorted(more - has.more_edits):
        yield f"tests/more_edits/{crate} has no edit {edit}"
    tests, cases = tests_of(cells)
    for test in sorted(tests - has.tests):
        yield f"there is no test {test}"
    for case in sorted(cases - has.cases):
        yield f"tests/cases has no case {case}"
    yield from misplaced(cells[DEFINITIONS], crate_of(cells), True, has)
    if any(it in ("both", "same", "the same", "all") or it.startswith("all ") for it in cells[EDITS : TESTS + 1]):
        yield "edits or tests are not named but counted"


def differences(root: Path) -> List[str]:
    """Where the page and the sources differ, a line each."""
    page = (root / PAGE).read_text(encoding="utf-8")
    has, named = Sources(root), set(re.findall(r"[A-Za-z0-9_]+", page))
    found = [f"{(cells[CALLS] if cells[PROMISE] == '=' else cells[PROMISE])[:60]}: {it}"
             for cells in rows_of(page) for it in faults_of_row(cells, has)]
    for first, cell, crate in others_of(page):
        found += [f"{first[:60]}: {it}" for it in misplaced(cell, crate, False, has)]
    edits = [edits_of(cells, has) for cells in rows_of(page)]
    tried, more = set().union(*(it for it, _ in edits)), set().union(*(it for _, it in edits))
    found += [f"the edit {crate}/{it} is not named" for crate, it in sorted(has.edits - tried)]
    found += [f"the edit {crate}/{it} is not named as tried on demand" for crate, it in sorted(has.more_edits - more)]
    tests = [tests_of(cells) for cells in rows_of(page)]
    found += [f"the test {it} is not named" for it in sorted(has.tests.difference(*(it for it, _ in tests)))]
    found += [f"the case {it} is not named" for it in sorted(has.cases.difference(*(it for _, it in tests)))]
    for crate, calls in has.calls.items():
        found += [f"the call {crate}::{it} is not named" for it in sorted(calls - named)]
    return found


def make_small_repository(root: Path) -> None:
    """Makes a repository of two crates, three edits, one of them tried on demand, and a case."""
    for folder in ("crates/c/src", "crates/c/specs", "crates/c/must-fail", "crates/d/specs", "docs/proofs",
                   "crates/d/must-fail", "tests/more_edits/c", "tests/cases"):
        (root / folder).mkdir(parents=True)
    (root / "crates/c/src/lib.rt").write_text(
        "pub use adding::f;\npub fn f()\n    ensures done { true }\n{\n}\n#[test]\nfn adds_two() {\n}\n"
    )
    (root / "crates/c/specs/Sums.antt").write_text("abbrev pub sum : N\npub data M : Type 0 where\n  one : M\n")
    (root / "crates/c/specs/Twice.antt").write_text(
        "use Rattle.c.specs.Sums.{sum}\nmodule _ where\n  abbrev pub twice : N\n  twice = sum\n"
    )
    (root / "crates/d/specs/Others.antt").write_text("abbrev pub other : N\n")
    (root / "tests/cases/sums.toml").write_text('[[case]]\nname = "one_and_one"\n')
    for edit in ("crates/c/must-fail/wrong_sum", "crates/d/must-fail/wrong_other", "tests/more_edits/c/no_sum"):
        (root / f"{edit}.edit").write_text("")


def self_test() -> int:
    """Tests the tool on a small repository. Returns the exit status."""
    row = "| p | `c::f`: done | `sum` | wrong_sum; in d: wrong_other; on demand: no_sum | one_and_one [cases]; adds_two | time |\n"
    nouns = row + "\n| the noun | its definition |\n|---|---|\n| n | c Sums `sum`; `one` |\n"
    cases = [
        (row, 0),
        (row.replace("wrong_sum", "wrong_sun"), 2),
        (row.replace("in d: wrong_other", "wrong_other [d]"), 0),
        (row.replace("in d: wrong_other", "wrong_other"), 2),
        (row.replace("on demand: no_sum", "no_sum"), 2),
        (row.replace("wrong_sum; in d", "in d").replace("no_sum", "no_sum, wrong_sum"), 2),
        (row.replace("adds_two", "adds_three"), 2),
        (row.replace("adds_two", "adds_two [d]"), 0),
        (row.replace("one_and_one", "one_and_two"), 2),
        (row.replace("one_and_one [cases]", "one_and_one"), 2),
        (row.replace("; adds_two", ""), 1),
        (row.replace("[cases]; adds_two", ", adds_two [cases]"), 2),
        (row.replace("done", "gone"), 1),
        (row.replace("`sum`", "`product`"), 1),
        (row.replace("c::f", "c").replace(": done", ""), 5),
        (row.replace("`sum`", "Sums `sum`, `one`, Twice `twice`; d Others `other`"), 0),
        (row.replace("`sum`", "Sums `sum`, Twice `twice`, `sum`"), 1),
        (row.replace("`sum`", "d Others `other`, `sum`; Sums `sum`"), 1),
        (row.replace("`sum`", "Others `other`"), 1),
        (nouns, 0),
        (nouns.replace("c Sums `sum`", "c Twice `sum`"), 2),
        (nouns.replace("c Sums", "Sums"), 1),
    ]
    with tempfile.TemporaryDirectory() as at:
        root = Path(at)
        make_small_repository(root)
        for page, count in cases:
            (root / PAGE).write_text(page)
            found = differences(root)
            if len(found) != count:
                print(f"check_proofs_page: self-test: {page.strip()}: {found}", file=sys.stderr)
                return 1
    print(f"check_proofs_page: {len(cases)} tests passed")
    return 0


def main(words: List[str]) -> int:
    root = Path(__file__).resolve().parent.parent
    return source_check.run("check_proofs_page", __doc__, words, self_test, lambda: differences(root),
                            lambda: f"{PAGE} and the sources agree")


if __name__ == "__main__":
    sys.exit(main(sys.argv[1:]))
