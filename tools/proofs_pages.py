#!/usr/bin/env python3
"""Makes docs/proofs.md and the pages below docs/proofs/ of docs/proofs/source.md and of the crates.

    python3 tools/proofs_pages.py            writes the pages
    python3 tools/proofs_pages.py --check    says which of them differ from what would be written

The source has all pages one behind the other, each behind a line `<!-- page NAME -->`. Its tables of promises become
four columns: each call and clause with a link to its file and line, the promise, each definition with its link, and what
the promise doesn't say. A promise that is `=` is the comment in front of the row's call. Edits and tests go to a page of
the same name below docs/proofs/tried/. A page above 10 KB is cut into several.

In text `crate::call` and the name of a law are links, and so is `crate::call#clause`, which is read as the clause alone.

In a crate's README the lines between `<!-- calls: NAME .. -->` and `<!-- end of calls -->` become a table of these calls,
each with its link and the first sentence of the comment in front of it, and the pages that have the crate's promises.

--self-test runs the tests of this tool.

Status: 0, or 1 where --check finds a difference or the source names what isn't there, with a line each, 2 for a wrong
word."""
import os
import re
import sys
import tempfile
from pathlib import Path
from typing import Dict, Iterator, List, Tuple

import source_check
from check_proofs_page import OTHER_TABLES, cells_of
from proofs_cells import (FOLDER, PROMISES, SOURCE, Page, Row, begin_of, called, in_a_cell, promise_of, row_of, unknown, with_calls,
                          with_definitions, with_edits, with_prose, with_tests)
from proofs_sources import Code

CALLS = re.compile(r"(?<=^<!-- calls: )([^>]*?)( -->\n).*?(?=^<!-- end of calls -->$)", re.MULTILINE | re.DOTALL)
MOST = 10 * 1024
# So many pages of a crate are told in one sentence.
MOST_IN_LINE = 4
PAGE = re.compile(r"^<!-- page (\S+) -->$")
# Where a page gets a row for each page of the source that begins with a question in bold, and what is such a line.
LAYERS = "<!-- layers -->"
QUESTION = re.compile(r"^\*\*(.*\?)\*\*")
HEAD = "| call and clause | what it promises | definitions | what it doesn't say |\n|---|---|---|---|"
TRIED = "| promise | call and clause | edits | tests |\n|---|---|---|---|"
NOUNS = "| the noun | its definition |\n|---|---|"

# ---------------------------------------------------------------- pages


def pages_of(source: str) -> Iterator[Tuple[str, List[str]]]:
    """The pages of the source: their names from the root, and their lines."""
    name, lines = "", []  # type: str, List[str]
    for line in source.splitlines():
        found = PAGE.match(line)
        if not found:
            lines.append(line)
            continue
        if name:
            yield name, lines
        name, lines = os.path.normpath(FOLDER + found[1]), []
    yield name, lines


class Writer:
    """Writes the pages of one name of the source: as many as their size asks for."""

    def __init__(self, name: str, code: Code) -> None:
        self.code = code
        self.name = name
        self.stem, self.tried_stem = name[:-len(".md")], f"{FOLDER}tried/{Path(name).stem}"
        self.pages = [Page(name)]
        self.tried = [Page(f"{self.tried_stem}.md")]
        self.title = ""
        self.question = ""
        self.crates: List[str] = []
        self.faults: List[str] = []

    def on_page(self, pages: List[Page], stem: str, title: str, head: str, write) -> None:  # type: ignore[no-untyped-def]
        """Writes a row on the last page, or on a new one where it would be too long."""
        page = pages[-1]
        lines, places = list(page.lines), list(page.places)
        page.lines.append(write(page))
        if len(page.text().encode("utf-8")) <= MOST - 200:
            return
        page.lines, page.places = lines, places
        page = Page(f"{stem}_{len(pages) + 1}.md")
        page.lines += [f"# {title}, page {len(pages) + 1}", "", *head.split("\n")]
        page.lines.append(write(page))
        pages.append(page)

    def row(self, row: Row) -> None:
        code = self.code
        for crate in [row.crate, *re.findall(r"`(\w+)::", row.calls)]:
            if crate in code.crates and crate not in self.crates:
                self.crates.append(crate)
        self.faults += unknown(row, code)
        self.on_page(self.pages, self.stem, self.title, HEAD, lambda page: "| " + " | ".join((
            with_calls(row.calls, row.crate, code, page), promise_of(row, code, page),
            with_definitions(row, code, page), with_prose(row.silence, code, page))) + " |")
        if row.edits or row.tests:
            self.on_page(self.tried, self.tried_stem, f"Tried: {self.title}", TRIED, lambda page: "| " + " | ".join((
                begin_of(promise_of(row, code, Page(page.name))), with_calls(row.calls, row.crate, code, page), with_edits(row.edits, row.crate, code, page),
                with_tests(row.tests, code, page))) + " |")

    def noun(self, noun: str, definitions: str) -> None:
        row = Row(noun, "", definitions, "", "", "", "", False)
        self.on_page(self.pages, self.stem, self.title, NOUNS, lambda page: (
            f"| {with_prose(noun, self.code, page)} | {with_definitions(row, self.code, page)} |"))

    def write(self, lines: List[str]) -> None:
        head: Tuple[str, ...] = ()
        crate = ""
        for line in lines:
            cells = cells_of(line)
            page = self.pages[-1]
            if line.startswith("# ") and not self.title:
                self.title = line[2:]
                self.tried[-1].lines += [f"# Tried: {self.title}", "", *TRIED.split("\n")]
            if not cells:
                head = ()
            if tuple(cells) == PROMISES or (tuple(cells) in OTHER_TABLES and len(cells) == 4):
                head, crate = tuple(cells), OTHER_TABLES.get(tuple(cells), (0, ""))[1]
                page.lines += HEAD.split("\n")
            elif tuple(cells) in OTHER_TABLES:
                head = tuple(cells)
                page.lines += NOUNS.split("\n")
            elif head and cells and not set(line) <= set("|- "):
                if len(cells) == 2:
                    self.noun(*cells)
                else:
                    row = row_of(cells, head, crate)
                    crate = row.crate
                    self.row(row)
            elif not head:
                asked = QUESTION.match(line)
                self.question = self.question or (asked[1] if asked else "")
                page.lines.append(with_prose(line, self.code, page))

    def written(self) -> List[Page]:
        """All pages of this name, with what leads from one to the others."""
        has_tried = len(self.tried[0].lines) > 6
        names = [it.name for it in self.pages]
        for page in self.pages:
            others = [f"[{number}]({page.to(name)})" for number, name in enumerate(names, 1) if name != page.name]
            lead = [f"Pages of this layer: {', '.join(others)}."] if others else []
            lead += [f"[Edits and tests]({page.to(self.tried[0].name)})."] if has_tried else []
            if lead:
                page.lines[4:4] = [" ".join(lead), ""]
        for number, page in enumerate(self.tried, 1):
            lead = [f"[The promises]({page.to(self.name)})."]
            lead += [f"[Page {n}]({page.to(it.name)})." for n, it in enumerate(self.tried, 1) if n != number]
            page.lines[4:4] = [" ".join(lead), ""]
        return self.pages + (self.tried if has_tried else [])


def layers(page: Page, writers: List[Writer]) -> List[str]:
    """The rows of a table of all pages that answer a question, with the crates of their calls."""
    rows = [f"| [{it.question}]({page.to(it.name)}) | " + ", ".join(f"`{crate}`" for crate in it.crates) + " |"
            for it in writers if it.question]
    return ["| question | crates |", "|---|---|", *rows]


def listed(pages: List[str]) -> str:
    """Pages in one sentence, or in a list where they are many."""
    return f" {', '.join(pages)}." if len(pages) <= MOST_IN_LINE else "\n\n- " + "\n- ".join(pages)


def readmes(root: Path, code: Code, writers: List[Writer], faults: List[str]) -> Iterator[Tuple[str, str]]:
    """The READMEs of crates that have a table of calls, with this table as it is to be."""
    for path in sorted(root.glob("crates/*/README.md")):
        crate, text = path.parent.name, path.read_text(encoding="utf-8")

        def table(found: "re.Match[str]") -> str:
            rows = ["| call | what it promises |", "|---|---|"]
            for name in found[1].split():
                item = called(code, f"{crate}::{name}", "", "")[0]
                if item is None:
                    faults.append(f"{path.relative_to(root)}: there is no call {name}")
                    continue
                place = f"{os.path.relpath(item.place.path, path.parent.relative_to(root))}#L{item.place.line}"
                sentence = in_a_cell(re.split(r"(?<=\.)\s+(?=[A-Z`])", item.words)[0])
                rows.append(f"| [`{name}`]({place}) | {sentence} |")
            pages = [f"[{it.title}]({os.path.relpath(it.name, path.parent.relative_to(root))})" for it in writers if crate in it.crates]
            told = ["", "All its promises, with clauses and definitions:" + listed(pages)] if pages else []
            return found[1] + found[2] + "\n".join(rows + told) + "\n"
        if CALLS.search(text):
            yield str(path.relative_to(root)), CALLS.sub(table, text)


class Unknown(Exception):
    """The source names what isn't there, a line each."""


def made(root: Path) -> Dict[str, str]:
    """The pages by their names from the root."""
    code, writers = Code(root), []  # type: Code, List[Writer]
    for name, lines in pages_of((root / SOURCE).read_text(encoding="utf-8")):
        writers.append(Writer(name, code))
        writers[-1].write(lines)
    faults = [fault for it in writers for fault in it.faults]
    of_crates = dict(readmes(root, code, writers, faults))
    if faults:
        raise Unknown("\n".join(faults))
    for page in (page for it in writers for page in it.pages if LAYERS in page.lines):
        at = page.lines.index(LAYERS)
        page.lines[at:at + 1] = layers(page, writers)
    return {**{page.name: page.text() for it in writers for page in it.written()}, **of_crates}


def stale(root: Path, pages: Dict[str, str]) -> Iterator[str]:
    """The pages of the folder that would not be written."""
    for path in sorted((root / FOLDER).glob("**/*.md")):
        name = str(path.relative_to(root))
        if name != SOURCE and name not in pages:
            yield name


def differences(root: Path) -> List[str]:
    try:
        pages = made(root)
    except Unknown as fault:
        return str(fault).splitlines()
    found = [f"{name} would be removed" for name in stale(root, pages)]
    for name, text in sorted(pages.items()):
        path = root / name
        if not path.is_file() or path.read_text(encoding="utf-8") != text:
            found.append(f"{name} differs: python3 tools/proofs_pages.py writes it")
    return found


def write(root: Path) -> None:
    pages = made(root)
    for name in stale(root, pages):
        (root / name).unlink()
    for name, text in pages.items():
        (root / name).parent.mkdir(parents=True, exist_ok=True)
        (root / name).write_text(text, encoding="utf-8")


def make_small_repository(root: Path) -> None:
    """A crate with a call, a definition and an edit, and a case."""
    files = {"crates/c/src/lib.rt": "/// Adds.\n///\n/// More.\npub fn f()\n    ensures done { true }\n{\n}\n",
             "crates/c/specs/Sums.antt": "-- the sum\nabbrev pub sum : N\n", "crates/c/must-fail/wrong_sum.edit": "",
             "tests/cases/sums.toml": '[[case]]\nname = "one_and_one"\n', "docs/trust.md": "# Trust\n"}
    for name, text in files.items():
        (root / name).parent.mkdir(parents=True, exist_ok=True)
        (root / name).write_text(text, encoding="utf-8")


def self_test() -> int:
    """Tests the tool on a small repository: what its pages have, and what --check says of them. Returns the status."""
    head = "For writers.\n\n<!-- page ../proofs.md -->\n# All\n\nSee [t](../trust.md), `c::f#done`.\n\n" + LAYERS + "\n"
    table = "| " + " | ".join(PROMISES) + " |\n|---|---|---|---|---|---|\n"
    row = "| = | `c::f`: done | Sums `sum` | wrong_sum | one_and_one [cases] | time |\n"
    source = head + "<!-- page sums.md -->\n# Sums\n\n**Right?**\n\n" + table
    wanted = {
        "docs/proofs.md": ["See [t](trust.md), [`done`][1].", "| [Right?](proofs/sums.md) | `c` |",
                           "[1]: ../crates/c/src/lib.rt#L5"],
        "docs/proofs/sums.md": ["| [`c::f`][1]: [done][2] | Adds. | [`sum`][3] | time |", "[Edits and tests](tried/sums.md).",
                                "[3]: ../../crates/c/specs/Sums.antt#L2"],
        "docs/proofs/tried/sums.md": ["| Adds. | [`c::f`][1]: [done][2] | [wrong_sum][3] | [one_and_one][4] |",
                                      "[4]: ../../../tests/cases/sums.toml#L2"]}
    with tempfile.TemporaryDirectory() as name:
        root = Path(name)
        make_small_repository(root)
        (root / FOLDER).mkdir(parents=True)
        (root / SOURCE).write_text(source + row, encoding="utf-8")
        pages = made(root)
        missing = [line for page, lines in wanted.items() for line in lines if line not in pages[page].splitlines()]
        before = len(differences(root))
        write(root)
        after = differences(root)
        (root / SOURCE).write_text(source + 60 * row.replace("=", "word " * 50), encoding="utf-8")
        sizes = [len(text.encode("utf-8")) for text in made(root).values()]
        (root / SOURCE).write_text(source + row.replace("c::f", "c::g"), encoding="utf-8")
        if missing or (before, after) != (3, []) or max(sizes) > MOST or len(sizes) < 4 or len(differences(root)) != 1:
            print(f"proofs_pages: self-test: {missing}, {before}, {after}, {sizes}", file=sys.stderr)
            return 1
    print("proofs_pages: 5 tests passed")
    return 0


def main(words: List[str]) -> int:
    root = Path(__file__).resolve().parent.parent
    if not words:
        try:
            write(root)
        except Unknown as fault:
            print(f"proofs_pages: {fault}", file=sys.stderr)
            return 1
        return 0
    return source_check.run("proofs_pages", __doc__, [word for word in words if word != "--check"], self_test,
                            lambda: differences(root), lambda: "the pages on what is proved are those of their source")


if __name__ == "__main__":
    sys.exit(main(sys.argv[1:]))
