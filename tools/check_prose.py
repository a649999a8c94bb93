#!/usr/bin/env python3
"""Holds the prose of pages to sentences of at most 40 words, paragraphs of at most 90, and the field's words.

A sentence of a page for users (SHORT) has at most 30. An entry of docs/decisions is held to 60 words, and a page that is
read at one go to its most kilobytes (LONGEST).

    python3 tools/check_prose.py            the pages that the gate holds: PAGES below
    python3 tools/check_prose.py PAGE ..    other pages, by their paths

A paragraph is a block of text, an item of a list or a cell of a table. Headings and blocks of code are left out. A piece
of code within a sentence is one word, and of a link its text counts. A sentence ends at a full stop, a question mark or
an exclamation mark before a capital letter, code or the paragraph's end.

--self-test runs the tests of this tool.

Status: 0 where all is right, 1 where it is not, with a line a fault, 2 for a wrong word or a page that isn't there."""
import re
import sys
from pathlib import Path
from typing import Iterator, List, NamedTuple, Sequence

import source_check

MOST_IN_SENTENCE = 40
# What is read by most.
SHORT, MOST_IN_SHORT = ("README.md", "CONTRIBUTING.md", "docs/manual/", "docs/trust.md", "docs/to_change.md"), 30
MOST_IN_PARAGRAPH = 90
MOST_IN_DECISION = 60
DECISIONS = "docs/decisions/"
# Of 1024 bytes; a folder's number is that of each page in it.
LONGEST = {"README.md": 7, "CHANGELOG.md": 3, "CONTRIBUTING.md": 5, "bench/README.md": 8, "docs/architecture.md": 12,
           DECISIONS: 10, "docs/proofs.md": 15, "docs/proofs/": 10, "docs/proofs/tried/": 10, "docs/proofs/source.md": 1000}
README_OF_CRATE, LONGEST_README = re.compile(r"crates/\w+/README\.md"), 3
# What the pages say in the field's words or in plain ones.
GONE = {"gone on with": "resumed", "want of memory": "lack of memory", "leavings": "what is left",
        "and so is that of": "two sentences"}
PAGES = ("README.md", "CONTRIBUTING.md", "CHANGELOG.md", "bench/README.md", "docs/architecture.md", "docs/glossary.md",
         "docs/trust.md", "docs/to_change.md", "docs/proofs.md", "docs/proofs/*.md", "docs/proofs/tried/*.md",
         "docs/architecture/*.md", "dist/README.md", "tests/README.md", "examples/*/README.md", "tools/*/README.md",
         "docs/decisions/*.md", "docs/manual/*.md", "docs/specification/*.md", "crates/*/README.md")
# A cell there has all clauses, definitions or edits of a promise, or a comment of the code: these tables are lists and no prose.
WITHOUT_TABLES = ("docs/proofs", "crates/")
# But in a row of four cells the second says what a call promises, and the fourth what it doesn't say.
WITH_PROMISES = re.compile(r"docs/proofs/(?!source)\w+\.md")

# Where a link leads that has a number in the text.
TARGET = re.compile(r"\[\d+\]: ")


class Paragraph(NamedTuple):
    """Some text as it is read, and the number of its first line."""

    line: int
    text: str


def plain(text: str) -> str:
    """Text as it is read: a link is its text, code is one word, and marks are left out."""
    text = re.sub(r"`[^`]*`", "Code", text)
    text = re.sub(r"!?\[([^\]]*)\](?:\([^)]*\)|\[\d+\])", r"\1", text)
    return " ".join(re.sub(r"[*_]{1,2}(?=\S)|(?<=\S)[*_]{1,2}", "", text).split())


def blocks(page: str) -> Iterator[Paragraph]:
    """The paragraphs of a page with their marks, without code and headings."""
    held: List[str] = []
    start, is_code = 1, False
    for number, line in enumerate(page.splitlines() + [""], 1):
        fence = line.lstrip().startswith("```")
        begins = bool(re.match(r"\s*([-*+]|\d+\.)\s", line))
        ends = fence or is_code or begins or not line.strip() or line.startswith(("#", "|", "<!--")) or TARGET.match(line)
        is_indented = line.startswith("    ") and not held
        if (ends or is_indented) and held:
            yield Paragraph(start, " ".join(held))
            held = []
        is_code ^= fence
        if fence or is_code or is_indented or not line.strip() or line.startswith(("#", "<!--")) or TARGET.match(line):
            continue
        if line.startswith("|"):
            yield from (Paragraph(number, cell) for cell in cells_of(line))
            continue
        start = start if held else number
        held.append(re.sub(r"^\s*([-*+]|\d+\.)\s+", "", line) if begins else line.strip())


def paragraphs(page: str) -> Iterator[Paragraph]:
    for block in blocks(page):
        yield Paragraph(block.line, plain(block.text))


def sentences(text: str) -> List[str]:
    return re.split(r"(?<=[.!?])[\"')]*\s+(?=[\"'(]*[A-Z])", text)


def words(text: str) -> int:
    return sum(1 for word in text.split() if re.search(r"\w", word))


def cells_of(row: str) -> List[str]:
    """The cells of a table's row."""
    return re.split(r"(?<!\\)\|", row)[1:-1]


def prose_of(line: str, has_promises: bool) -> str:
    """A line as prose: of a table's row only what is promised, and what is not said."""
    if not line.startswith("|"):
        return line
    cells = cells_of(line)
    return f"|{cells[1]}|{cells[3]}|" if has_promises and len(cells) == 4 else ""


def faults(name: str, page: str) -> Iterator[str]:
    """What a page has that is too long, and the words that it should not have."""
    if name.startswith(WITHOUT_TABLES):
        page = "\n".join(prose_of(line, bool(WITH_PROMISES.fullmatch(name))) for line in page.splitlines())
    most = MOST_IN_DECISION if name.startswith(DECISIONS) else MOST_IN_PARAGRAPH
    most_in_sentence = MOST_IN_SHORT if name.startswith(SHORT) else MOST_IN_SENTENCE
    for line, text in paragraphs(page):
        if words(text) > most:
            yield f"{name}:{line}: a paragraph of {words(text)} words: {text[:60]}"
        for sentence in sentences(text):
            if words(sentence) > most_in_sentence:
                yield f"{name}:{line}: a sentence of {words(sentence)} words: {sentence[:60]}"
        yield from (f"{name}:{line}: \"{gone}\"; say {GONE[gone]}" for gone in GONE if gone in text.lower())


def size_faults(name: str, page: str) -> Iterator[str]:
    """Whether a page is longer than pages of its kind may be."""
    most = LONGEST_README if README_OF_CRATE.fullmatch(name) else LONGEST.get(name, LONGEST.get(name[:name.rfind("/") + 1]))
    size = len(page.encode("utf-8"))
    if most is not None and size > 1024 * most:
        yield f"{name}:1: {size} bytes, and not at most {most} KB"


def differences(root: Path, names: Sequence[str]) -> List[str]:
    pages = [(name, (root / name).read_text(encoding="utf-8")) for name in names]
    return [fault for name, page in pages for fault in (*faults(name, page), *size_faults(name, page))]


def self_test() -> int:
    """Tests the tool on small pages, each with the lines of its faults."""
    long = " ".join(["word"] * 41)
    half = " ".join(["Word"] * 31) + "."
    cases = {
        f"# {long}\n\nShort. Text.\n": [], f"{long}\n": [1], f"a\n\n- {long}.\n": [3], f"| a | {long} |\n": [1],
        f"    {long}\n\n```\n{long}\n```\n": [], f"`{long}` is code.\n": [], f"[{long}](page.md)\n": [1],
        f"[a](page.md) b\nc\n{long}\n": [1], f"[{long}][1]\n\n[1]: {long}\n": [1], f"{half} {half}\n": [], f"{half} {half} {half}\n": [1],
        f"{half}\n\n{half}\n\n{half}\n": [], f"- {half}\n- {half}\n- {half}\n": [], "It is for want of memory.\n": [1],
        f"{long[:100]}. {long[:100]}.\n": [], "1. First\n   and more.\n2. Second.\n": []}
    named = [("page", page, wanted) for page, wanted in cases.items()]
    named.append((WITHOUT_TABLES[0] + "/run.md", f"| {long} |\n\n{long}\n", [3]))
    row, other = f"| {long} | a | {long} | a |\n", f"| a | {long} | a | {long} |\n"
    named += [("docs/proofs/run.md", row + other, [2, 2]), ("docs/proofs/source.md", other, []), ("docs/proofs/tried/run.md", other, []),
              ("crates/a/README.md", other, [])]
    named += [(DECISIONS + "run.md", f"{half}\n\n{half} {half}\n", [3]), (DECISIONS + "run.md", "a\n\n" * 3500, [1]),
              ("docs/manual/page.md", f"{half}\n", [1]), ("page", f"{half}\n", []),
              ("README.md", "a\n\n" * 2389, []), ("README.md", "a\n\n" * 2390, [1]), ("page", "a\n\n" * 9000, []),
              ("crates/a/README.md", "a\n\n" * 1025, [1])]
    for name, page, wanted in named:
        found = [int(fault.split(":")[1]) for fault in (*faults(name, page), *size_faults(name, page))]
        if found != wanted:
            print(f"check_prose: self-test: {page[:80]!r}: faults at {found}, not {wanted}", file=sys.stderr)
            return 1
    print(f"check_prose: {len(named)} tests passed")
    return 0


def main(given: List[str]) -> int:
    root = Path(__file__).resolve().parent.parent
    named = [word for word in given if not word.startswith("-")]
    missing = [name for name in named if not (root / name).is_file()]
    if missing:
        print(f"check_prose: there is no page {missing[0]}", file=sys.stderr)
        return 2
    pages = named or [str(page.relative_to(root)) for pattern in PAGES for page in sorted(root.glob(pattern))]
    return source_check.run("check_prose", __doc__, [word for word in given if word not in named], self_test,
                            lambda: differences(root, pages), lambda: f"{len(pages)} pages are within their limits")


if __name__ == "__main__":
    sys.exit(main(sys.argv[1:]))
