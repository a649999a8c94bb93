"""The cells of the tables of the pages on what is proved: a row of docs/proofs/source.md with links to the sources."""
import os
import re
from typing import Iterator, List, NamedTuple, Optional, Tuple

from check_proofs_page import NAMED, ON_DEMAND, crate_of
from check_prose import GONE
from proofs_sources import WORD, Code, Item, Place

SOURCE = "docs/proofs/source.md"
FOLDER = "docs/proofs/"
LINK = re.compile(r"\]\(([^)\s]+)\)")
CODE = re.compile(r"`([^`]*)`")
PROMISES = ("promise", "public call and clause", "definition", "edits", "tests", "what it doesn't say")
MADE = "<!-- made by tools/proofs_pages.py of docs/proofs/source.md: change that file -->"


class Page:
    """A page that is being written: its lines, and the places that it links to, in their order."""

    def __init__(self, name: str) -> None:
        self.name = name
        self.lines: List[str] = [MADE, ""]
        self.places: List[Place] = []

    def link(self, text: str, place: Place) -> str:
        """A link to a place, by its number at the foot of the page."""
        if place not in self.places:
            self.places.append(place)
        return f"[{text}][{self.places.index(place) + 1}]"

    def to(self, path: str) -> str:
        """A path of the repository as this page links to it."""
        return os.path.relpath(path, os.path.dirname(self.name))

    def text(self) -> str:
        foot = [f"[{number}]: {self.to(it.path)}" + (f"#L{it.line}" if it.line else "")
                for number, it in enumerate(self.places, 1)]
        body = "\n".join(self.lines).rstrip("\n") + "\n"
        return body + ("\n" + "\n".join(foot) + "\n" if foot else "")


class Row(NamedTuple):
    """A row of the source: the cells of its promise, and the crate of a definition that names none."""
    promise: str
    calls: str
    definitions: str
    edits: str
    tests: str
    silence: str
    crate: str
    ends: bool


def row_of(cells: List[str], head: Tuple[str, ...], crate: str) -> Row:
    """A row by its cells; the crate is that of a call in front of which none stands."""
    if head == PROMISES:
        promise, calls, definitions, edits, tests, silence = cells
        return Row(promise, calls, definitions, edits, tests, silence, crate_of(cells), True)
    promise, calls, definitions, silence = cells
    return Row(promise, calls, definitions, "", "", silence, crate_of(cells) or crate, False)


def unknown(row: Row, code: Code) -> Iterator[str]:
    """The calls that a row names with crate or type, and that aren't there."""
    crate, owner = row.crate, ""
    for text in CODE.findall(row.calls):
        item, crate, owner = called(code, text, crate, owner)
        if "::" in text and item is None:
            yield f"{SOURCE}: there is no call {text}"


def called(code: Code, text: str, crate: str, owner: str) -> Tuple[Optional[Item], str, str]:
    """The item that a piece of code names, `crate::Type::call` or its end, with the crate and the type so far."""
    parts = text.split("::")
    if parts[0] in code.crates and len(parts) > 1:
        crate, owner, parts = parts[0], "", parts[1:]
    if len(parts) > 1:
        owner = parts[-2]
    return code.call(crate, owner, parts[-1]), crate, owner


def with_calls(cell: str, crate: str, code: Code, page: Page) -> str:
    """A cell of calls and clauses, each with its link."""
    owner, group, out, at, is_new = "", [], "", 0, True  # type: str, List[Item], str, int, bool
    for it in CODE.finditer(cell):
        between, at = cell[at:it.start()], it.end()
        if between.lstrip().startswith(":"):
            out += with_clauses(between, group, page)
            is_new = True
        else:
            out += between
        item, crate, owner = called(code, it[1], crate, owner)
        group = ([] if is_new else group) + ([item] if item else [])
        is_new = False
        out += page.link(it[0], item.place) if item else it[0]
    rest = cell[at:]
    return out + (with_clauses(rest, group, page) if rest.lstrip().startswith(":") else rest)


def with_clauses(text: str, group: List[Item], page: Page) -> str:
    """The clauses behind a call and a colon; what stands in brackets, and words that are no clause, stay."""
    def linked(found: "re.Match[str]") -> str:
        for item in reversed(group):
            if found[0] in item.clauses:
                return page.link(found[0], item.clauses[found[0]])
        return found[0]
    parts = re.split(r"(\([^)]*\)|;.*)", text, maxsplit=0, flags=re.DOTALL)
    return "".join(it if n % 2 else WORD.sub(linked, it) for n, it in enumerate(parts))


def with_definitions(row: Row, code: Code, page: Page) -> str:
    """A cell of definitions, each with its link; the crate and the file in front of it are in the link alone."""
    crate, file, out, at = row.crate, "", "", 0
    for it in NAMED.finditer(row.definitions):
        between, at = row.definitions[at:it.start()], it.end()
        out += between
        place = code.definitions.get((crate, file, it["code"] or ""))
        if it["end"]:
            crate, file = (row.crate, "") if row.ends else (crate, file)
            out += it[0]
        elif it["code"] is not None:
            out += page.link(it[0], place) if place else it[0]
        elif (crate, it["word"]) in code.files:
            file = it["word"]
            out += "\0" if re.match(r" `", row.definitions[at:]) else page.link(file, code.files[crate, file])
        elif it["word"] in code.crates:
            crate, file = it["word"], ""
            out += "\0"
        else:
            file = "" if it["word"].endswith("'s") else file
            out += it[0]
    return re.sub(r"\0 *", "", out + row.definitions[at:])


def with_prose(line: str, code: Code, page: Page) -> str:
    """A line of text: its links from this page, and links for the calls and laws that it names."""
    def target(found: "re.Match[str]") -> str:
        path, _, part = found[1].partition("#")
        if not path or re.match(r"[a-z]+:", found[1]):
            return found[0]
        return f"]({page.to(os.path.normpath(FOLDER + path))}" + (f"#{part})" if part else ")")

    def linked(found: "re.Match[str]") -> str:
        name, _, clause = found[1].partition("#")
        item = called(code, name, "", "")[0] if "::" in name else code.law(name)
        if item and clause in item.clauses:
            return page.link(f"`{clause}`", item.clauses[clause])
        return page.link(found[0], item.place) if item and not clause else found[0]

    outside = re.split(r"(\[[^\]]*\]\([^)]*\))", line)
    return "".join(LINK.sub(target, it) if n % 2 else CODE.sub(linked, it) for n, it in enumerate(outside))


def in_a_cell(words: str) -> str:
    """The words of a comment as a cell of a table has them."""
    for gone in ("gone on with", "want of memory"):
        words = words.replace(gone, GONE[gone])
    return words.replace("|", "\\|")


def promise_of(row: Row, code: Code, page: Page) -> str:
    """The words of a promise: those of the source, or the comments in front of the row's calls."""
    if row.promise != "=":
        return with_prose(row.promise, code, page)
    crate, owner, words = row.crate, "", []  # type: str, str, List[str]
    for it in CODE.finditer(row.calls):
        item, crate, owner = called(code, it[1], crate, owner)
        if item and item.words and item.words not in words:
            words.append(item.words)
    return in_a_cell(" ".join(words))


def begin_of(promise: str) -> str:
    """The first words of a promise, as another page names it."""
    text = re.sub(r"\[([^\]]*)\](?:\([^)]*\)|\[\d+\])", r"\1", promise).replace("**", "").replace("`", "")
    return text if len(text) <= 50 else text[:50].rsplit(" ", 1)[0].rstrip(",;:.") + " .."


def with_edits(cell: str, crate: str, code: Code, page: Page) -> str:
    """A cell of edits, each with its link."""
    parts, out = cell.partition(ON_DEMAND), ""
    for part, known in ((parts[0], code.edits), (parts[2], code.more_edits)):
        at = crate
        for it in re.split(r"(;|in \w+:|\([^)]*\)|`[^`]*`|[a-z0-9]+(?:_[a-z0-9]+)+(?: \[\w+\])?)", part):
            front, behind = re.fullmatch(r"in (\w+):", it), re.fullmatch(r"(\w+) \[(\w+)\]", it)
            at = crate if it == ";" else front[1] if front and front[1] in code.crates else at
            key = (behind[2], behind[1]) if behind else (at, it)
            out += page.link(key[1], known[key]) if key in known else "" if front else it
        out += parts[1] if known is code.edits else ""
    return re.sub(r"  +", " ", out).strip()


def with_tests(cell: str, code: Code, page: Page) -> str:
    """A cell of tests and cases, each with its link; the place in brackets is in the link alone."""
    def linked(found: "re.Match[str]") -> str:
        place = code.cases.get(found[0]) or code.tests.get(found[0])
        return page.link(found[0], place) if place else found[0]
    parts = re.split(r"(\([^)]*\)|`[^`]*`)", re.sub(r" \[\w+\]", "", cell))
    return "".join(it if n % 2 else re.sub(r"[a-z0-9]+(?:_[a-z0-9]+)+", linked, it) for n, it in enumerate(parts))
