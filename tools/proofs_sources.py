"""Where the calls, clauses, definitions, edits and tests of the crates stand: file and line of each, and the comment in
front of a call."""
import re
from pathlib import Path
from typing import Dict, List, NamedTuple, Optional, Tuple

# A block that has methods: that of a type, of a trait for a type, or of a trait itself.
BLOCK = re.compile(r"^(?:pub )?(?P<kind>impl|trait)\b(?P<head>[^{;]*)")
FUNCTION = re.compile(r"^(?:    )?(?:pub(?:\(\w+\))? )?(?:ghost )?fn (\w+)")
TYPE = re.compile(r"^pub (?:struct|enum|type|trait) (\w+)")
CLAUSE = re.compile(r"^ +ensures\*? (\w+)")
# What a file of specs/ defines, as tools/check_proofs_page.py reads it.
DEFINED = re.compile(r"^ *(?:(?:abbrev |unfoldable )?pub (?:record |data )?| +(?=\w+ :))(\w+)")
NAME_OF_CASE = re.compile(r'^name = "(\w+)"$')
WORD = re.compile(r"[A-Za-z_]\w*")


class Place(NamedTuple):
    """A file, from the repository's root, and a line of it, 0 where the whole file is meant."""
    path: str
    line: int


class Item(NamedTuple):
    """A function, or a type: its place, the comment in front of it, and the places of its clauses by their names."""
    crate: str
    owner: str
    name: str
    place: Place
    words: str
    clauses: Dict[str, Place]


def owner_of(head: str) -> str:
    """The type or trait whose methods a block has, of what stands behind `impl` or `trait`."""
    head = re.sub(r"^<[^<>]*(?:<[^<>]*(?:<[^<>]*>[^<>]*)*>[^<>]*)*>", "", head.strip())
    name = WORD.search(head.rsplit(" for ", 1)[-1])
    return name[0].rsplit("::", 1)[-1] if name else ""


def comment_above(lines: List[str], number: int) -> str:
    """The first paragraph of the comment in front of a line."""
    first = number
    while first > 0 and re.match(r"\s*(///|#\[)", lines[first - 1]):
        first -= 1
    words: List[str] = []
    for line in lines[first:number]:
        text = re.sub(r"^\s*///\s?", "", line).strip()
        if not line.lstrip().startswith("///"):
            continue
        if not text:
            break
        words.append(text)
    return " ".join(words)


class Code:
    """What the crates have, by its names."""

    def __init__(self, root: Path) -> None:
        self.items: Dict[Tuple[str, str, str], Item] = {}
        self.by_name: Dict[str, List[Item]] = {}
        self.definitions: Dict[Tuple[str, str, str], Place] = {}
        self.files: Dict[Tuple[str, str], Place] = {}
        self.tests: Dict[str, Place] = {}
        self.cases: Dict[str, Place] = {}
        self.edits: Dict[Tuple[str, str], Place] = {}
        self.more_edits: Dict[Tuple[str, str], Place] = {}
        self.crates = sorted(it.name for it in (root / "crates").iterdir() if it.is_dir())
        for crate in self.crates:
            folder = root / "crates" / crate
            for file in sorted(folder.glob("src/**/*.rt")):
                self.read_code(crate, str(file.relative_to(root)), file.read_text(encoding="utf-8").splitlines())
            for file in sorted(folder.glob("specs/**/*.antt")):
                self.read_specs(crate, file.stem, str(file.relative_to(root)), file.read_text(encoding="utf-8"))
            for file in sorted(folder.glob("must-fail/*.edit")):
                self.edits[crate, file.stem] = Place(str(file.relative_to(root)), 0)
        for file in sorted(root.glob("tests/more_edits/*/*.edit")):
            self.more_edits[file.parent.name, file.stem] = Place(str(file.relative_to(root)), 0)
        for file in sorted(root.glob("tests/cases/*.toml")):
            for number, line in enumerate(file.read_text(encoding="utf-8").splitlines(), 1):
                named = NAME_OF_CASE.match(line)
                if named:
                    self.cases[named[1]] = Place(str(file.relative_to(root)), number)

    def read_code(self, crate: str, path: str, lines: List[str]) -> None:
        owner, item = "", None  # type: str, Optional[Item]
        for number, line in enumerate(lines):
            block, function, of_type = BLOCK.match(line), FUNCTION.match(line), TYPE.match(line)
            if block:
                owner = owner_of(block["head"])
            elif line.startswith("}"):
                owner = ""
            found = function or of_type
            if found:
                item = Item(crate, owner if function and line.startswith(" ") else "", found[1], Place(path, number + 1),
                            comment_above(lines, number), {})
                self.keep(item)
                if function and number and any("#[test]" in it for it in lines[max(0, number - 3):number]):
                    self.tests[found[1]] = item.place
            clause = CLAUSE.match(line)
            if clause and item is not None:
                item.clauses.setdefault(clause[1], Place(path, number + 1))

    def keep(self, item: Item) -> None:
        """Of functions of one name the one with clauses stays, as of a trait and of what obeys it."""
        self.items.setdefault((item.crate, item.owner, item.name), item)
        self.by_name.setdefault(item.name, []).append(item)

    def read_specs(self, crate: str, stem: str, path: str, text: str) -> None:
        self.files[crate, stem] = Place(path, 0)
        for number, line in enumerate(text.splitlines(), 1):
            defined = DEFINED.match(line)
            if defined:
                self.definitions.setdefault((crate, stem, defined[1]), Place(path, number))

    def call(self, crate: str, owner: str, name: str) -> Optional[Item]:
        """The function or type of a crate: of the given owner, else of none, else the only one of that name."""
        for key in ((crate, owner, name), (crate, "", name)):
            if key in self.items:
                return self.items[key]
        found = [it for it in self.by_name.get(name, []) if it.crate == crate]
        return found[0] if len(found) == 1 else None

    def law(self, name: str) -> Optional[Item]:
        """The only function of a name in all crates, where the name is a sentence."""
        found = self.by_name.get(name, []) if "_" in name else []
        return found[0] if len(found) == 1 else None
