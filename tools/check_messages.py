#!/usr/bin/env python3
"""Holds the pages that list the program's error lines to the definitions of these lines.

Each line that crates/glass_main/specs/Lines.antt defines, with the status that Statuses.antt gives it, must have its
row in docs/manual/when_a_run_ends_badly.md ("Every line") and in docs/specification/messages.md, and each row its line.
A row is | status | `glass: TEXT` | ..; a word of capitals in TEXT stands for what changes, FILE for the files by what
they are read as, TABLE for the two tables, and CHECKPOINT for both checkpoints of a command.

--self-test runs the tests of this tool.

Status: 0 where pages and definitions agree, 1 where they do not, with a line a difference, 2 for a wrong word."""
import re
import sys
from pathlib import Path
from typing import Dict, Iterator, List, Set, Tuple

import source_check

LINES = "crates/glass_main/specs/Lines.antt"
STATUSES = "crates/glass_main/specs/Statuses.antt"
PAGES = {"docs/manual/when_a_run_ends_badly.md": "## Every line", "docs/specification/messages.md": "| status | line |"}
HOLE = "#"
Line = Tuple[int, str]


class Definitions:
    """The lines and statuses as the two files define them."""

    def __init__(self, lines: str, statuses: str) -> None:
        self.clauses = [" ".join(it.split()) for it in re.split(r"\n(?=\S)", lines)]
        self.statuses = [" ".join(it.split()) for it in re.split(r"\n(?=\S)", statuses)]
        self.aliases = dict(re.findall(r"(\w+) as (\w+)", statuses))
        self.roles = {case: text for case, text in re.findall(r'role_name roles\.(\w+) = codes "([^"]*)"', lines)}

    def cases(self, function: str) -> Iterator[Tuple[str, str]]:
        """The cases of a function: its argument's variant, and what it is."""
        for clause in self.clauses:
            found = re.match(rf"{function} (?:role )?\(?(?:\w+\.)?(\w+)[^=]*= (.*)", clause)
            if found and found[1] != "role":
                yield found[1], found[2]

    def texts(self, term: str, role: str) -> Set[str]:
        """The texts that a term spells, one for each role where it asks for one."""
        if re.match(r"memory_line\b", term):
            return set()
        if role == "" and re.search(r"\brole\b", term):
            return {text for each in self.roles for text in self.texts(term, each)}
        out = ""
        for piece in term.split(" ++ "):
            literal = re.fullmatch(r'codes "(.*)"', piece)
            named = re.match(r"(?:file_front|record_front|field_front) (?:roles\.)?(\w+)", piece)
            if literal:
                out += literal[1].replace("\\n", "")
            elif piece == "role_name role":
                out += self.roles[role]
            elif named:
                out += "glass: the " + self.roles[role if named[1] == "role" else named[1]]
                out += ", record " + HOLE if not piece.startswith("file_front") else ""
                out += ", field " + HOLE if piece.startswith("field_front") else ""
            else:
                out += HOLE
        return {out}

    def status(self, function: str, case: str) -> int:
        for clause in self.statuses:
            found = re.match(rf"{function} \(?{case}\b[^=]*= (\d+)", clause)
            if found:
                return int(found[1])
        raise ValueError(f"{function} has no case {case}")

    def role_status(self, role: str) -> int:
        return self.status("role_status", self.aliases.get(role, role))

    def all(self) -> Set[Line]:
        """Each line with its status."""
        found: Set[Line] = set()
        for case, function in (("Plan", "plan_line"), ("Couplings", "couplings_line"), ("Report", "report_line")):
            for _, term in self.cases(function):
                found |= {(self.status("refusal_status", case), it) for it in self.texts(term, "")}
        for case, role, function in (("Rules", "RuleTable", "table_line"), ("Swaps", "SwapTable", "table_line"),
                                     ("Checkpoint", "Checkpoint", "checkpoint_line"),
                                     ("SecondCheckpoint", "SecondCheckpoint", "checkpoint_line")):
            for _, term in self.cases(function):
                found |= {(self.status("refusal_status", case), it) for it in self.texts(term, role)}
        for case, term in self.cases("refusal_line"):
            for role in self.roles if case in ("TooLong", "Absent") else [""] if case == "Words" else []:
                status = self.role_status(role) if case == "TooLong" else self.status("refusal_status", case)
                found |= {(status, it) for it in self.texts(term, role)}
        for case, term in self.cases("line_of"):
            if case not in ("Done", "Refused"):
                term = 'codes "glass: no memory"' if case == "NoMemory" else term
                found |= {(self.status("status_of", case), it) for it in self.texts(term, "")}
        return found


def rows_of(page: str, heading: str, roles: Dict[str, str]) -> Iterator[Line]:
    """The lines of a page's table behind a heading, written out for each file that they speak of."""
    if heading not in page:
        return
    for statuses, text in re.findall(r"^\| ([\d, ]+) \| `(glass: [^`]*)` \|", page.split(heading, 1)[1], re.M):
        files = [text]
        for word, cases in (("FILE", list(roles)), ("TABLE", ["RuleTable", "SwapTable"]),
                            ("CHECKPOINT", ["Checkpoint", "SecondCheckpoint"])):
            files = [it.replace(word, roles[case]) for it in files for case in (cases if word in it else [""])
                     ] if any(word in it for it in files) else files
        for status in statuses.split(", "):
            for each in files:
                yield int(status), re.sub(r"\b[A-Z]+\b(?<!TOML)(?<!CSV)", HOLE, each)


def differences(lines: str, statuses: str, pages: Dict[str, str]) -> List[str]:
    """Where pages and definitions differ, a line each."""
    has = Definitions(lines, statuses)
    wanted, found = has.all(), []
    for name, page in pages.items():
        heading = PAGES[name]
        rows = set(rows_of(page, heading, has.roles))
        # A row of several statuses speaks of several files, each of which has one of them.
        right = {text for status, text in rows if (status, text) in wanted}
        rows = {(status, text) for status, text in rows if (status, text) in wanted or text not in right}
        found += [f"{name}: no row for status {status}: {text}" for status, text in sorted(wanted - rows)]
        found += [f"{name}: no line has status {status}: {text}" for status, text in sorted(rows - wanted)]
    return found


def sources(root: Path) -> Tuple[str, str, Dict[str, str]]:
    """Both files of definitions, and the pages."""
    lines, statuses = ((root / it).read_text(encoding="utf-8") for it in (LINES, STATUSES))
    return lines, statuses, {it: (root / it).read_text(encoding="utf-8") for it in PAGES}


def self_test(root: Path) -> int:
    """Tests the tool on the repository's own pages, changed."""
    lines, statuses, pages = sources(root)
    manual = "docs/manual/when_a_run_ends_badly.md"
    row = next(it for it in pages[manual].split(PAGES[manual])[1].splitlines() if "is not TOML" in it)
    cases = [(pages[manual], 0), (pages[manual].replace(row + "\n", ""), 1),
             (pages[manual].replace(row, row.replace("TOML", "JSON")), 2),
             (pages[manual].replace(row, row.replace("| 3 |", "| 4 |")), 2),
             (pages[manual].split(PAGES[manual])[0], len(Definitions(lines, statuses).all()))]
    for page, count in cases:
        found = differences(lines, statuses, {**pages, manual: page})
        if len(found) != count:
            print(f"check_messages: self-test: {found}", file=sys.stderr)
            return 1
    print(f"check_messages: {len(cases)} tests passed")
    return 0


def main(words: List[str]) -> int:
    root = Path(__file__).resolve().parent.parent
    return source_check.run("check_messages", __doc__, words, lambda: self_test(root), lambda: differences(*sources(root)),
                            lambda: f"{len(Definitions(*sources(root)[:2]).all())} lines have their rows")


if __name__ == "__main__":
    sys.exit(main(sys.argv[1:]))
