#!/usr/bin/env python3
"""Draws the picture of the crates, docs/architecture/crates.svg, from crates.txt.

    python3 tools/architecture_picture.py             writes the picture
    python3 tools/architecture_picture.py --check     says whether it differs, and whether docs/architecture.md has a row
                                                      for each crate and none for another
    python3 tools/architecture_picture.py --self-test

A crate stands one row above the highest of those that it stands on. A line leads to each of these that no other of them
stands on in its turn.

Status: 0, or 1 where --check finds a difference, with a line each, 2 for a wrong word."""
import re
import sys
from pathlib import Path
from typing import Dict, Iterator, List, NamedTuple, Set

import source_check
from crate_list import crates_of, needed

PICTURE = "docs/architecture/crates.svg"
PAGE = "docs/architecture.md"
TOP_CRATE = "glass"
# Of the picture, in pixels: its width, a row's height, a box's height, a letter's width, the blanks around a name.
WIDTH, ROW, BOX, LETTER, AROUND = 1000, 72, 26, 7.4, 14
SWEEPS = 12
STYLE = """<style>
text { font: 12px monospace; text-anchor: middle; fill: #1b1b1b }
.program { fill: #dbe9f6; stroke: #2b5c8a }
.beside { fill: #f4efe2; stroke: #8a7a4a }
path { fill: none; stroke: #8fa3b5 }
.to_beside { stroke: #cbbf9c }
</style>"""
# The tables of the page that have the crates: their head, and the names in the first cell of a row.
TABLE_HEAD = "| crate | what it is |"
NAMED = re.compile(r"`(\w+)`")


class Place(NamedTuple):
    """Where a crate's box stands: its middle, and half of its width."""

    across: float
    down: float
    half: float


def own(crates: Dict[str, List[str]]) -> Dict[str, List[str]]:
    """What each crate stands on of this repository."""
    return {name: [it for it in below if it in crates] for name, below in crates.items()}


def too_early(crates: Dict[str, List[str]]) -> Iterator[str]:
    """The crates whose lines stand in front of one that they stand on."""
    names = list(crates)
    for at, (name, below) in enumerate(crates.items()):
        yield from (f"crates.txt: {name} stands in front of {it}, which is below it" for it in below if it in names[at:])


def heights(crates: Dict[str, List[str]]) -> Dict[str, int]:
    """The row of each crate, from 0 at the bottom."""
    found: Dict[str, int] = {}
    for name, below in crates.items():
        found[name] = 1 + max((found[it] for it in below), default=-1)
    return found


def lines_of(crates: Dict[str, List[str]]) -> Dict[str, List[str]]:
    """Of each crate those below that are reached through no other of them."""
    deep: Dict[str, Set[str]] = {}
    for name, below in crates.items():
        deep[name] = set(below).union(*(deep[it] for it in below))
    return {name: [it for it in below if not any(it in deep[other] for other in below)] for name, below in crates.items()}


def ordered(rows: List[List[str]], lines: Dict[str, List[str]]) -> List[List[str]]:
    """The rows with crates near those that their lines lead to."""
    near: Dict[str, List[str]] = {name: list(below) for name, below in lines.items()}
    for name, below in lines.items():
        for it in below:
            near[it].append(name)
    rows = [list(row) for row in rows]
    for sweep in range(SWEEPS):
        at = {name: (number + 0.5) / len(row) for row in rows for number, name in enumerate(row)}
        for row in rows if sweep % 2 else reversed(rows):
            means = {name: sum(at[it] for it in near[name]) / len(near[name]) if near[name] else at[name] for name in row}
            row.sort(key=lambda name: means[name])
            at.update({name: (number + 0.5) / len(row) for number, name in enumerate(row)})
    return rows


def places(rows: List[List[str]]) -> Dict[str, Place]:
    """Where the boxes stand, each row spread over the width, the lowest at the bottom."""
    found: Dict[str, Place] = {}
    for height, row in enumerate(rows):
        widths = [LETTER * len(name) + AROUND for name in row]
        gap = (WIDTH - sum(widths)) / (len(row) + 1)
        left = gap
        for name, width in zip(row, widths):
            found[name] = Place(left + width / 2, ROW * (len(rows) - height) - ROW / 2, width / 2)
            left += width + gap
    return found


def shapes(crates: Dict[str, List[str]]) -> Iterator[str]:
    """The lines of the picture, and then its boxes."""
    below, lines = own(crates), lines_of(own(crates))
    height = heights(below)
    rows = ordered([[name for name in below if height[name] == row] for row in range(max(height.values()) + 1)], lines)
    at, program = places(rows), needed(crates, TOP_CRATE)
    for name in below:
        for it in lines[name]:
            (x0, y0), (x1, y1) = (at[name].across, at[name].down + BOX / 2), (at[it].across, at[it].down - BOX / 2)
            kind = "" if name in program else ' class="to_beside"'
            yield f'<path{kind} d="M{x0:.0f} {y0:.0f}C{x0:.0f} {y0 + 30:.0f} {x1:.0f} {y1 - 30:.0f} {x1:.0f} {y1:.0f}"/>'
    for name, place in at.items():
        kind = "program" if name in program else "beside"
        yield (f'<rect class="{kind}" x="{place.across - place.half:.0f}" y="{place.down - BOX / 2:.0f}" '
               f'width="{2 * place.half:.0f}" height="{BOX}" rx="4"/>')
        yield f'<text x="{place.across:.0f}" y="{place.down + 4:.0f}">{name}</text>'


def picture(crates: Dict[str, List[str]]) -> str:
    tall = ROW * (max(heights(own(crates)).values()) + 1)
    head = (f'<svg xmlns="http://www.w3.org/2000/svg" viewBox="0 0 {WIDTH} {tall}" width="{WIDTH}" height="{tall}">\n'
            f'<!-- made by tools/architecture_picture.py of crates.txt -->\n<title>The crates and what they stand on</title>\n'
            f'{STYLE}\n<rect width="{WIDTH}" height="{tall}" fill="#ffffff"/>\n')
    return head + "".join(f"{shape}\n" for shape in shapes(crates)) + "</svg>\n"


def rows_of(page: str) -> List[str]:
    """The crates that the page's table has rows of, in their order."""
    found, is_table = [], False  # type: List[str], bool
    for line in page.splitlines():
        is_table = line == TABLE_HEAD or (is_table and line.startswith("|"))
        if is_table and line != TABLE_HEAD:
            found += NAMED.findall(line.split("|")[1])
    return found


def read_crates(root: Path) -> Dict[str, List[str]]:
    return crates_of((root / "crates.txt").read_text(encoding="utf-8").splitlines())


def differences(root: Path) -> List[str]:
    crates = read_crates(root)
    wrong = list(too_early(crates))
    if wrong:
        return wrong
    rows = rows_of((root / PAGE).read_text(encoding="utf-8"))
    found = [f"{PAGE}: the crate {name} has {rows.count(name)} rows" for name in crates if rows.count(name) != 1]
    found += [f"{PAGE}: there is no crate {name}" for name in rows if name not in crates]
    path = root / PICTURE
    if not path.is_file() or path.read_text(encoding="utf-8") != picture(crates):
        found.append(f"{PICTURE} differs: python3 tools/architecture_picture.py writes it")
    return found


def self_test() -> int:
    """Tests the tool on four crates, one of which is beside the program."""
    crates = crates_of(["low: sha2", "middle: low", "glass: middle low", "laws: middle low"])
    below = own(crates)
    drawn = picture(crates)
    page = f"| `x` | y |\n\n{TABLE_HEAD}\n|---|---|\n| `low`, `middle` | a |\n| `glass` | of `x` |\n\n| `z` |\n"
    passed = [heights(below) == {"low": 0, "middle": 1, "glass": 2, "laws": 2},
              lines_of(below) == {"low": [], "middle": ["low"], "glass": ["middle"], "laws": ["middle"]},
              drawn.count("<path") == 3, drawn.count('class="program"') == 3, drawn.count('class="beside"') == 1,
              list(too_early({"a": ["b"], "b": []})) == ["crates.txt: a stands in front of b, which is below it"],
              rows_of(page) == ["low", "middle", "glass"], picture(crates) == drawn]
    if not all(passed):
        print(f"architecture_picture: self-test: {passed}", file=sys.stderr)
        return 1
    print(f"architecture_picture: {len(passed)} tests passed")
    return 0


def main(words: List[str]) -> int:
    root = Path(__file__).resolve().parent.parent
    if not words:
        wrong = list(too_early(read_crates(root)))
        if not wrong:
            (root / PICTURE).write_text(picture(read_crates(root)), encoding="utf-8")
        print("".join(f"architecture_picture: {line}\n" for line in wrong), end="", file=sys.stderr)
        return 1 if wrong else 0
    return source_check.run("architecture_picture", __doc__, [word for word in words if word != "--check"], self_test,
                            lambda: differences(root), lambda: "the picture is that of crates.txt, and each crate has its row")


if __name__ == "__main__":
    sys.exit(main(sys.argv[1:]))
