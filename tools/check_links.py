#!/usr/bin/env python3
"""Holds the links of all pages to what they lead to: a file or folder that is there, and a heading of that page.

A source that is named as code, as `top.rt` or `glass_main/src/top.rt`, is to be there too. README.md links each page that
docs/proofs.md has a question for, so that two clicks lead from a promise to its clause.

    python3 tools/check_links.py

Links to other hosts are left out.

--self-test runs the tests of this tool.

Status: 0 where all is right, 1 where it is not, with a line a fault, 2 for a wrong word."""
import re
import subprocess
import sys
import tempfile
from pathlib import Path
from typing import Iterator, List, Set

import source_check

# Beside its text, or under its number.
LINK = re.compile(r"\]\(([^)\s]+)\)|^\[\d+\]: (\S+)$", re.MULTILINE)
# A source as pages name it, by the end of its path.
SOURCE = re.compile(r"`([\w/-]+\.(?:rt|antt))`")


def anchor(heading: str) -> str:
    """The name by which a heading is linked to: lower case, without marks, with a hyphen for each blank."""
    shown = re.sub(r"\[([^\]]*)\]\([^)]*\)", r"\1", heading).strip().lower()
    return re.sub(r"[^\w\- ]", "", shown).replace(" ", "-")


def without_code(page: str) -> str:
    """A page without its blocks and pieces of code."""
    return re.sub(r"`[^`\n]*`", "", re.sub(r"^```.*?^```", "", page, flags=re.DOTALL | re.MULTILINE))


def anchors(path: Path) -> Set[str]:
    """The names of a page's headings; of a name that comes again the later ones have a number."""
    found: Set[str] = set()
    text = re.sub(r"^```.*?^```", "", path.read_text(encoding="utf-8"), flags=re.DOTALL | re.MULTILINE)
    for heading in re.findall(r"^#{1,6} (.*)$", text, re.MULTILINE):
        name, number = anchor(heading), 0
        while (f"{name}-{number}" if number else name) in found:
            number += 1
        found.add(f"{name}-{number}" if number else name)
    return found


def sources(root: Path) -> Set[str]:
    """The ends of the paths of all sources, as `a.rt`, `src/a.rt` and so on."""
    paths = [path.relative_to(root).parts for path in (root / "crates").glob("*/*/**/*.*") if path.suffix in (".rt", ".antt")]
    return {"/".join(parts[at:]) for parts in paths if parts[2] != "out" for at in range(len(parts))}


def links_of(text: str) -> List[str]:
    return [beside or numbered for beside, numbered in LINK.findall(without_code(text))]


def layers_left_out(root: Path) -> Iterator[str]:
    """The pages of layers that README.md doesn't link."""
    overview = (root / "docs/proofs.md").read_text(encoding="utf-8")
    linked = links_of((root / "README.md").read_text(encoding="utf-8"))
    rows = "\n".join(line for line in overview.splitlines() if line.startswith("|"))
    yield from (f"README.md: there is no link to docs/{layer}" for layer in links_of(rows) if f"docs/{layer}" not in linked)


def faults(root: Path, page: Path, known: Set[str]) -> Iterator[str]:
    """The links of a page that lead nowhere, and the sources that it names and that aren't there."""
    text = page.read_text(encoding="utf-8")
    yield from (f"{page.relative_to(root)}: there is no source {name}" for name in SOURCE.findall(text) if name not in known)
    for link in links_of(text):
        name, _, part = link.partition("#")
        if re.match(r"[a-z]+:", link):
            continue
        target = (page.parent / name).resolve() if name else page
        if not target.exists():
            yield f"{page.relative_to(root)}: there is no {link}"
        elif part and target.suffix == ".md" and part not in anchors(target):
            yield f"{page.relative_to(root)}: there is no heading {link}"


def pages(root: Path) -> List[Path]:
    """The pages of the repository, as git knows them, also new ones."""
    named = subprocess.run(["git", "ls-files", "--cached", "--others", "--exclude-standard", "*.md"], cwd=root,
                           stdout=subprocess.PIPE, universal_newlines=True, check=True).stdout.splitlines()
    return [root / name for name in sorted(set(named)) if (root / name).is_file()]


def differences(root: Path) -> List[str]:
    known = sources(root)
    return [*layers_left_out(root), *(fault for page in pages(root) for fault in faults(root, page, known))]


def self_test() -> int:
    """Tests the tool on two small pages, with links that lead somewhere and links that don't."""
    links = {"other.md": 0, "other.md#a-heading-of-code": 0, "other.md#twice-1": 0, "folder": 0, "#here": 0,
             "https://example.org/x": 0, "none.md": 1, "other.md#no-heading": 1, "#there": 1,
             "other.md#in-code": 1, "other.md#twice-2": 1, "other.md)\n\n[1]: none.md\n\n(": 1, "other.md)\n\n[1]: other.md\n\n(": 0}
    named = {"top.rt": 0, "a/src/top.rt": 0, "src/top.rt": 0, "op.rt": 1, "other.rt": 1, "Lib.antt": 1}
    with tempfile.TemporaryDirectory() as name:
        root = Path(name).resolve()
        (root / "folder").mkdir()
        (root / "crates/a/src").mkdir(parents=True)
        (root / "crates/a/src/top.rt").write_text("", encoding="utf-8")
        (root / "other.md").write_text("# A heading, of `code`\n## Twice\n## Twice\n```\n# In code\n```\n", encoding="utf-8")
        for link, wanted in links.items():
            page = root / "page.md"
            page.write_text(f"# Here\n[x]({link}) `[y](none.md)`\n\n```\n[z](none.md)\n```\n", encoding="utf-8")
            found = list(faults(root, page, sources(root)))
            if len(found) != wanted:
                print(f"check_links: self-test: {link}: {found}", file=sys.stderr)
                return 1
        for source, wanted in named.items():
            page.write_text(f"See `{source}`.\n", encoding="utf-8")
            found = list(faults(root, page, sources(root)))
            if len(found) != wanted:
                print(f"check_links: self-test: {source}: {found}", file=sys.stderr)
                return 1
        (root / "docs").mkdir()
        (root / "docs/proofs.md").write_text("[a](b.md)\n\n| [1](proofs/x.md) | `y` |\n| [2](proofs/y.md) | |\n", encoding="utf-8")
        (root / "README.md").write_text("[x][1]\n\n[1]: docs/proofs/x.md\n", encoding="utf-8")
        if list(layers_left_out(root)) != ["README.md: there is no link to docs/proofs/y.md"]:
            print("check_links: self-test: a layer that is left out", file=sys.stderr)
            return 1
    print(f"check_links: {len(links) + len(named) + 1} tests passed")
    return 0


def main(words: List[str]) -> int:
    root = Path(__file__).resolve().parent.parent
    return source_check.run("check_links", __doc__, words, self_test, lambda: differences(root),
                            lambda: f"the links of {len(pages(root))} pages lead somewhere")


if __name__ == "__main__":
    sys.exit(main(sys.argv[1:]))
