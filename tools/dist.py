#!/usr/bin/env python3
"""Tells whether dist/ has the program of this tree's sources.

    python3 tools/dist.py              a line: it has, or why not
    python3 tools/dist.py --sources    the files that the program is made of, as sha256sum prints them
    python3 tools/dist.py --self-test

The sources are the files below src/, specs/ and proofs/ of the crates that `glass` stands on, but for the modules that
a crate's root has under #[cfg(test)], and the lines of crates.txt of these crates. Their digest is the SHA-256 of
what --sources prints. dist/manifest.json has it, with the sum of each program, the kit that proved the sources
(`rt version`), the commit that has them, and the oldest glibc that the programs run with.

Status: 0 where dist/ has it, 1 where it has not, 2 for a wrong word."""
import hashlib
import json
import os
import platform
import re
import subprocess
import sys
from pathlib import Path
from typing import Dict, Iterator, List, Optional, Set, Tuple

sys.dont_write_bytecode = True
from crate_list import crates_of, needed  # noqa: E402
from exit_status import status_of  # noqa: E402

PROGRAM = "glass"
FOLDER = "dist"
MANIFEST = "manifest.json"
PORTABLE, WIDE = "x86-64", "x86-64-v3"
PROCESSORS = (PORTABLE, WIDE)
PARTS = ("src", "specs", "proofs")
KEYS = ("commit", "glibc", "kit", "programs", "sources")
VERSION = re.compile(r"[0-9]+(\.[0-9]+)*", re.ASCII)
TEST_MODULE = re.compile(r"^#\[cfg\(test\)\]\s*^(?:pub(?:\(crate\))? )?mod (\w+);", re.MULTILINE)
TOP = Path(__file__).resolve().parent.parent


class NotTaken(Exception):
    """Why the program of dist/ is not that of the tree, or not for this machine."""


def file_of(processor: str, top: Path = TOP) -> Path:
    """Where the program for such processors lies."""
    return top / FOLDER / f"{PROGRAM}-{processor}"


def sum_of(data: bytes) -> str:
    """SHA-256, in hexadecimal digits."""
    return hashlib.sha256(data).hexdigest()


# ---------------------------------------------------------------- sources


def test_modules(crate: Path) -> Set[str]:
    """The modules that a crate's root has under #[cfg(test)]: no program has anything of them."""
    roots = (crate / "src" / name for name in ("lib.rt", "main.rt"))
    return {name for root in roots if root.is_file() for name in TEST_MODULE.findall(root.read_text("utf-8", "replace"))}


def files_of(crate: Path) -> Iterator[Path]:
    """The files that a crate's part of the program and its proofs are made of."""
    tests = test_modules(crate)
    for part in PARTS:
        for path in (crate / part).rglob("*"):
            first = path.relative_to(crate / part).parts[0]
            if path.is_file() and not (first in tests or part == "src" and first[:-3] in tests):
                yield path


def sources(top: Path = TOP) -> str:
    """A line for each source of the program: its SHA-256 and its path, in the order of paths."""
    crates = crates_of((top / "crates.txt").read_text(encoding="utf-8").splitlines())
    names = needed(crates, PROGRAM)
    rows = "".join(f"{name}: {' '.join(below)}\n" for name, below in crates.items() if name in names)
    sums = {"crates.txt": sum_of(rows.encode())}
    for name in names:
        for path in files_of(top / "crates" / name):
            sums[path.relative_to(top).as_posix()] = sum_of(path.read_bytes())
    return "".join(f"{sums[path]}  {path}\n" for path in sorted(sums))


# ---------------------------------------------------------------- manifest


def read_manifest(top: Path = TOP) -> Dict:
    """What dist/ says of its programs."""
    try:
        manifest = json.loads((top / FOLDER / MANIFEST).read_text(encoding="utf-8"))
    except FileNotFoundError:
        raise NotTaken(f"{FOLDER}/ holds no program") from None
    except (OSError, ValueError) as fault:
        raise NotTaken(f"{FOLDER}/{MANIFEST} can't be read: {fault}") from None
    if not is_manifest(manifest):
        raise NotTaken(f"{FOLDER}/{MANIFEST} is no manifest, which has {', '.join(KEYS)}")
    return manifest


def is_manifest(value: object) -> bool:
    """Whether a value has what a manifest has."""
    if not isinstance(value, dict) or sorted(value) != sorted(KEYS) or not isinstance(value["programs"], dict):
        return False
    texts = [value[key] for key in KEYS if key != "programs"] + list(value["programs"].values())
    return all(isinstance(text, str) for text in texts) and bool(VERSION.fullmatch(value["glibc"]))


def write_manifest(kit: str, commit: str, top: Path = TOP) -> None:
    """Says of the programs in dist/ that they were built of the tree's sources. Where it said so before, that stays with
    its commit and its kit, so that who makes the same bytes again changes nothing, also by another kit."""
    programs = {processor: file_of(processor, top).read_bytes() for processor in PROCESSORS}
    manifest = {"commit": commit, "glibc": max(map(oldest_glibc, programs.values()), key=numbers), "kit": kit,
                "programs": {processor: sum_of(data) for processor, data in programs.items()},
                "sources": sum_of(sources(top).encode())}
    try:
        before = read_manifest(top)
    except NotTaken:
        before = {}
    if {**before, "commit": commit, "kit": kit} != manifest:
        (top / FOLDER / MANIFEST).write_text(json.dumps(manifest, indent=2) + "\n", encoding="utf-8")


def clean_commit(top: Path = TOP) -> str:
    """The commit that has the tree's crates as they are."""
    changed = answer_of(["git", "status", "--porcelain", "--", "crates", "crates.txt"], top)
    if changed:
        raise NotTaken(f"{changed.splitlines()[0].split()[-1]} is in no commit that the manifest could name")
    return answer_of(["git", "rev-parse", "HEAD"], top)


def answer_of(words: List[str], top: Path) -> str:
    """What a command prints."""
    try:
        ran = subprocess.run(words, cwd=top, stdout=subprocess.PIPE, stderr=subprocess.PIPE, universal_newlines=True, check=False)
    except OSError as fault:
        raise NotTaken(f"{words[0]} can't be run: {fault.strerror}") from None
    if ran.returncode:
        raise NotTaken(f"{' '.join(words)}: {ran.stderr.strip()}")
    return ran.stdout.strip()


# ---------------------------------------------------------------- the machine


def numbers(version: str) -> Tuple[int, ...]:
    """The numbers of a version, to be compared."""
    return tuple(map(int, version.split(".")))


def oldest_glibc(program: bytes) -> str:
    """The oldest glibc that has every symbol that a program wants."""
    found = re.findall(rb"(?<=\0)GLIBC_([0-9]+(?:\.[0-9]+)+)(?=\0)", program)
    return max((version.decode() for version in found), key=numbers, default="2.0")


def own_glibc() -> Optional[str]:
    """The machine's glibc; None where there is another C library."""
    try:
        name = os.confstr("CS_GNU_LIBC_VERSION") or ""
    except (AttributeError, OSError, ValueError):
        return None
    return name.partition("glibc ")[2] or None


def needs_fit(glibc: str) -> None:
    """Refuses a machine on which the programs do not run."""
    machine = platform.system(), platform.machine()
    if machine != ("Linux", "x86_64"):
        raise NotTaken(f"the programs of {FOLDER}/ are for Linux on x86-64, and this is {' on '.join(machine)}")
    own = own_glibc()
    if own is None or numbers(own) < numbers(glibc):
        raise NotTaken(f"the programs of {FOLDER}/ need glibc {glibc}, and this machine has {own or 'another C library'}")


# ---------------------------------------------------------------- the program


def claims_tree(manifest: Dict, top: Path = TOP) -> None:
    """Refuses a manifest of other sources than the tree's."""
    if manifest["sources"] != sum_of(sources(top).encode()):
        raise NotTaken(f"the sources are not those that dist/ was built from (commit {manifest['commit'][:12]})")


def whole_file(manifest: Dict, processor: str, top: Path = TOP) -> Path:
    """The program for such processors, whose bytes are those that the manifest names."""
    if processor not in manifest["programs"]:
        raise NotTaken(f"{FOLDER}/ has no program for {processor}")
    path = file_of(processor, top)
    try:
        data = path.read_bytes()
    except OSError as fault:
        raise NotTaken(f"{path.relative_to(top)} can't be read: {fault.strerror}") from None
    if sum_of(data) != manifest["programs"][processor]:
        raise NotTaken(f"the SHA-256 of {path.relative_to(top)} is not that of its manifest")
    return path


def checked_file(processor: str, top: Path = TOP) -> Path:
    """The program of the tree's sources for such processors, and for this machine."""
    manifest = read_manifest(top)
    claims_tree(manifest, top)
    needs_fit(manifest["glibc"])
    return whole_file(manifest, processor, top)


def tell() -> int:
    """Tells whether dist/ has the program of the tree, for each kind of processor."""
    try:
        manifest = read_manifest()
        claims_tree(manifest)
        for processor in PROCESSORS:
            whole_file(manifest, processor)
    except NotTaken as why:
        print(f"dist: {why}")
        return 1
    print(f"dist: the programs for {' and '.join(PROCESSORS)} are those of these sources, proved with {manifest['kit']}")
    return 0


def main(words: List[str]) -> int:
    if words == ["--help"]:
        print(__doc__)
        return 0
    if words == ["--self-test"]:
        from dist_test import self_test
        return self_test()
    if words == ["--sources"]:
        print(sources(), end="")
        return 0
    if words:
        print(f"dist: what is {words[0]}? --help says more", file=sys.stderr)
        return 2
    return tell()


if __name__ == "__main__":
    sys.exit(status_of("dist", lambda: main(sys.argv[1:])))
