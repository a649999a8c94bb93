"""The files that a case begins with, and its texts, as tables of tests/cases write them (tests/README.md says how)."""
import hashlib
import re
from pathlib import Path
from typing import Any, Dict, List

CASES = Path(__file__).resolve().parent / "cases"
# A part of bytes: so many times the same, a slice of a file, one byte of it changed in some bits, or a digest.
TIMES = re.compile(r"([0-9a-f ]+)\* (\d+)")
SLICE = re.compile(r"([\w.]+)\[(\d*):(\d*)\]")
TURNED = re.compile(r"([\w.]+)\[(\d+)\]\^([0-9a-f]{2})")
DIGEST = re.compile(r"sha256(?:\[(\d+):\])?")


class WrongTable(Exception):
    """A table says what no case can be."""


def place(digits: str, otherwise: int) -> int:
    """A place in a file, or another where none is written."""
    return int(digits) if digits else otherwise


def part_of(part: str, before: bytes, folder: Path) -> bytes:
    """The bytes that a part of a file adds behind those before it."""
    digest, turned, cut = DIGEST.fullmatch(part), TURNED.fullmatch(part), SLICE.fullmatch(part)
    if digest:
        return hashlib.sha256(before[place(digest[1], 0):]).digest()
    if turned:
        return bytes([(folder / turned[1]).read_bytes()[int(turned[2])] ^ int(turned[3], 16)])
    if cut:
        stored = (folder / cut[1]).read_bytes()
        if place(cut[3], 0) > len(stored):
            raise WrongTable(f"{cut[1]} has {len(stored)} bytes, too few for {part}")
        return stored[place(cut[2], 0):place(cut[3], len(stored))]
    times = TIMES.fullmatch(part)
    return bytes.fromhex(times[1]) * int(times[2]) if times else bytes.fromhex(part)


def bytes_of(parts: List[str], folder: Path) -> bytes:
    """The bytes that parts are, one behind the other."""
    made = bytearray()
    for part in parts:
        made += part_of(part, bytes(made), folder)
    return bytes(made)


def repeated(content: Dict[str, Any]) -> bytes:
    """A text so many times, # in it being the number of the time."""
    first = content.get("from", 0)
    return "".join(content["text"].replace("#", str(k)) for k in range(first, first + content["times"])).encode()


def bytes_in(content: Any, named: Dict[str, Any], folder: Path) -> bytes:
    """The bytes of a text, of a list of texts, or of one of the five forms that are tables."""
    if isinstance(content, str):
        return content.encode()
    if isinstance(content, list):
        return b"".join(bytes_in(it, named, folder) for it in content)
    forms = {"times": lambda: repeated(content),
             "named": lambda: bytes_in(named[content["named"]], named, folder),
             "file": lambda: (folder / content["file"]).read_bytes(),
             "data": lambda: (CASES / content["data"]).read_bytes(),
             "bytes": lambda: bytes_of(content["bytes"], folder)}
    chosen = [it for it in forms if it in content]
    if len(chosen) != 1:
        raise WrongTable(f"no form of a text: {content}")
    return forms[chosen[0]]()


def changed(stored: bytes, changes: Dict[str, str], name: str) -> bytes:
    """A text with the first of each old part replaced by the new one."""
    for old, new in changes.items():
        if old.encode() not in stored:
            raise WrongTable(f"{name} has no {old!r}")
        stored = stored.replace(old.encode(), new.encode(), 1)
    return stored


def give(case: Dict[str, Any], named: Dict[str, Any], folder: Path) -> None:
    """Makes the files of a case in its folder: those that it gives, in their order, then its changes of what stands there."""
    for name, content in case.get("files", {}).items():
        (folder / name).write_bytes(bytes_in(content, named, folder))
    for name, changes in case.get("change", {}).items():
        (folder / name).write_bytes(changed((folder / name).read_bytes(), changes, name))
    for name, length in case.get("pad", {}).items():
        (folder / name).write_bytes((folder / name).read_bytes().ljust(length, b"\n"))
    for name in case.get("lost", []) + case.get("folders", []):
        (folder / name).unlink(missing_ok=True)
    for name in case.get("folders", []):
        (folder / name).mkdir()
