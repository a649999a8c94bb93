#!/usr/bin/env python3
"""Holds the programs of dist/ to what is built here, byte by byte.

    python3 tests/compare_dist.py              after `rt ci`, over the libraries that it has proved and left in crates/*/out
    python3 tests/compare_dist.py --self-test

Where the manifest claims the tree's sources, the crate `glass` is checked and compiled for each kind of processor, as
`rt ci` does it for the kit's own. Where it claims others, or dist/ holds no program, a line says so and nothing is built.

Status: 0 where all bytes are the same or nothing is claimed, 1 where they are not, or where nothing could be built, 2
for a wrong word."""
import os
import stat
import subprocess
import sys
import tempfile
from concurrent.futures import ThreadPoolExecutor
from pathlib import Path
from typing import Dict, List

sys.dont_write_bytecode = True
sys.path.insert(0, str(Path(__file__).resolve().parent.parent / "tools"))
import dist  # noqa: E402
from crate_list import crates_of, needed  # noqa: E402
from make_tables import Checks  # noqa: E402


class Wrong(Exception):
    """What is not as dist/ says."""


def kit_folder() -> Path:
    """Where the kit lies: the page to read first stands at its top."""
    return Path(dist.answer_of(["rt", "doc"], dist.TOP)).parent


def library_words(top: Path, kit: Path) -> List[str]:
    """The libraries of the program, as words for the compiler that runs in its folder."""
    crates = crates_of((top / "crates.txt").read_text(encoding="utf-8").splitlines())
    words = ["--extern", f"std={kit}/rlibs/std.rlib", "-L", f"dependency={kit}/rlibs"]
    for name in crates[dist.PROGRAM]:
        folder = f"../{name}/out/rlib" if name in crates else f"{kit}/rlibs"
        words += ["--extern", f"{name}={folder}/{name}.rlib"]
    for name in sorted(needed(crates, dist.PROGRAM) - {dist.PROGRAM}):
        words += ["-L", f"dependency=../{name}/out/rlib"]
    return words


def built(processor: str, top: Path, kit: Path, room: Path) -> bytes:
    """The program for such processors: checked and compiled over the proved libraries, and linked."""
    made = room / f"{dist.PROGRAM}-{processor}"
    compile_words = [f"{kit}/bin/rattle", "build", "--crate-name", dist.PROGRAM, "src/main.rt", *library_words(top, kit),
                     "--antt-project", f"{kit}/rattle/logic/antt-project.json", "--logic-built", f"{kit}/logic_built",
                     "--links", f"{dist.PROGRAM}=", f"--cpu={processor}", "--toolchain", f"{kit}/toolchain",
                     "--backend", "llvm", "-o", f"{made}.o"]
    link_words = [f"{kit}/bin/rattle-link", "--target", "x86_64-unknown-linux-gnu", "--toolchain", f"{kit}/toolchain",
                  "-o", str(made), f"{made}.o", f"{kit}/c/libos_c.a", f"{kit}/c/liblibc_c.a"]
    for words in (compile_words, link_words):
        ran = subprocess.run(words, cwd=top / "crates" / dist.PROGRAM, stdin=subprocess.DEVNULL, stdout=subprocess.PIPE,
                             stderr=subprocess.STDOUT, universal_newlines=True, errors="replace", check=False)
        if ran.returncode:
            raise Wrong(f"nothing could be built for {processor}: {Path(words[0]).name}: {' '.join(ran.stdout.split())[-600:]}")
    return made.read_bytes()


def earlier(top: Path) -> str:
    """A word on libraries of checks before `rt ci`, which gives them back at its end: they have a stamp."""
    stamped = sorted(path.parents[2].name for path in top.glob("crates/*/out/rlib/stamp"))
    return f"; {stamped[0]} has a library of an earlier check in out/, so compare in a fresh clone" if stamped else ""


def compare(processor: str, data: bytes, manifest: Dict, top: Path) -> None:
    """Refuses a program of dist/ that is not this one."""
    kept = dist.whole_file(manifest, processor, top).read_bytes()
    if data != kept:
        at = next((at for at, pair in enumerate(zip(data, kept)) if pair[0] != pair[1]), min(len(data), len(kept)))
        raise Wrong(f"{dist.file_of(processor, top).name} has {len(kept)} bytes, and what its sources give has {len(data)}; "
                    f"they differ first at byte {at + 1}; it was built with {manifest['kit']}{earlier(top)}")


def held(top: Path, kit: Path, manifest: Dict) -> None:
    """Holds both programs to what is built here, side by side."""
    with tempfile.TemporaryDirectory() as room, ThreadPoolExecutor(len(dist.PROCESSORS)) as pool:
        runs = {processor: pool.submit(built, processor, top, kit, Path(room)) for processor in dist.PROCESSORS}
        for processor, run in runs.items():
            compare(processor, run.result(), manifest, top)


def main(words: List[str]) -> int:
    if words == ["--help"]:
        print(__doc__)
        return 0
    if words == ["--self-test"]:
        return self_test()
    if words:
        print(f"compare_dist: what is {words[0]}? --help says more", file=sys.stderr)
        return 2
    try:
        manifest = dist.read_manifest()
        dist.claims_tree(manifest)
    except dist.NotTaken as why:
        print(f"compare_dist: nothing is compared: {why}")
        return 0
    try:
        held(dist.TOP, kit_folder(), manifest)
    except (Wrong, dist.NotTaken) as why:
        print(f"compare_dist: FAILED: {why}; here it is {dist.answer_of(['rt', 'version'], dist.TOP)}", file=sys.stderr)
        return 1
    print(f"compare_dist: the programs for {' and '.join(dist.PROCESSORS)} are, byte by byte, what their sources give")
    return 0


# ---------------------------------------------------------------- the self-test

# The compiler's stand-in writes what it is asked for; the linker's passes it on.
COMPILER = """#!/bin/sh
for word; do case $word in --cpu=*) cpu=${word#*=} ;; esac; done
[ -e ../low/out/rlib/low.rlib ] || { echo "no library low"; exit 1; }
case $* in *"--extern low=../low/out/rlib/low.rlib "*"-L dependency=../low/out/rlib "*) ;; *) exit 1 ;; esac
for word; do out=$word; done
printf 'program for %s' "$cpu" > "$out"
"""
LINKER = """#!/bin/sh
cp "$7" "$6"
"""


def stand_in(top: Path) -> Path:
    """A tree of two crates with its programs in dist/, and a kit; returns the kit's folder."""
    for path, text in {"crates.txt": "low:\nglass: low\n", "crates/low/out/rlib/low.rlib": "", "crates/glass/src/main.rt": "",
                       "kit/bin/rattle": COMPILER, "kit/bin/rattle-link": LINKER, "dist/README.md": ""}.items():
        (top / path).parent.mkdir(parents=True, exist_ok=True)
        (top / path).write_text(text, encoding="utf-8")
        (top / path).chmod(stat.S_IRWXU)
    for processor in dist.PROCESSORS:
        dist.file_of(processor, top).write_bytes(f"program for {processor}".encode())
    dist.write_manifest("a kit", "0123456789abcdef", top)
    return top / "kit"


def told(change) -> str:
    """What is said of the stand-in's programs after a change of the tree."""
    with tempfile.TemporaryDirectory() as folder:
        top = Path(folder)
        kit = stand_in(top)
        change(top)
        try:
            held(top, kit, dist.read_manifest(top))
        except (Wrong, dist.NotTaken) as why:
            return str(why)
        return "the same"


def other_program(top: Path) -> None:
    """One byte of one program is another, and the manifest has its sum."""
    dist.file_of(dist.WIDE, top).write_bytes(b"program for x86-64-v4")
    dist.write_manifest("a kit", "0123456789abcdef", top)


def over_earlier(top: Path) -> None:
    """The same, where a check before `rt ci` left a library."""
    other_program(top)
    (top / "crates/low/out/rlib/stamp").write_text("", encoding="utf-8")


def self_test() -> int:
    checks = Checks("compare_dist")
    checks.same("programs of their sources", told(lambda top: None), "the same")
    checks.same("another program", told(other_program),
                "glass-x86-64-v3 has 21 bytes, and what its sources give has 21; they differ first at byte 21; "
                "it was built with a kit")
    checks.same("another program, over the library of an earlier check", told(over_earlier),
                "glass-x86-64-v3 has 21 bytes, and what its sources give has 21; they differ first at byte 21; "
                "it was built with a kit; low has a library of an earlier check in out/, so compare in a fresh clone")
    checks.same("a damaged file", told(lambda top: dist.file_of(dist.PORTABLE, top).write_bytes(b"program for x86-64 ")),
                "the SHA-256 of dist/glass-x86-64 is not that of its manifest")
    checks.same("no proved library", told(lambda top: os.remove(top / "crates/low/out/rlib/low.rlib")),
                "nothing could be built for x86-64: rattle: no library low")
    return checks.end()


if __name__ == "__main__":
    sys.exit(main(sys.argv[1:]))
