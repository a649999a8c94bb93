"""The self-test of tools/dist.py: a tree of a few crates, and what its programs are taken for."""
import json
import shutil
import subprocess
import tempfile
from pathlib import Path
from typing import Callable, Dict, Optional

import dist
from make_tables import Checks

CRATES = "# from the bottom up\nlow:\nmid: low sha2\nglass: mid  # the program\nglass_tests: mid\n"
FILES = {
    "low/src/lib.rt": "mod kept;\n#[cfg(test)]\nmod tests;\n", "low/src/kept.rt": "kept", "low/src/tests.rt": "a test",
    "low/src/tests/more.rt": "a test", "low/specs/Low.antt": "a definition", "low/proofs/kept/ensures.antt": "a proof",
    "low/proofs/tests/ensures.antt": "a test's proof", "low/must-fail/wrong.edit": "an edit", "low/README.md": "low",
    "low/out/low.rlib": "made", "mid/src/lib.rt": "", "glass/src/main.rt": "fn main() {}", "glass/stdout": "",
    "glass_tests/src/lib.rt": "", "more/src/lib.rt": "no line of crates.txt",
}
COUNTED = ["crates.txt", "crates/glass/src/main.rt", "crates/low/proofs/kept/ensures.antt", "crates/low/specs/Low.antt",
           "crates/low/src/kept.rt", "crates/low/src/lib.rt", "crates/mid/src/lib.rt"]
WANTS = b"\x7fELF\0GLIBC_2.2.5\0GLIBC_2.34\0GLIBC_2.9\0"


def tree(top: Path) -> None:
    """Crates with two programs in dist/ that were built of them."""
    (top / "crates.txt").write_text(CRATES, encoding="utf-8")
    for path, text in FILES.items():
        (top / "crates" / path).parent.mkdir(parents=True, exist_ok=True)
        (top / "crates" / path).write_text(text, encoding="utf-8")
    (top / dist.FOLDER).mkdir()
    for processor in dist.PROCESSORS:
        dist.file_of(processor, top).write_bytes(WANTS + processor.encode())
    dist.write_manifest("a kit", "0123456789abcdef", top)


def why_not(change: Callable[[Path], object]) -> Optional[str]:
    """Why the program of a tree is not taken after a change; None where it is."""
    with tempfile.TemporaryDirectory() as folder:
        top = Path(folder)
        tree(top)
        change(top)
        try:
            manifest = dist.read_manifest(top)
            dist.claims_tree(manifest, top)
            found = dist.whole_file(manifest, dist.WIDE, top).read_bytes()
        except dist.NotTaken as why:
            return str(why)
        return None if found == WANTS + dist.WIDE.encode() else "other bytes"


def named_after(change: Callable[[Path], object]) -> str:
    """The commit and the kit that the manifest names after a change and a second making by another kit."""
    with tempfile.TemporaryDirectory() as folder:
        top = Path(folder)
        tree(top)
        change(top)
        dist.write_manifest("another kit", "another commit", top)
        manifest = dist.read_manifest(top)
        return f"{manifest['commit']}, {manifest['kit']}"


def written(path: str, text: str) -> Callable[[Path], object]:
    """A change: a file gets this text."""
    def change(top: Path) -> None:
        (top / path).parent.mkdir(parents=True, exist_ok=True)
        (top / path).write_text(text, encoding="utf-8")

    return change


def claimed(changes: Dict) -> Callable[[Path], object]:
    """A change: these keys of the manifest."""
    def change(top: Path) -> None:
        path = top / dist.FOLDER / dist.MANIFEST
        path.write_text(json.dumps({**json.loads(path.read_text(encoding="utf-8")), **changes}), encoding="utf-8")

    return change


def test_sources(checks: Checks) -> None:
    """What counts as a source, and what a change of it does."""
    with tempfile.TemporaryDirectory() as folder:
        tree(Path(folder))
        lines = dist.sources(Path(folder)).splitlines()
    checks.same("the files that count", [line.split("  ")[1] for line in lines], COUNTED)
    # `printf kept | sha256sum`, and that of the three lines `low: `, `mid: low sha2` and `glass: mid`.
    checks.same("sums of files", lines[4][:16], "79f076abdd19a752")
    checks.same("sum of the crates' lines", lines[0][:16], "049002aa3c0e77b1")
    for path in set(FILES) - {path[len("crates/"):] for path in COUNTED}:
        checks.same(f"{path} changed", why_not(written(f"crates/{path}", "another")), None)
    other = "the sources are not those that dist/ was built from (commit 0123456789ab)"
    for path in COUNTED[1:]:
        checks.same(f"{path} changed", why_not(written(path, "another")), other)
    checks.same("a file more", why_not(written("crates/mid/specs/Mid.antt", "")), other)
    checks.same("a file less", why_not(lambda top: (top / "crates/low/src/kept.rt").unlink()), other)
    checks.same("a line of a test's crate", why_not(written("crates.txt", CRATES + "more: low\n")), None)
    checks.same("a line of a crate", why_not(written("crates.txt", CRATES.replace("low sha2", "low"))), other)


def test_manifest(checks: Checks) -> None:
    """What dist/ may lack, and what its programs may be."""
    checks.same("no manifest", why_not(lambda top: (top / "dist/manifest.json").unlink()), "dist/ holds no program")
    checks.same("no folder", why_not(lambda top: shutil.rmtree(top / "dist")), "dist/ holds no program")
    damaged = why_not(written("dist/manifest.json", "{"))
    checks.same("a damaged manifest", damaged and damaged.partition(": ")[0], "dist/manifest.json can't be read")
    told = why_not(lambda top: (top / "dist/manifest.json").write_bytes(b"\xff"))
    checks.same("bytes that are no text", told and told.partition(": ")[0], "dist/manifest.json can't be read")
    other = "dist/manifest.json is no manifest, which has commit, glibc, kit, programs, sources"
    checks.same("a list", why_not(written("dist/manifest.json", "[]")), other)
    for changes in ({"more": "1"}, {"programs": []}, {"programs": {"x86-64-v3": 1}}, {"glibc": 2.34}, {"glibc": "new"}):
        checks.same(f"{changes}", why_not(claimed(changes)), other)
    checks.same("no program of the kind", why_not(claimed({"programs": {}})), "dist/ has no program for x86-64-v3")
    checks.same("another program", why_not(written("dist/glass-x86-64-v3", "ELF")),
                "the SHA-256 of dist/glass-x86-64-v3 is not that of its manifest")
    checks.same("no file", why_not(lambda top: dist.file_of(dist.WIDE, top).unlink()),
                "dist/glass-x86-64-v3 can't be read: No such file or directory")
    checks.same("made again at another commit", named_after(lambda top: None), "0123456789abcdef, a kit")
    checks.same("made again of other sources", named_after(written("crates/low/src/kept.rt", "another")), "another commit, another kit")
    checks.same("made again over a damaged manifest", named_after(written("dist/manifest.json", "{")), "another commit, another kit")
    checks.same("the other program changed", why_not(written("dist/glass-x86-64", "ELF")), None)


def refused(call: Callable[[], object]) -> Optional[str]:
    """Why a call takes nothing, without numbers that are the machine's own."""
    try:
        call()
    except dist.NotTaken as why:
        return str(why)
    return None


def test_machine(checks: Checks) -> None:
    """Which glibc a program wants, and which commit a tree has."""
    checks.same("the glibc that is wanted", dist.oldest_glibc(WANTS), "2.34")
    checks.same("none is wanted", dist.oldest_glibc(b"GLIBC_3.1 in a text"), "2.0")
    if dist.own_glibc() is not None:
        told = refused(lambda: dist.needs_fit("99.1"))
        checks.same("a newer glibc", told and told.partition(", and")[0], "the programs of dist/ need glibc 99.1")
    with tempfile.TemporaryDirectory() as folder:
        checks.same("no repository", refused(lambda: dist.clean_commit(Path(folder))) is None, False)
        if shutil.which("git"):
            test_commit(checks, Path(folder))


def test_commit(checks: Checks, top: Path) -> None:
    """A tree whose crates are in no commit has none."""
    def git(*words: str) -> None:
        subprocess.run(["git", "-c", "user.name=a", "-c", "user.email=a", *words], cwd=top, check=True, stdout=subprocess.DEVNULL)

    tree(top)
    git("init", "-q")
    git("add", "crates.txt", "crates")
    git("commit", "-q", "-m", "crates")
    checks.same("a commit", len(dist.clean_commit(top)), 40)
    (top / "README.md").write_text("no crate", encoding="utf-8")
    checks.same("another file", len(dist.clean_commit(top)), 40)
    (top / "crates/low/src/kept.rt").write_text("another", encoding="utf-8")
    checks.same("a changed crate", refused(lambda: dist.clean_commit(top)),
                "crates/low/src/kept.rt is in no commit that the manifest could name")


def self_test() -> int:
    """Runs all, and returns the exit status."""
    checks = Checks("dist")
    test_sources(checks)
    test_manifest(checks)
    test_machine(checks)
    return checks.end()
