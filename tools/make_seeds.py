#!/usr/bin/env python3
"""Makes the folders of an array of runs, one for each seed and couplings file, from a template.

    python3 tools/make_seeds.py run.toml --count 100 --into study
    python3 tools/make_seeds.py run.toml --count 20 --couplings a.couplings b.couplings --into study

The folders are study/seed-0001, seed-0002 and so on. Each has the template's run file with a seed of its own,
which is the template's seed plus 10000 times the size plus the folder's number, and copies of its tables. The
generators of a run don't know its size: with one seed the couplings of a small lattice are the first ones of a
greater one. So two sizes of a study get different seeds from one template's seed. With couplings files each is
taken with --count seeds: the first --count folders have the first file, the next ones the second. A couplings
file is linked where the file system can, so that it takes its room once. index.csv in the same place lists
folders, seeds and couplings.

--first begins at another number, so that a study is made larger; a template of other tables, of another size, rule,
start, number of sweeps or kind of couplings, or one that would make a seed a second time, is refused then. A folder that
is there is never touched.
"""
from __future__ import annotations

import argparse
import os
import re
import shutil
import sys
import tempfile
from pathlib import Path
from typing import Dict, List, Optional, Sequence, Tuple

sys.dont_write_bytecode = True
from couplings import GREATEST_SEED  # noqa: E402
from exit_status import status_of  # noqa: E402
from long_run_folder import Fault, Value, read_keys, read_text  # noqa: E402
from make_tables import Checks, OneLineParser, Refusal, outcome  # noqa: E402
from manifest import FILE, TABLES, Manifest, check_same, digests_of, of_run_file  # noqa: E402

GREATEST_NUMBER = 9999
# Of sizes that follow each other, seeds are so far apart for each step of the size.
SEEDS_OF_A_SIZE = GREATEST_NUMBER + 1
INDEX = "index.csv"


def with_value(text: str, key: str, value: Value) -> str:
    """The run file's text with another value of a key, which has a line of its own."""
    spelled = f'"{value}"' if isinstance(value, str) else str(value)
    line = re.compile(rf"^([ \t]*{key}[ \t]*=[ \t]*)[^#\n]*?([ \t]*(?:#[^\n]*)?)$", re.M)
    text, count = line.subn(lambda found: f"{found[1]}{spelled}{found[2]}", text)
    if count != 1:
        raise Refusal(f"the template has {count} lines `{key} = ..`, and one is to be changed")
    return text


def place(source: Path, to: Path, link: bool) -> None:
    if link:
        try:
            os.link(source, to)
            return
        except OSError:
            pass
    shutil.copyfile(source, to)


def tasks(options: argparse.Namespace, base: int) -> List[Tuple[int, int, Optional[Path]]]:
    """The number, seed and couplings file of each folder."""
    files: Sequence[Optional[Path]] = [Path(name) for name in options.couplings or []] or [None]
    numbers = range(options.first, options.first + options.count * len(files))
    found = [(number, base + number, files[n // options.count]) for n, number in enumerate(numbers)]
    if options.count < 1 or options.first < 0 or found[-1][0] > GREATEST_NUMBER:
        raise Refusal(f"numbers of folders are from 0 to {GREATEST_NUMBER}")
    if found[-1][1] > GREATEST_SEED:
        raise Refusal(f"seed {found[-1][1]} is above {GREATEST_SEED}")
    return found


def check_sources(template: Path, keys: Dict[str, Value], couplings: Sequence[str]) -> None:
    """Each file that the folders take is there, and the template's lie beside it."""
    own = str(keys["couplings"])
    named = [str(keys["rules"]), str(keys["swaps"])] + ([own[5:]] if own.startswith("file:") and not couplings else [])
    for name in named:
        if os.path.basename(name) != name:
            raise Refusal(f"{template} names {name}, which is in another folder")
    for path in [template.parent / name for name in named] + [Path(name) for name in couplings]:
        if not path.is_file():
            raise Refusal(f"there is no file {path}")
        if path.name != os.fsencode(path.name).decode(errors="replace"):
            raise Refusal(f"{path} has a name that isn't UTF-8, so no run file names it")


def check_study(template: Path, keys: Dict[str, Value], couplings: Sequence[str], seeds: Sequence[int], into: Path) -> None:
    """Refuses a template of another study than the folders that are there, and a seed that one of them has: their
    reports could not be averaged with the new ones."""
    folders = sorted(into.glob("seed-[0-9]*"))
    tables = digests_of(template.parent, {key: str(keys[key]) for key in TABLES})
    wanted = Manifest(str(template), dict(keys, couplings=FILE) if couplings else keys, tables)
    for folder in folders[:1]:
        try:
            check_same(of_run_file(folder / "run.toml"), wanted)
        except Refusal as refusal:
            raise Refusal(f"{refusal}: make another study elsewhere") from None
    for folder in folders:
        seed = read_keys(folder / "run.toml")["seed"]
        if seed in seeds:
            raise Refusal(f"{folder} has the seed {seed} already: give the template another one")


def size_of(template: Path, keys: Dict[str, Value]) -> int:
    if type(keys["size"]) is not int or not 4 <= keys["size"] <= 64:
        raise Refusal(f"{template}: size is not from 4 to 64: {keys['size']!r}")
    return keys["size"]


def make_folder(path: Path, template: Path, seed: int, couplings: Optional[Path]) -> None:
    """A folder of a run, which is there whole or not at all."""
    path.mkdir()
    try:
        fill(path, template, seed, couplings)
    except BaseException:
        shutil.rmtree(path, ignore_errors=True)
        raise


def fill(path: Path, template: Path, seed: int, couplings: Optional[Path]) -> None:
    """Writes the files of a run, and checks its run file by reading it again."""
    keys = read_keys(template)
    text = with_value(read_text(template), "seed", seed)
    wanted = dict(keys, seed=seed)
    if couplings is not None:
        wanted["couplings"] = f"file:{couplings.name}"
        text = with_value(text, "couplings", wanted["couplings"])
    (path / "run.toml").write_text(text, encoding="utf-8")
    if read_keys(path / "run.toml") != wanted:
        raise Refusal(f"{template} has a line that isn't plain: another key would change with the seed")
    for name in {str(keys["rules"]), str(keys["swaps"])}:
        place(template.parent / name, path / name, link=False)
    own = str(wanted["couplings"])
    if own.startswith("file:"):
        source = couplings if couplings is not None else template.parent / own[5:]
        place(source, path / source.name, link=True)


def write_folders(into: Path, template: Path, found: Sequence[Tuple[int, int, Optional[Path]]], own: str) -> None:
    """The folders, and a line of the index for each; `own` is what the template says of couplings."""
    into.mkdir(parents=True, exist_ok=True)
    index = into / INDEX
    is_new = not index.exists()
    with open(index, "a", encoding="utf-8") as lines:
        if is_new:
            lines.write("number,folder,seed,couplings\n")
        for number, seed, couplings in found:
            make_folder(into / f"seed-{number:04d}", template, seed, couplings)
            lines.write(f"{number},seed-{number:04d},{seed},{couplings.name if couplings else own}\n")


def make(options: argparse.Namespace) -> None:
    template, into = Path(options.template), Path(options.into)
    keys = read_keys(template)
    check_sources(template, keys, options.couplings or [])
    if type(keys["seed"]) is not int:
        raise Refusal(f"{template}: seed is no whole number: {keys['seed']!r}")
    found = tasks(options, keys["seed"] + SEEDS_OF_A_SIZE * size_of(template, keys))
    taken = [number for number, _, _ in found if (into / f"seed-{number:04d}").exists()]
    if taken:
        raise Refusal(f"{into / f'seed-{taken[0]:04d}'} is there: give --first a number above it")
    check_study(template, keys, options.couplings or [], [seed for _, seed, _ in found], into)
    try:
        write_folders(into, template, found, str(keys["couplings"]))
    except OSError as fault:
        raise Refusal(f"{into} can't be written: {fault.strerror}") from None
    print(f"wrote {len(found)} folders, {into}/seed-{found[0][0]:04d} to seed-{found[-1][0]:04d}, "
          f"seeds {found[0][1]} to {found[-1][1]}")


# ---------------------------------------------------------------- the self-test

TEMPLATE = """size = 4
rule = "heat"
rules = "rules.csv"
swaps = "swaps.csv"
couplings = "random"  # drawn from the seed
sweeps = 1
seed = 1000 # the base
samples = 2
epochs = 4
every = 1
start = "up"
spins = false
"""


def check_refusals(checks: Checks, folder: Path) -> None:
    """Each is told in a line, and leaves no folder."""
    template, into = folder / "run.toml", folder / "refused"
    cases = [("1000 # the base", '"x"', []), ("rules.csv", "none.csv", []), ("rules.csv", "../rules.csv", []),
             ('"random"', '"file:none"', []), ('"random"', '"file:sub/a"', []), ("", "", ["--couplings", str(folder / "none")]),
             ("", "", ["--couplings", str(folder)]), ("1000 # the base", '"""\n7"""', [])]
    for old, new, words in cases:
        template.write_text(TEMPLATE.replace(old, new))
        status, out, err = outcome([str(template), "--into", str(into), *words], main)
        checks.same(f"{new or words} is refused in a line", (status, out, err.count("\n"), into.exists()), (2, "", 1, False))
    template.write_text(TEMPLATE)
    strange = folder / os.fsdecode(b"\xff")
    strange.write_text("")
    status, out, err = outcome([str(template), "--into", str(into), "--couplings", str(strange)], main)
    checks.same("a name that is no text", (status, out, err.count("\n"), into.exists()), (2, "", 1, False))
    status, out, err = outcome([str(template), "--into", str(template)], main)
    checks.same("no folder to write in", (status, out, err.count("\n")), (2, "", 1))
    # What looks like the seed's line stands in another key, so the folder's run file is not the template's.
    template.write_text(TEMPLATE.replace("seed = 1000 # the base", '"seed" = 5').replace('"up"', '"""\nseed = 1\n"""'))
    found = outcome([str(template), "--into", str(into)], main)
    checks.same("a folder that was begun is gone", (found[0], found[2].count("\n"), list(into.glob("seed-*"))), (2, 1, []))


def check_files(checks: Checks, folder: Path) -> None:
    into = folder / "files"
    words = [str(folder / "run.toml"), "--into", str(into), "--count", "2", "--couplings", str(folder / "a"), str(folder / "b")]
    checks.same("two files with two seeds each", outcome(words, main)[0], 0)
    keys = read_keys(into / "seed-0003" / "run.toml")
    third = (keys["seed"], keys["couplings"], (into / "seed-0003" / "b").read_text())
    checks.same("the third", third, (41003, "file:b", "B"))
    checks.same("the index", (into / INDEX).read_text().splitlines()[-1], "4,seed-0004,41004,b")
    checks.same("a larger study of other files", outcome([*words[:-1], "--first", "5"], main)[0], 0)


def check_another_study(checks: Checks, folder: Path, words: Sequence[str]) -> None:
    (folder / "other.csv").write_text("2\n")
    for old, new in (("sweeps = 1", "sweeps = 2"), ("rules.csv", "other.csv"), ("size = 4", "size = 6"), ('"random"', '"plus"'),
                     ("1000 # the base", "995")):
        (folder / "run.toml").write_text(TEMPLATE.replace(old, new))
        status, out, err = outcome([*words, "--first", "7"], main)
        is_there = (folder / "study" / "seed-0007").exists()
        checks.same(f"another study, {new}", (status, out, err.count("\n"), is_there), (2, "", 1, False))
    (folder / "run.toml").write_text(TEMPLATE)
    found = outcome([*words, "--first", "7", "--couplings", str(folder / "a")], main)
    checks.same("another kind of couplings", (found[0], found[2].count("\n")), (2, 1))


def check_sizes(checks: Checks, folder: Path) -> None:
    """With one template's seed no two sizes have a seed in common."""
    seeds: Dict[int, int] = {}
    for size in (4, 6, 8):
        (folder / "run.toml").write_text(TEMPLATE.replace("size = 4", f"size = {size}"))
        into = folder / f"size_{size}"
        checks.same(f"size {size}", outcome([str(folder / "run.toml"), "--into", str(into), "--count", "3"], main)[0], 0)
        for path in into.glob("seed-*"):
            seed = int(str(read_keys(path / "run.toml")["seed"]))
            checks.same(f"seed {seed} of size {size}", seeds.setdefault(seed, size), size)
    checks.same("seeds of all sizes", len(seeds), 9)
    checks.same("the last seed is below the next size's first", SEEDS_OF_A_SIZE > GREATEST_NUMBER, True)
    (folder / "run.toml").write_text(TEMPLATE)


def self_test() -> int:
    checks = Checks("make_seeds")
    with tempfile.TemporaryDirectory() as name:
        folder = Path(name)
        for file, text in (("run.toml", TEMPLATE), ("rules.csv", "1\n"), ("swaps.csv", ""), ("a", "A"), ("b", "B")):
            (folder / file).write_text(text)
        template, into = str(folder / "run.toml"), folder / "study"
        words = [template, "--into", str(into), "--count", "2"]
        checks.same("two seeds", outcome(words, main)[0], 0)
        text = (into / "seed-0002" / "run.toml").read_text()
        checks.same("only the seed's line differs", text, TEMPLATE.replace("1000", "41002"))
        checks.same("its files", sorted(os.listdir(into / "seed-0002")), ["rules.csv", "run.toml", "swaps.csv"])
        checks.same("a folder is there", outcome(words, main)[0], 2)
        check_files(checks, folder)
        check_another_study(checks, folder, words)
        (folder / "run.toml").write_text(TEMPLATE.replace("epochs = 4", "epochs = 8"))
        checks.same("a longer one", outcome([*words, "--first", "7"], main)[0], 0)
        (folder / "run.toml").write_text(TEMPLATE.replace("seed = 1000 # the base", '"seed" = 1000'))
        checks.same("no plain line", outcome([*words, "--first", "9"], main)[0], 2)
        check_refusals(checks, folder)
        check_sizes(checks, folder)
    return checks.end()


def main(words: Optional[Sequence[str]] = None) -> int:
    parser = OneLineParser(prog="make_seeds", description=__doc__, allow_abbrev=False,
                           formatter_class=argparse.RawDescriptionHelpFormatter)
    parser.add_argument("template", nargs="?", metavar="RUN", help="the template's run file; its tables lie beside it")
    parser.add_argument("--count", type=int, default=1, metavar="N", help="seeds, for each couplings file (1)")
    parser.add_argument("--first", type=int, default=1, metavar="I", help="the first folder's number (1)")
    parser.add_argument("--couplings", nargs="+", metavar="FILE", help="couplings files")
    parser.add_argument("--into", default=".", metavar="FOLDER", help="where the folders are made (.)")
    parser.add_argument("--self-test", action="store_true", help="make folders and look at them")
    try:
        options = parser.parse_args(words)
        if options.self_test:
            return self_test()
        if options.template is None:
            raise Refusal("a run file is needed; --help says more")
        make(options)
    except (Refusal, Fault) as refusal:
        print(f"make_seeds: {refusal}", file=sys.stderr)
        return 2
    return 0


if __name__ == "__main__":
    sys.exit(status_of("make_seeds", main))
