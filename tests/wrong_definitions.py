#!/usr/bin/env python3
"""Puts wrong definitions of the dynamics in, one at a time, and asks the prover which laws of run_decisions then fail.

    python3 tests/wrong_definitions.py            all, two minutes each on a busy machine
    python3 tests/wrong_definitions.py turn       those with this word in their name

In a temporary repository a crate has its own copies of the definitions of a sweep, an exchange, an epoch and a run, of what
of scalar_rule stands on them and serves the proofs, and of run_decisions itself. The copy as it is must be proved; each wrong
definition must leave at least one law without its proof. (That it makes a law false is what tools/reference/decided.py
shows, by a run.) The crates below are taken over with what their checks have kept (crates/*/out).

Status: 0 where all are refused, 1 where one is not, 2 for wrong words or where the copy isn't proved."""
from __future__ import annotations

import re
import shutil
import subprocess
import sys
import tempfile
from pathlib import Path
from typing import Dict, Iterator, List, Set, Tuple

ROOT = Path(__file__).resolve().parent.parent
BELOW, LAWS, COPY = "scalar_rule", "run_decisions", "wrong_decisions"
# The definitions that are changed.
CHANGED = {("specs", name) for name in ("Sweep", "Exchange", "Epoch", "Serial")}
USED = re.compile(r"Rattle\.(\w+)\.(specs|proofs)\.([A-Z]\w*)\b")
Module = Tuple[str, str]
# What is wrong, the file of definitions, the right text and the wrong one.
WRONG = (
    ("colour 0 twice", "Sweep", "half_sweep d 1 (half_sweep d 0 s)", "half_sweep d 0 (half_sweep d 0 s)"),
    ("colour 1 first", "Sweep", "half_sweep d 1 (half_sweep d 0 s)", "half_sweep d 0 (half_sweep d 1 s)"),
    ("each site by number 0", "Sweep", "[]) (place_in_plane l i)", "[]) 0"),
    ("words never advance", "Sweep", "[]) (half_plane l))", "[]) 0)"),
    ("words advance by one too many", "Sweep", "[]) (half_plane l))", "[]) (half_plane l + 1))"),
    ("one sweep too few", "Sweep", "0 n s", "1 n (sweep d s)"),
    ("the generator of the other colour", "Sweep", "words (colour l i * l + z_of l i)", "words (l + z_of l i)"),
    ("every slot by the thresholds of slot 0", "Epoch", "sweeps (dynamics_of plan b t)", "sweeps (dynamics_of plan b 0)"),
    ("a pair never has its turn", "Epoch", "has_turn k e = (k + e) % 2 == 0", "has_turn k e = 1 == 0"),
    ("a turn by the pair's number alone", "Epoch", "has_turn k e = (k + e) % 2 == 0", "has_turn k e = k % 2 == 0"),
    ("the record of another pair", "Exchange", "is_swapped plan.swaps k (draw", "is_swapped plan.swaps (k - 1) (draw"),
    ("number 0 for every sample", "Exchange", "(draw words b)", "(draw words 0)"),
    ("a pair's words never advance", "Exchange",
     "record { first = advanced pair.first 64; second = advanced pair.second 64 }", "pair"),
    ("the second replica by the first one's words", "Exchange", "second = traded (decision plan b k pair.second cold.second hot.second) cold",
     "second = traded (decision plan b k pair.first cold.second hot.second) cold"),
    ("a swap that copies", "Exchange", "first = traded (decision plan b k pair.first cold.first hot.first) hot.first cold.first", "first = hot.first"),
    ("an exchange without the sweeps", "Epoch", "s.pairs (swept_slots plan s))", "s.pairs s.slots)"),
)


def modules_of(crate: str) -> Dict[Module, str]:
    """The definitions and lemmas of a crate that stand in files of their own, by kind and name."""
    folder = ROOT / "crates" / crate
    return {(kind, file.stem): file.read_text(encoding="utf-8") for kind in ("specs", "proofs")
            for file in sorted((folder / kind).glob("*.antt")) if file.stem != "Lib"}


def uses(text: str, crate: str) -> Set[Module]:
    return {(kind, name) for of, kind, name in USED.findall(text) if of == crate}


def reached(start: Set[Module], modules: Dict[Module, str]) -> Set[Module]:
    found, left = set(), [it for it in start if it in modules]
    while left:
        module = left.pop()
        if module not in found:
            found.add(module)
            left += [it for it in uses(modules[module], BELOW) if it in modules]
    return found


def copied() -> Dict[Module, str]:
    """The modules of the crate below that the laws reach and that stand on a changed definition."""
    modules = modules_of(BELOW)
    texts = [it.read_text(encoding="utf-8") for it in (ROOT / "crates" / LAWS).rglob("*.antt") if "out" not in it.parts]
    needed = reached(set().union(*(uses(text, BELOW) for text in texts)), modules)
    return {it: modules[it] for it in needed if reached({it}, modules) & CHANGED}


def local(text: str, names: Set[Module]) -> str:
    """The text with the copied modules, and the laws' own crate, under the copy's name."""
    def renamed(found: re.Match[str]) -> str:
        crate, kind, name = found.groups()
        return f"Rattle.{COPY}.{kind}.Local{name}" if crate == BELOW and (kind, name) in names else found[0]
    return USED.sub(renamed, text).replace(f"Rattle.{LAWS}.", f"Rattle.{COPY}.")


def make_copy(place: Path) -> Path:
    """The temporary repository. Returns the folder of its crate."""
    lines = [it for it in (ROOT / "crates.txt").read_text(encoding="utf-8").splitlines() if not it.startswith("#")]
    stands_on = {line.split(":")[0]: line.split(":")[1].split() for line in lines if ":" in line}
    wanted: Set[str] = set()
    left = list(stands_on[LAWS])
    while left:
        name = left.pop()
        if name in stands_on and name not in wanted:
            wanted.add(name)
            left += stands_on[name]
            shutil.copytree(ROOT / "crates" / name, place / "crates" / name)
    kept = [line for line in lines if line.split(":")[0] in wanted]
    (place / "crates.txt").write_text("\n".join(kept + [f"{COPY}: {' '.join(stands_on[LAWS])}"]) + "\n", encoding="utf-8")
    crate, extra = place / "crates" / COPY, copied()
    shutil.copytree(ROOT / "crates" / LAWS, crate, ignore=shutil.ignore_patterns("out"))
    for file in [*crate.rglob("*.antt"), *crate.rglob("*.rt")]:
        file.write_text(local(file.read_text(encoding="utf-8"), set(extra)), encoding="utf-8")
    for (kind, name), text in extra.items():
        (crate / kind / f"Local{name}.antt").write_text(local(text, set(extra)), encoding="utf-8")
        with open(crate / kind / "Lib.antt", "a", encoding="utf-8") as library:
            library.write(f"pub mod Local{name}\n")
    (crate / "out").mkdir()
    return crate


def failing(crate: Path) -> Tuple[bool, List[str]]:
    """Whether the crate is proved, and the lemmas and laws that are not."""
    done = subprocess.run(["rt", "check", "--jobs", "1"], cwd=crate, stdout=subprocess.PIPE, stderr=subprocess.STDOUT, text=True)
    text = done.stdout
    unread = re.search(r"^\./specs/\S+ error: .*", text, re.M)
    if unread:
        sys.exit(f"wrong_definitions: a definition isn't read: {unread[0]}")
    laws = {it for file in crate.glob("src/*.rt") for it in re.findall(r"^pub fn (\w+)", file.read_text(encoding="utf-8"), re.M)}
    proved = set(re.findall(rf"fn {COPY}::(\w+): proved", text))
    lemmas = re.findall(r"error: `([\w-]+)`", text)
    return "logic=proved" in text, sorted(laws - proved) + list(dict.fromkeys(lemmas))


def changes(word: str) -> Iterator[Tuple[str, str, str, str]]:
    return (it for it in WRONG if word in it[0])


def main(words: List[str]) -> int:
    if len(words) > 1 or words and not list(changes(words[0])):
        print(__doc__, file=sys.stderr)
        return 2
    wrong = 0
    with tempfile.TemporaryDirectory() as name:
        crate = make_copy(Path(name))
        is_proved, found = failing(crate)
        print(f"as it is: {'proved' if is_proved else 'not proved: ' + ', '.join(found)}", flush=True)
        if not is_proved:
            return 2
        for what, file, right, replaced in changes(words[0] if words else ""):
            path = crate / "specs" / f"Local{file}.antt"
            text = path.read_text(encoding="utf-8")
            if text.count(right) != 1:
                print(f"wrong_definitions: {file} has not once: {right}", file=sys.stderr)
                return 2
            path.write_text(text.replace(right, replaced), encoding="utf-8")
            is_proved, found = failing(crate)
            path.write_text(text, encoding="utf-8")
            print(f"{what}: {'PROVED' if is_proved else 'refused: ' + ', '.join(found)}", flush=True)
            wrong += is_proved
    return 1 if wrong else 0


if __name__ == "__main__":
    sys.exit(main(sys.argv[1:]))
