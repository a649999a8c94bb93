#!/usr/bin/env python3
"""Holds the lock's turns to what they may do: whoever holds the lock waits for nobody.

A function can wait only by a handle whose type has the bound `Wait`. So between the taking of a turn and its giving back
nothing waits where

- no crate that the board under the lock stands on has the bound, but for the lock itself;
- each function of the lock and of the shared board that has the bound uses its handle once, to come to its turn.

--self-test runs the tests of this tool.

Status: 0 where that is so, 1 where it is not, with a line for each place, 2 for a wrong word."""
import re
import sys
from pathlib import Path
from typing import Dict, Iterator, List, Set

import source_check
from crate_list import crates_of, needed

LOCK, BOARD, SHARED = "turn_cell", "exchange_board", "shared_board"
# What a waiting function does with its handle: it hands it on to the lock, and the lock to its wait between two looks.
ONCE = {SHARED: r"\.take_turn\(rt, pass\)", LOCK: r"\brt\b"}
FUNCTION = re.compile(r"^ *(?:pub(?:\([a-z]+\))? )?fn (\w+)", re.M)
WAITS = re.compile(r"\b[A-Z]\w*: (?:[\w]+ \+ )*Wait\b")


def functions(code: str) -> Iterator[str]:
    """The functions of a file, each from its head to the next one's."""
    starts = [it.start() for it in FUNCTION.finditer(code)] + [len(code)]
    for start, end in zip(starts, starts[1:]):
        yield code[start:end]


def without_comments(code: str) -> str:
    """The file without what stands behind //."""
    return re.sub(r"//.*", "", code)


def body_of(function: str) -> str:
    """What stands behind the head's brace, which closes the signature or stands alone on its line."""
    found = re.search(r"(?:^ *\{$|\) (?:-> [^{]*)?\{$)", function, re.M)
    return function[found.end():] if found else ""


def waiting_below(crates: Dict[str, List[str]], code: Dict[str, List[str]]) -> List[str]:
    """The functions with the bound in the crates that the board stands on."""
    below: Set[str] = needed(crates, BOARD) - {LOCK}
    return [f"{crate}: {name_of(it)} may wait, and the board under the lock stands on {crate}"
            for crate in sorted(below) for file in code.get(crate, []) for it in functions(without_comments(file)) if WAITS.search(it)]


def name_of(function: str) -> str:
    found = FUNCTION.search(function)
    return found[1] if found else "?"


def waiting_twice(code: Dict[str, List[str]]) -> List[str]:
    """The functions of the lock and of the shared board that use their handle otherwise than to come to their turn."""
    found = []
    for crate, use in ONCE.items():
        for file in code.get(crate, []):
            for each in functions(without_comments(file)):
                uses = len(re.findall(r"\brt\b", body_of(each)))
                if WAITS.search(each) and not (uses == 1 and re.search(use, body_of(each))):
                    found.append(f"{crate}: {name_of(each)} may wait otherwise than for its turn")
    return found


def sources(root: Path) -> Dict[str, List[str]]:
    return {crate.name: [it.read_text() for it in sorted((crate / "src").rglob("*.rt"))] for crate in sorted((root / "crates").iterdir())}


def find() -> List[str]:
    root = Path(__file__).resolve().parent.parent
    code = sources(root)
    crates = crates_of((root / "crates.txt").read_text().splitlines())
    if not any(WAITS.search(it) for crate in ONCE for it in code[crate]):
        return ["no function of the lock has the bound Wait: this check looks for another word"]
    return waiting_below(crates, code) + waiting_twice(code)


def self_test() -> int:
    """Sources of one function each, right and wrong."""
    crates = {"low": [], LOCK: ["low"], BOARD: ["low", LOCK], SHARED: [BOARD, LOCK]}
    waits = "pub fn look<R: Threads + Wait>(rt: &R) -> u64 {\n    rt.wait()\n}\n"
    assert waiting_below(crates, {"low": ["fn look(a: u64) -> u64 {\n    a\n}\n"], LOCK: [waits], SHARED: [waits]}) == []
    assert waiting_below(crates, {"low": [waits]}) == ["low: look may wait, and the board under the lock stands on low"]
    assert waiting_below(crates, {BOARD: ["// R: Wait\nfn a() {\n}\n"]}) == []
    turn = "    pub fn take<R: Wait>(&self, rt: &R, pass: &mut Pass) -> Next\n        requires { own }\n    {\n%s    }\n"
    one = "        let board = self.cell.take_turn(rt, pass);\n        self.hand_out(pass, board)\n"
    assert waiting_twice({SHARED: [turn % one]}) == []
    for wrong in (one + "        rt.wait();\n", "        rt.wait();\n", "        let x = 1;\n"):
        assert waiting_twice({SHARED: [turn % wrong]}) == ["shared_board: take may wait otherwise than for its turn"], wrong
    print("check_waits: the self-test passed")
    return 0


if __name__ == "__main__":
    sys.exit(source_check.run("check_waits", __doc__, sys.argv[1:], self_test, find, lambda: "who holds the lock waits for nobody"))
