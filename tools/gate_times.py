#!/usr/bin/env python3
"""Runs the gate and tells what its time goes into, crate by crate.

    python3 tools/gate_times.py [--write FILE] [COMMAND ..]
    python3 tools/gate_times.py --rows FILE MACHINE LOAD >> bench/results/gate.csv

COMMAND is `.ci/run` where none is given; its output is passed on. Every half second the processes of the kit are looked
at, and the processor time of each is put down for the crate that it works on: for its proof, for its tests, which are
proved once more with the crate, for its must-fail edits, or for the program that is made of it. What a process took in
the last half second of its life is missed. The table goes to FILE, or to the error output.

--rows makes rows of bench/results/gate.csv of such a file: MACHINE is its name in bench/README.md, LOAD what else ran, as
busy or quiet. A crate has a row of its own from SMALLEST minutes on. What the program took is with the proofs.

It reads /proc, so it needs Linux. --self-test runs the tests of this tool.

Status: that of COMMAND; 2 for a wrong word."""
import os
import platform
import re
import resource
import subprocess
import sys
import threading
import time
from collections import defaultdict
from pathlib import Path
from typing import Dict, List, NamedTuple, Optional, Sequence, Set, Tuple

PARTS = ("proof", "tests", "edits", "program")
SECONDS_BETWEEN = 0.5
SMALLEST = 1.5
TOP = Path(__file__).resolve().parent.parent
# What a page tells of its run, and a row of its table.
TOLD = re.compile(r"at (?P<commit>\w+) of (?P<date>[\d-]+), .*\n- (?P<processors>\d+) processors, .*\n"
                  r"- \*\*(?P<clock>\d+) minutes by the clock, (?P<used>\d+) of the processor\*\*")
ROW = re.compile(r"^\| (?:`(\w+)`|all) \| " + r" \| ".join(4 * [r"([\d.]*)"]) + r" \| [\d.]+ \|$", re.MULTILINE)
# Processor seconds, of a crate and a part.
Spent = Dict[Tuple[str, str], float]


class Process(NamedTuple):
    """A process of the kit: the words that it was started with, the folder that it works in, its processor seconds."""

    words: Sequence[str]
    folder: str
    seconds: float


def part_of(words: Sequence[str], folder: str) -> Optional[Tuple[str, str]]:
    """The crate that a process works on and the part of the gate that it does; None where it is not the kit's prover."""
    if "--crate-name" not in words or os.path.basename(words[0]) != "rattle":
        return None
    crate = words[words.index("--crate-name") + 1]
    if "--test" in words:
        return crate, "tests"
    if os.path.basename(folder).startswith("rt-edit-"):
        return crate, "edits"
    return crate, "program" if "--crate-checked" in words else "proof"


def descendants(parents: Dict[int, int], root: int) -> Set[int]:
    """The processes below `root`, by the parent of each."""
    found = {root}
    for number in parents:
        line = [number]
        while line[-1] in parents and line[-1] not in found:
            line.append(parents[line[-1]])
        if line[-1] in found:
            found.update(line)
    return found


def processes(root: int) -> Dict[int, Process]:
    """The kit's processes below the process `root`, by number. One that ends while it is looked at is left out."""
    parents: Dict[int, int] = {}
    found: Dict[int, Process] = {}
    tick = os.sysconf("SC_CLK_TCK")
    for entry in filter(str.isdigit, os.listdir("/proc")):
        try:
            fields = Path(f"/proc/{entry}/stat").read_text().rpartition(")")[2].split()
            parents[int(entry)] = int(fields[1])
            words = Path(f"/proc/{entry}/cmdline").read_bytes().decode(errors="replace").split("\0")
            if os.path.basename(words[0]) == "rattle":
                # Of the fields behind the name, the 12th and 13th are the user's and the system's time.
                seconds = (int(fields[11]) + int(fields[12])) / tick
                found[int(entry)] = Process(words, os.readlink(f"/proc/{entry}/cwd"), seconds)
        except OSError:
            continue
    below = descendants(parents, root)
    return {number: it for number, it in found.items() if number in below}


class Account:
    """What was spent, from the processes that were seen."""

    def __init__(self) -> None:
        self.seen: Dict[int, Tuple[Tuple[str, str], float]] = {}
        self.spent: Spent = defaultdict(float)

    def add(self, now: Dict[int, Process]) -> None:
        """Takes the processes of a moment."""
        for number, process in now.items():
            place = part_of(process.words, process.folder)
            if place is None:
                continue
            before = self.seen.get(number, (place, 0.0))
            # A number may be a new process's.
            earlier = before[1] if before[0] == place and before[1] <= process.seconds else 0.0
            self.spent[place] += process.seconds - earlier
            self.seen[number] = (place, process.seconds)


def table(spent: Spent) -> str:
    """Processor minutes by crate and part, the dearest crate first, and their sums."""
    crates = sorted({crate for crate, _ in spent}, key=lambda it: (-sum(spent.get((it, part), 0.0) for part in PARTS), it))
    rows = [["crate", *PARTS, "all"]]
    for crate in crates:
        values = [spent.get((crate, part), 0.0) for part in PARTS]
        rows.append([f"`{crate}`", *[f"{it / 60:.1f}" if it else "" for it in values], f"{sum(values) / 60:.1f}"])
    sums = [sum(spent.get((crate, part), 0.0) for crate in crates) for part in PARTS]
    rows.append(["all", *[f"{it / 60:.1f}" for it in sums], f"{sum(sums) / 60:.1f}"])
    lines = ["| " + " | ".join(row) + " |" for row in rows]
    return "\n".join([lines[0], "|---" * len(rows[0]) + "|", *lines[1:]])


def stolen(before: Sequence[int], after: Sequence[int]) -> float:
    """The part of the processors' time that the host gave to others, by two readings of /proc/stat."""
    spent = [late - early for early, late in zip(before, after)]
    return spent[7] / sum(spent) if sum(spent) else 0.0


def readings() -> List[int]:
    """The first line of /proc/stat: user, nice, system, idle, waiting, interrupts (2), stolen."""
    with open("/proc/stat") as lines:
        return [int(it) for it in next(lines).split()[1:9]]


def processor() -> str:
    """The processor's name."""
    try:
        with open("/proc/cpuinfo") as lines:
            return next((line.partition(":")[2].strip() for line in lines if line.startswith("model name")), platform.machine())
    except OSError:
        return platform.machine()


def output_of(words: Sequence[str]) -> str:
    """The first line that a command prints, or nothing."""
    ran = subprocess.run(words, stdout=subprocess.PIPE, stderr=subprocess.DEVNULL, text=True)
    return ran.stdout.partition("\n")[0]


def page(command: Sequence[str], clock: float, used: float, share: float, spent: Spent) -> str:
    """The page: what ran where, how long it took, and the table."""
    proved = sum(spent.values())
    return f"""# What the gate costs

Made by `python3 tools/gate_times.py --write FILE`; not written by hand.

- `{" ".join(command)}` at {output_of(["git", "log", "-1", "--format=%h of %cs"])}, {output_of(["rt", "version"])}
- {len(os.sched_getaffinity(0))} processors, {processor()}; the host gave {share:.0%} of their time to others
- **{clock / 60:.0f} minutes by the clock, {used / 60:.0f} of the processor**: {proved / 60:.0f} of the prover, {(used - proved) / 60:.0f} all else

Processor minutes. The proof of a crate with tests is in both columns, and each crate with edits is proved once more in theirs.

{table(spent)}
"""


def csv_rows(text: str, machine: str, load: str, edits: Dict[str, int]) -> List[str]:
    """The rows of bench/results/gate.csv of a page, by the number of edits of each crate: machine, commit, date, load,
    turns, processors, crates, edits, and the minutes by the clock, of all, of proofs, tests and edits."""
    told = TOLD.search(text)
    if told is None:
        return []
    head = [machine, told["commit"][:7], told["date"], load, "1", told["processors"]]
    spent = {found[0]: [float(it or 0) for it in found[1:]] for found in ROW.findall(text)}

    def row(crates: str, tried: int, minutes: Sequence[float], *ends: str) -> str:
        proof, tests, of_edits, program = minutes
        shown = [f"{it:.1f}" if it else "" for it in (proof + program, tests, of_edits)]
        return ",".join([*head, crates, str(tried or ""), *(ends or ("", "")), *shown])

    of_all = spent.pop("")
    large = sorted((crate for crate in spent if sum(spent[crate]) >= SMALLEST), key=lambda it: -sum(spent[it]))
    small = [crate for crate in spent if crate not in large]
    rest = [sum(spent[crate][part] for crate in small) for part in range(len(PARTS))]
    return [*(row(crate, edits.get(crate, 0), spent[crate]) for crate in large),
            row("the other crates", sum(edits.get(crate, 0) for crate in small), rest),
            row("all", sum(edits.values()), of_all, told["clock"], told["used"])]


def edits_now() -> Dict[str, int]:
    """The edits that the gate tries of each crate, by the tree."""
    return {folder.parent.name: len(list(folder.glob("*.edit"))) for folder in TOP.glob("crates/*/must-fail")}


def run(command: Sequence[str], write: Optional[str]) -> int:
    """Runs the command, looks at the kit's processes until it ends, and writes the page. Returns its status."""
    account, ended = Account(), threading.Event()

    begun, before = time.monotonic(), readings()
    child = subprocess.Popen(list(command))

    def watch() -> None:
        while not ended.wait(SECONDS_BETWEEN):
            account.add(processes(child.pid))

    watcher = threading.Thread(target=watch, daemon=True)
    watcher.start()
    status = child.wait()
    ended.set()
    watcher.join()
    times = resource.getrusage(resource.RUSAGE_CHILDREN)
    used = times.ru_utime + times.ru_stime
    text = page(command, time.monotonic() - begun, used, stolen(before, readings()), account.spent)
    if write:
        Path(write).write_text(text, encoding="utf-8")
    else:
        print(text, file=sys.stderr)
    return status


def self_test() -> int:
    """The tests of what the processes and the readings give."""
    rattle = "/kit/bin/rattle"
    assert part_of([rattle, "build", "--crate-name", "low", "-o", "x"], "/r/crates/low") == ("low", "proof")
    assert part_of([rattle, "build", "--crate-name", "low", "--test"], "/r/crates/low") == ("low", "tests")
    assert part_of([rattle, "check", "--crate-name", "low"], "/tmp/rt-edit-ab") == ("low", "edits")
    assert part_of([rattle, "build", "--crate-name", "top", "--crate-checked", "x"], "/r") == ("top", "program")
    assert part_of([rattle, "fmt", "--check"], "/r") is None and part_of(["python3", "--crate-name", "low"], "/r") is None
    assert descendants({5: 3, 3: 2, 2: 1, 9: 8, 8: 1, 7: 5}, 3) == {3, 5, 7}
    account = Account()
    words = [rattle, "build", "--crate-name", "low"]
    for seconds in (30.0, 60.0):
        account.add({7: Process(words, "/r", seconds), 8: Process([*words, "--test"], "/r", 30.0)})
    account.add({7: Process(words, "/r", 30.0)})
    assert account.spent == {("low", "proof"): 90.0, ("low", "tests"): 30.0}
    wanted = ["| crate | proof | tests | edits | program | all |", "|---|---|---|---|---|---|",
              "| `low` | 1.5 | 0.5 |  |  | 2.0 |", "| all | 1.5 | 0.5 | 0.0 | 0.0 | 2.0 |"]
    assert table(account.spent).splitlines() == wanted
    assert stolen([0] * 8, [1, 0, 1, 1, 0, 0, 0, 1]) == 0.25
    spent = {("low", "proof"): 90.0, ("low", "edits"): 30.0, ("tiny", "tests"): 6.0, ("low", "program"): 12.0}
    text = re.sub(r"at .* of .*, .*", "at abcdef012 of 2026-12-01, a kit", page(["x"], 120.0, 300.0, 0.0, spent), count=1)
    rows = csv_rows(text, "F", "busy", {"low": 3, "other": 1})
    wanted = [["low", "3", "", "", "1.7", "", "0.5"], ["the other crates", "", "", "", "", "0.1", ""],
              ["all", "4", "2", "5", "1.7", "0.1", "0.5"]]
    assert [it.split(",")[6:] for it in rows] == wanted, rows
    assert rows[0].startswith("F,abcdef0,2026-12-01,busy,1,") and csv_rows("no page", "F", "busy", {}) == []
    print("gate_times: the self-test passed")
    return 0


def main(words: List[str]) -> int:
    if words == ["--help"]:
        print(__doc__)
        return 0
    if words == ["--self-test"]:
        return self_test()
    if words[:1] == ["--rows"]:
        is_asked = len(words) == 4 and Path(words[1]).is_file()
        rows = csv_rows(Path(words[1]).read_text(encoding="utf-8"), *words[2:], edits_now()) if is_asked else []
        if not rows:
            print("gate_times: --rows takes a file that --write made, a machine's name and the load", file=sys.stderr)
            return 2
        print("\n".join(rows))
        return 0
    write = None
    if words[:1] == ["--write"]:
        if len(words) < 2:
            print("gate_times: --write takes a file's name", file=sys.stderr)
            return 2
        write, words = words[1], words[2:]
    if words and words[0].startswith("-"):
        print(f"gate_times: what is {words[0]}? --help says more", file=sys.stderr)
        return 2
    return run(words or ["bash", ".ci/run"], write)


if __name__ == "__main__":
    sys.exit(main(sys.argv[1:]))
