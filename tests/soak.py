#!/usr/bin/env python3
"""Soaks outside the gate: many kills at random moments, and every end compared with the run without a stop.

    tests/soak.py drivers 300 [PROGRAM]    kill -9 of drivers (tools/long_run.py), of their programs, of several at once
    tests/soak.py program 200 [PROGRAM]    kill -9 of `glass run --from CK --save CK`, resumed from CK

The second has no driver: a checkpoint is saved under the name that it was read from, as a shell's loop would.
After each kill the saved name must hold the checkpoint before or the one behind, whole: then nothing is lost but
the part in work. Those that are written in part are counted. --seed S takes other moments.

Status: 0 where all ends are right, and no checkpoint was written in part; 1 where not; 2 for wrong words or where
there is no program."""
from __future__ import annotations

import contextlib
import os
import random
import shutil
import signal
import struct
import subprocess
import sys
import tempfile
import time
from collections import Counter
from pathlib import Path
from typing import List, Optional, Tuple

sys.dont_write_bytecode = True
from one_run import (EXAMPLE, FAILED, OneRun, after, give_up, kill_driver, kill_program, program_of,  # noqa: E402
                     seed_of)

sys.path.insert(0, str(Path(__file__).resolve().parent.parent / "tools"))
from describe import Damaged, level_checkpoint  # noqa: E402

# Planes of 32 sites: a checkpoint of 10 MB, so that many kills meet its writing.
LARGE = """size = 32
rule = "metropolis"
rules = "rules16.csv"
swaps = "swaps16.csv"
couplings = "random"
sweeps = 1
seed = 1
samples = 1
epochs = {epochs}
every = 1
start = "random"
spins = false
"""
PARTS = 8
PART = 2
# About as long as its writing takes.
WRITING_SECONDS = 0.006


# ---------------------------------------------------------------- drivers


def three_at_once(run: OneRun, folder: Path, chance: random.Random) -> int:
    """Without the lock; all are killed."""
    drivers = [run.start(folder, "--no-lock", "--part-epochs", str(chance.randrange(10, 40))) for _ in range(3)]
    return sum(after(driver, chance.uniform(0.05, 0.4), signal.SIGKILL)[0] == -signal.SIGKILL for driver in drivers)


def kill_once(run: OneRun, folder: Path, chance: random.Random) -> Tuple[str, int]:
    way = chance.choice(("driver", "driver", "program", "three at once"))
    if way == "driver":
        return way, int(kill_driver(run, folder, chance))
    if way == "program":
        return way, int(kill_program(run, folder, chance))
    return way, three_at_once(run, folder, chance)


def soak_drivers(program: str, kills: int, chance: random.Random) -> int:
    made: Counter = Counter()
    runs, wrong, start = 0, 0, time.monotonic()
    with tempfile.TemporaryDirectory() as room:
        run = OneRun(program, Path(room))
        while sum(made.values()) < kills:
            folder, runs = run.folder(), runs + 1
            for _ in range(chance.randrange(3, 9)):
                way, number = kill_once(run, folder, chance)
                made[way] += number
            status = run.call(folder)
            faults = ([f"status {status}"] if status else []) + run.faults(folder)
            aside = len(list(folder.glob("parts/damaged-*")))
            faults += [f"{aside} parts were set aside"] if aside else []
            wrong += bool(faults)
            for fault in faults:
                print(f"soak: run {runs}: {fault}", flush=True)
            shutil.rmtree(folder)
    ways = ", ".join(f"{number} {way}" for way, number in sorted(made.items()))
    print(f"soak: {sum(made.values())} kills in {runs} runs ({ways}), {wrong} runs wrong, {time.monotonic() - start:.0f} s")
    return 1 if wrong else 0


# ---------------------------------------------------------------- the program alone


class Large:
    """The large run in a folder of its own, in parts that save under one name."""

    def __init__(self, program: str, path: Path) -> None:
        self.program, self.path, self.saved = program, path, path / "state"
        self.last = PARTS * PART
        path.joinpath("run.toml").write_text(LARGE.format(epochs=self.last))
        for name in ("rules16.csv", "swaps16.csv"):
            shutil.copyfile(EXAMPLE / name, path / name)
        self.finish(self.run(["--save", "whole"], "whole.txt"), "whole")
        self.finish(self.part(0), "state")
        start = time.monotonic()
        self.finish(self.part(PART), "state")
        self.seconds = time.monotonic() - start

    def finish(self, child: subprocess.Popen, saved: str) -> None:
        """Without runs that nobody kills there is nothing to compare with."""
        if child.wait() or not (self.path / saved).exists():
            give_up(FAILED, f"{self.program} makes no run: status {child.returncode}")

    def run(self, words: List[str], report: str) -> subprocess.Popen:
        with open(self.path / report, "wb") as out:
            return subprocess.Popen([self.program, "run", "run.toml", *words], cwd=self.path, stdout=out)

    def part(self, epoch: int) -> subprocess.Popen:
        words = ["--until", str(epoch + PART), "--save", "state"] + (["--from", "state"] if epoch else [])
        return self.run(words, f"report.{epoch}")

    def epoch(self) -> int:
        """That of the saved checkpoint, 0 where there is none; -1 where it isn't whole."""
        if not self.saved.exists():
            return 0
        try:
            level_checkpoint(self.saved)
        except (Damaged, struct.error):
            return -1
        return int.from_bytes(self.saved.read_bytes()[40:48], "big")

    def names(self) -> List[str]:
        """The saved checkpoint, and the new file beside it that a kill in the writing leaves."""
        return sorted(name for name in os.listdir(self.path) if "state" in name)

    def left_new(self) -> Optional[int]:
        """When the new file was written that a kill has left."""
        new = self.path / ".state.new"
        return new.stat().st_mtime_ns if new.exists() else None

    def wait_for_writing(self, child: subprocess.Popen) -> None:
        """Until the saved name, or a new file beside it, changes."""
        def seen() -> List[Tuple[str, int, int]]:
            found = []
            for name in self.names():
                with contextlib.suppress(FileNotFoundError):
                    at = os.stat(self.path / name)
                    found.append((name, at.st_size, at.st_mtime_ns))
            return found

        before = seen()
        while child.poll() is None and seen() == before:
            time.sleep(0.0003)

    def rows(self, name: str) -> List[bytes]:
        return [line for line in (self.path / name).read_bytes().splitlines() if line.startswith(b"row,")]

    def is_right(self) -> bool:
        rows = [line for epoch in range(0, self.last, PART) for line in self.rows(f"report.{epoch}")]
        return rows == self.rows("whole.txt") and self.saved.read_bytes() == (self.path / "whole").read_bytes()


def soak_run(large: Large, chance: random.Random, made: Counter) -> bool:
    """One run to its end, with a kill in most of its parts. Whether its end is right."""
    epoch = 0
    large.saved.unlink(missing_ok=True)
    while epoch < large.last:
        left = large.left_new()
        if large.saved.exists():
            shutil.copyfile(large.saved, large.path / "before")
        with large.part(epoch) as child:
            moment = chance.choice(("any", "the end", "the writing", "none"))
            if moment == "the writing":
                large.wait_for_writing(child)
                time.sleep(chance.uniform(0, WRITING_SECONDS))
            elif moment != "none":
                time.sleep(large.seconds * chance.uniform(*((0, 1) if moment == "any" else (0.8, 1.2))))
            if moment != "none":
                child.kill()
            made["kills"] += child.wait() == -signal.SIGKILL
        made["in the writing"] += large.left_new() not in (None, left)
        found = large.epoch()
        if found < 0:
            made["written in part"] += 1
            large.saved.unlink()
            if epoch:
                os.replace(large.path / "before", large.saved)
        elif found not in (epoch, epoch + PART):
            print(f"soak: epoch {found} is saved after a part from {epoch}")
            return False
        made["after it was placed"] += found > epoch and child.returncode != 0
        epoch = found if found >= 0 else epoch
    return large.is_right() and large.names() == ["state"]


def soak_program(program: str, kills: int, chance: random.Random) -> int:
    made: Counter = Counter()
    runs, wrong, start = 0, 0, time.monotonic()
    with tempfile.TemporaryDirectory() as room:
        large = Large(program, Path(room))
        while made["kills"] < kills:
            runs += 1
            if not soak_run(large, chance, made):
                wrong += 1
                print(f"soak: run {runs} has another end", flush=True)
    print(f"soak: {made['kills']} kills of the program in {runs} runs, {wrong} runs wrong, "
          f"{made['in the writing']} kills in the writing of a new file, {made['after it was placed']} behind the placing, "
          f"{made['written in part']} checkpoints written in part, {time.monotonic() - start:.0f} s")
    return 1 if wrong or made["written in part"] else 0


def main(words: List[str]) -> int:
    seed, words = seed_of(words)
    if len(words) < 2 or words[0] not in ("drivers", "program") or not words[1].isdigit():
        print(__doc__)
        return 0 if words == ["--help"] else 2
    soak = soak_drivers if words[0] == "drivers" else soak_program
    return soak(program_of(words[2:]), int(words[1]), random.Random(seed))


if __name__ == "__main__":
    sys.exit(main(sys.argv[1:]))
