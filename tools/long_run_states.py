"""What is shown of long runs: a line while one works, and the states of many folders."""
from __future__ import annotations

import fcntl
import os
import re
import shutil
import sys
import time
from dataclasses import dataclass
from pathlib import Path
from typing import List, Optional, Sequence

from glass_program import moved
from long_run_driver import Driver
from long_run_folder import REFUSED, Fault, Record, RunFolder, read_keys
from long_run_report import header_of, is_joined

SHOW_SECONDS = 1.0


def duration(seconds: float) -> str:
    """A time to be read, in its two greatest units."""
    whole = int(seconds + 0.5)
    days, hours, minutes = whole // 86400, whole // 3600 % 24, whole // 60 % 60
    if days:
        return f"{days} d {hours:2} h"
    return f"{hours} h {minutes:2} min" if hours else f"{minutes} min {whole % 60:2} s"


class Progress:
    """One line on a terminal that is written over: epoch, share, spin updates a second, time left."""

    def __init__(self) -> None:
        self.is_terminal = sys.stderr.isatty()
        self.shown = 0.0

    def __call__(self, driver: Driver, first: int, until: int, seconds: float) -> None:
        if not self.is_terminal or time.monotonic() - self.shown < SHOW_SECONDS:
            return
        self.shown = time.monotonic()
        epochs = int(driver.keys["epochs"])
        text = f"epoch {first} of {epochs} ({100 * first / epochs:.1f} %)"
        if driver.pace is not None:
            updates = driver.plan.updates(driver.pace.rate)
            left = (epochs - first) / driver.pace.rate - seconds
            text += f", {updates:.2e} spin updates/s, {duration(max(0.0, left))} left"
        text += f", part to {until}"
        width = shutil.get_terminal_size().columns - 1
        print(f"\r{text[:width]}\x1b[K", end="", file=sys.stderr, flush=True)

    def close(self) -> None:
        if self.is_terminal and self.shown:
            print("\r\x1b[K", end="", file=sys.stderr, flush=True)


@dataclass(frozen=True)
class State:
    """Where a folder stands: done, running, stopped, new, or unreadable, and why."""

    word: str
    why: str = ""
    epoch: int = 0
    epochs: int = 0
    last: Optional[Record] = None
    slots: int = 0
    age: float = 0.0

    def is_to_be_started(self) -> bool:
        return self.word not in ("done", "running", "unreadable")


def is_held(folder: RunFolder) -> bool:
    """Whether a driver has the lock. Where a file system's locks are those of one machine, only that one sees it."""
    try:
        number = os.open(folder.path / "lock", os.O_RDONLY)
    except OSError:
        return False
    try:
        fcntl.flock(number, fcntl.LOCK_SH | fcntl.LOCK_NB)
    except BlockingIOError:
        return True
    except OSError:
        pass
    finally:
        os.close(number)
    return False


def state_of(folder: RunFolder) -> State:
    try:
        epochs = read_keys(folder.run_file)["epochs"]
        if type(epochs) is not int:
            raise Fault(REFUSED, f"{folder.run_file}: epochs is no whole number: {epochs!r}")
        last = folder.last_record()
        if last is None:
            return State("running" if is_held(folder) else "new", epochs=epochs)
        part = folder.part(last.first)
        # A driver may set the part aside meanwhile.
        age = time.time() - os.stat(part / "record.json").st_mtime
    except (Fault, OSError) as fault:
        return State("unreadable", str(fault))
    header = header_of(part / "report")
    slots = int(re.findall(rb"slots=([0-9]+)", header[0])[0]) if header else 0
    word = ("done" if is_joined(folder, epochs) and last.until == epochs else "running" if is_held(folder)
            else "stop set" if folder.stop_file.exists() else "stopped")
    return State(word, "", last.until, epochs, last, slots, age)


def line_of(name: str, state: State) -> str:
    """A line of the table."""
    if not state.epochs:
        return f"{name:<16} {state.word}: {state.why or 'epochs is 0'}"
    share = 100 * state.epoch / state.epochs
    text = f"{name:<16} {state.epoch:>10} {state.epochs:>10} {share:>6.1f} % {state.word:<8}"
    if state.last is None:
        return text.rstrip()
    rate = (state.last.until - state.last.first) / max(state.last.seconds, 1e-3)
    size, sweeps, samples = (int(state.last.keys[key]) for key in ("size", "sweeps", "samples"))
    updates = rate * sweeps * 2 * moved(samples) * state.slots * size ** 3
    left = "" if state.word == "done" else duration((state.epochs - state.epoch) / rate)
    return f"{text} {updates:>10.2e} {left:>14}  {duration(state.age)} ago on {state.last.host}"


def print_states(names: Sequence[str]) -> bool:
    """A line for each folder. Whether all are done."""
    print(f"{'folder':<16} {'epoch':>10} {'of':>10} {'share':>8} {'state':<8} {'updates/s':>10} {'time left':>14}  "
          "last part")
    counts: dict = {}
    for name in names:
        state = state_of(RunFolder(name))
        print(line_of(Path(name).name, state))
        counts[state.word] = counts.get(state.word, 0) + 1
    if len(names) > 1:
        print(", ".join(f"{count} {word}" for word, count in sorted(counts.items(), key=lambda it: -it[1])))
    return set(counts) <= {"done"}


def index_of(name: str) -> Optional[int]:
    """The number at the end of a folder's name, as 7 of seed-0007."""
    numbers = re.findall(r"[0-9]+", Path(name).name)
    return int(numbers[-1]) if numbers else None


def ranges(indices: Sequence[int]) -> str:
    """Indices as sbatch --array wants them: 3,7,10-12."""
    parts: List[List[int]] = []
    for index in sorted(set(indices)):
        if parts and index == parts[-1][1] + 1:
            parts[-1][1] = index
        else:
            parts.append([index, index])
    return ",".join(str(first) if first == last else f"{first}-{last}" for first, last in parts)


def print_unfinished(names: Sequence[str]) -> bool:
    """The indices of folders that are neither done nor running, on one line. Whether all are done."""
    unfinished, done = [], True
    for name in names:
        state, index = state_of(RunFolder(name)), index_of(name)
        if index is None:
            raise Fault(2, f"{name} has no number in its name")
        done = done and state.word == "done"
        if state.is_to_be_started():
            unfinished.append(index)
        if state.why:
            print(f"long_run: {state.why}", file=sys.stderr)
    if unfinished:
        print(ranges(unfinished))
    return done
