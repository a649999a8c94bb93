"""Drives `glass run` or `glass measure` in parts in a folder that it holds, until the run is done or something stops it."""
from __future__ import annotations

import contextlib
import datetime
import fcntl
import os
import secrets
import socket
import subprocess
import sys
import time
from dataclasses import dataclass
from pathlib import Path
from typing import Callable, Dict, Iterator, List, Optional

from glass_program import child_setup, plan_of
from long_run_folder import (DAMAGED, DIED, HELD, NO_PART, NOT_HELD, NOT_PLACED, REFUSED, STOPPED, UNREADABLE, Fault,
                             Record, RunFolder, Value, digest_of, read_keys, remove)
from long_run_report import header_of, is_joined, place_joined
from long_run_stop import Stop
from make_tables import Refusal
from manifest import of_run_file, write_manifest

GREATEST_ROWS = 4194304
CHECKPOINT_REFUSED = 6
# A part that another machine's pace would make 15 minutes long begins with an eighth of its epochs.
NEW_MACHINE = 8
# A part is begun in what is left of the time where it would take at most so much of it.
SAFE_SHARE = 0.8
LOOK_SECONDS = 0.1


@dataclass(frozen=True)
class Options:
    program: str
    workers: int = 1
    pieces: int = 1
    part_seconds: float = 900.0
    part_epochs: Optional[int] = None
    time_limit: Optional[float] = None
    lock_wait: float = 10.0
    use_lock: bool = True
    job: str = ""
    # None: that of the parts that are there, and `run` of a new folder.
    command: Optional[str] = None


@dataclass(frozen=True)
class Pace:
    """The length of the last part, and the epochs that it made a second."""

    length: int
    rate: float


# ---------------------------------------------------------------- lengths


def most_until(first: int, every: int, rows_an_epoch: int) -> int:
    """The last epoch at which a part from `first` may end: it prints no more rows than a run may."""
    return (first // every + GREATEST_ROWS // rows_an_epoch + 1) * every - 1


def part_length(pace: Optional[Pace], options: Options, left: Optional[float]) -> int:
    """Epochs of the next part; 0 where none fits into the seconds that are left.

    Start-up spoils the rate of a short part, so a part has at most twice the epochs of the one before."""
    if options.part_epochs is not None:
        length = options.part_epochs
    elif pace is None:
        length = 1
    else:
        length = max(1, min(2 * pace.length, int(pace.rate * options.part_seconds)))
    if left is not None:
        fits = int(pace.rate * left * SAFE_SHARE) if pace is not None else 1 if left > 0 else 0
        length = min(length, fits)
    return max(0, length)


# ---------------------------------------------------------------- the lock


def is_locked(number: int, wait: float, stop: Stop) -> bool:
    """Takes the lock, or gives up after `wait` seconds or a signal."""
    end = time.monotonic() + wait
    while True:
        try:
            fcntl.flock(number, fcntl.LOCK_EX | fcntl.LOCK_NB)
            return True
        except BlockingIOError:
            if time.monotonic() >= end or stop.is_set():
                return False
            time.sleep(0.1)
        except OSError as fault:
            print(f"long_run: this file system has no locks ({fault.strerror}): let one driver alone work here",
                  file=sys.stderr)
            return True


@contextlib.contextmanager
def held(folder: RunFolder, options: Options, stop: Stop) -> Iterator[int]:
    """Holds the folder: this driver's and its program's open file has the lock."""
    path = folder.path / "lock"
    try:
        number = os.open(path, os.O_RDWR | os.O_CREAT, 0o644)
    except OSError as fault:
        raise Fault(UNREADABLE, f"{path} can't be opened: {fault.strerror}") from None
    try:
        if options.use_lock:
            if not is_locked(number, options.lock_wait, stop):
                holder = os.read(number, 200).decode(errors="replace").strip()
                raise Fault(HELD, f"{folder.path} is held by {holder or 'another driver'}")
            with contextlib.suppress(OSError):
                os.ftruncate(number, 0)
                os.pwrite(number, f"{socket.gethostname()} pid {os.getpid()} {options.job}".strip().encode() + b"\n", 0)
        yield number
    finally:
        os.close(number)


# ---------------------------------------------------------------- the driver


class Driver:
    def __init__(self, folder: RunFolder, options: Options, stop: Stop, tell: Callable[..., None]) -> None:
        self.folder, self.options, self.stop, self.tell = folder, options, stop, tell
        self.done_here = 0
        self.chain: List[Record] = []
        self.pace: Optional[Pace] = None

    def run(self) -> int:
        """Works until the run is done (0) or is to be resumed (74, 75)."""
        with held(self.folder, self.options, self.stop) as lock:
            self.lock = lock
            self.plan = plan_of(self.options.program, self.folder.run_file, self.stop)
            self.keys: Dict[str, Value] = read_keys(self.folder.run_file)
            self.program = digest_of(Path(self.options.program)) or ""
            self.folder.clear_rooms()
            self.set_aside_unreadable()
            self.read_chain()
            self.command = self.options.command or (self.chain[-1].command if self.chain else "run")
            self.folder.check_same_run(self.chain, self.keys, self.plan.digest, self.command)
            if not int(self.keys["epochs"]):
                raise Fault(REFUSED, f"{self.folder.run_file}: epochs is 0, so there is nothing to do")
            if is_joined(self.folder, int(self.keys["epochs"])) and self.epoch() == self.keys["epochs"]:
                self.leave_manifest()
                return 0
            self.repair()
            self.folder.drop_checkpoints(self.chain)
            status = self.work()
            if status == 0:
                # Without a lock a killed driver may have left one since.
                self.folder.drop_checkpoints(self.chain)
                place_joined(self.folder, self.chain, self.folder.report)
                self.leave_manifest()
            return status

    def leave_manifest(self) -> None:
        """What the joined report was made of, for the tools that take it together with others."""
        programs = " ".join(dict.fromkeys(record.program for record in self.chain))
        report = digest_of(self.folder.report) or ""
        try:
            write_manifest(self.folder.report, of_run_file(self.folder.run_file, self.plan.digest, report, programs))
        except Refusal as refusal:
            raise Fault(NOT_PLACED, str(refusal)) from None

    def epoch(self) -> int:
        return self.chain[-1].until if self.chain else 0

    def read_chain(self) -> None:
        self.chain = self.folder.chain()
        self.pace = None
        if self.chain:
            last = self.chain[-1]
            length, seconds = last.until - last.first, max(last.seconds, 1e-3)
            if (last.host, last.workers, last.pieces, last.program) != (
                    socket.gethostname(), self.options.workers, self.options.pieces, self.program):
                length = max(1, length // NEW_MACHINE)
            self.pace = Pace(length, (last.until - last.first) / seconds)

    def work(self) -> int:
        while self.epoch() < int(self.keys["epochs"]):
            self.stop.look(self.folder.stop_file)
            if self.stop.is_set() or self.stop.is_late():
                return self.stopped()
            length = part_length(self.pace, self.options, self.stop.seconds_left())
            if not length:
                return self.stopped(no_time=True)
            first, every = self.epoch(), int(self.keys["every"])
            until = min(first + length, int(self.keys["epochs"]))
            if self.command == "run":
                until = min(until, most_until(first, every, self.plan.slots * self.plan.samples))
            if not self.make_part(first, until):
                return self.stopped()
        return 0

    def stopped(self, no_time: bool = False) -> int:
        """The status of a run to be resumed: another one where its time is too short for a part."""
        too_short = no_time or self.stop.warned or self.stop.is_late()
        return NO_PART if too_short and not self.done_here else STOPPED

    # ------------------------------------------------------------ a part

    def make_part(self, first: int, until: int) -> bool:
        """Makes and places a part. False where it was given up because of a stop."""
        began = self.chain[-1] if self.chain else None
        try:
            room = self.folder.make_room(first)
        except OSError as fault:
            raise Fault(NOT_PLACED, f"{self.folder.parts} can't be written: {fault.strerror}") from None
        try:
            return self.fill(room, first, until, began)
        except OSError as fault:
            raise Fault(NOT_PLACED, f"the part from epoch {first} can't be made: {fault}") from None
        finally:
            remove(room)

    def fill(self, room: Path, first: int, until: int, began: Optional[Record]) -> bool:
        start, clock = datetime.datetime.now(datetime.timezone.utc), time.monotonic()
        status, said = self.run_program(room, first, until, began)
        seconds = time.monotonic() - clock
        if status < 0:
            if self.stop.is_end():
                return False
            raise Fault(DIED, f"{self.options.program} died by signal {-status} in the part from epoch {first}")
        if status:
            return self.go_on_after(status, said, first)
        header = header_of(room / "report")
        if header is None or header[1:] != (first, until):
            raise Fault(DAMAGED, f"{room}: the report's header isn't that of epochs {first} to {until}")
        report, checkpoint = digest_of(room / "report"), digest_of(room / "checkpoint")
        if report is None or checkpoint is None:
            raise Fault(UNREADABLE, f"{room} lacks its report or its checkpoint")
        record = Record(secrets.token_hex(16), first, until, report, checkpoint, began.checkpoint if began else None,
                        self.plan.digest, self.keys, self.program, self.options.workers, self.options.pieces,
                        round(seconds, 3), socket.gethostname(), self.options.job, start.strftime("%Y-%m-%dT%H:%M:%SZ"),
                        self.command)
        if not self.folder.commit(room, record):
            self.read_chain()
            return True
        self.chain.append(record)
        self.done_here += 1
        self.pace = Pace(until - first, (until - first) / max(seconds, 1e-3))
        # Those before are gone: `run` looked at all.
        self.folder.drop_checkpoints(self.chain[-3:])
        return True

    def run_program(self, room: Path, first: int, until: int, began: Optional[Record]) -> tuple:
        """The program's status, negative for a signal, and its line on the error output."""
        save = os.path.relpath(room / "checkpoint", self.folder.path)
        words = [self.options.program, self.command, "run.toml", "--until", str(until), "--save", save,
                 "--workers", str(self.options.workers), "--pieces", str(self.options.pieces)]
        if began:
            words += ["--from", os.path.relpath(self.folder.checkpoint(began), self.folder.path)]
        with open(room / "report", "wb") as report, subprocess.Popen(
                words, cwd=self.folder.path, stdin=subprocess.DEVNULL, stdout=report, stderr=subprocess.PIPE,
                pass_fds=[self.lock], preexec_fn=child_setup()) as child:
            began_at = time.monotonic()
            while child.poll() is None:
                if self.stop.now or self.stop.is_late():
                    child.kill()
                self.tell(self, first, until, time.monotonic() - began_at)
                with contextlib.suppress(subprocess.TimeoutExpired):
                    child.wait(timeout=LOOK_SECONDS)
            said = child.stderr.read().decode(errors="replace").strip() if child.stderr else ""
        return child.returncode, said

    # ------------------------------------------------------------ what went wrong

    def go_on_after(self, status: int, said: str, first: int) -> bool:
        """The program refused. Goes on where the checkpoint was damaged or another driver was faster."""
        damaged = status in (CHECKPOINT_REFUSED, NOT_HELD, UNREADABLE)
        self.read_chain()
        if self.epoch() != first or damaged and self.repair():
            return True
        raise Fault(status, said or f"{self.options.program} ended with status {status}")

    def repair(self) -> bool:
        """Sets aside parts at the chain's end that aren't what was recorded: they come out the same again."""
        found = False
        while self.chain and not self.folder.is_whole(self.chain[-1]):
            last = self.chain[-1]
            self.read_chain()
            if not self.chain or self.chain[-1] != last:
                # Without a lock another driver went on, and dropped this one's checkpoint.
                continue
            if len(self.chain) > 1 and digest_of(self.folder.checkpoint(self.chain[-2])) is None:
                raise Fault(DAMAGED, f"{self.folder.part(last.first)} is damaged, and no checkpoint before it is kept")
            self.set_aside(last.first)
            self.read_chain()
            found = True
        return found

    def set_aside_unreadable(self) -> None:
        """The part that begins last, where its record can't be read."""
        first = self.folder.last_first()
        if first is not None:
            try:
                self.folder.record_at(first)
            except Fault:
                self.set_aside(first)

    def set_aside(self, first: int) -> None:
        name = self.folder.set_aside(first)
        print(f"long_run: the part from epoch {first} is damaged: set aside as {name}, and made again", file=sys.stderr)
