"""The folder of a long run: its run file, its parts and what is recorded of them.

    run.toml, tables     the run, as `glass run` takes it in this folder
    parts/0000000000/    a finished part, named by its first epoch: report (of `measure` its sums), checkpoint, record.json
    parts/tmp-..         one in work
    parts/damaged-..     one that was set aside
    lock, stop, report   who drives; asks a driver to stop; the joined report, once the run is done

A part is placed by one rename, so it is there whole or not at all. What is done is the chain of parts
from epoch 0 on, each beginning where the one before it ended; no other file says it.
"""
from __future__ import annotations

import contextlib
import hashlib
import json
import os
import re
import shutil
import socket
import time
from dataclasses import asdict, dataclass
from pathlib import Path
from typing import Dict, List, Optional, Union

try:
    import tomllib
except ImportError:  # before Python 3.11
    tomllib = None  # type: ignore[assignment]

Value = Union[int, str, bool]
KEYS = ("size", "rule", "rules", "swaps", "couplings", "sweeps", "seed", "samples", "epochs", "every", "start", "spins")
PLAIN_LINE = re.compile(r'\s*([a-z]+)\s*=\s*("[^"\\]*"|true|false|[0-9]+)\s*(#.*)?')
NO_LINE = re.compile(r"\s*(#.*)?")
PART_NAME = re.compile(r"[0-9]{10}")
# What a driver has in work bears its machine and process: a part, and the joined report.
ROOM_NAME = re.compile(r"(?:report\.)?tmp-(.*)-([0-9]+)-[0-9]{10}")
# Nobody works so long on a part of which nothing was written; see `clear_rooms`.
DEAD_SECONDS = 2 * 86400
BLOCK = 1 << 20
LONGEST_RUN_FILE = 1048576

REFUSED, NOT_HELD, UNREADABLE, NOT_PLACED = 3, 7, 8, 10
DAMAGED, DIED, HELD, NO_PART, STOPPED = 65, 70, 73, 74, 75


class Fault(Exception):
    """Ends a command with a status and one line."""

    def __init__(self, status: int, text: str) -> None:
        super().__init__(text)
        self.status = status


@dataclass(frozen=True)
class Record:
    """What record.json says of a part; digests are SHA-256 in hexadecimal."""

    id: str
    first: int
    until: int
    report: str
    checkpoint: str
    began_with: Optional[str]
    plan: str
    keys: Dict[str, Value]
    program: str
    workers: int
    pieces: int
    seconds: float
    host: str
    job: str
    started: str
    command: str = "run"


# ---------------------------------------------------------------- files


def digest_of(path: Path) -> Optional[str]:
    """None where the file can't be read."""
    digest = hashlib.sha256()
    try:
        with open(path, "rb") as stream:
            for block in iter(lambda: stream.read(BLOCK), b""):
                digest.update(block)
    except OSError:
        return None
    return digest.hexdigest()


def sync(path: Path) -> None:
    """Waits until the disk has a file, or the names in a folder."""
    number = os.open(path, os.O_RDONLY)
    try:
        os.fsync(number)
    finally:
        os.close(number)


def remove(path: Path) -> None:
    """A file or a folder, where it is there."""
    if path.is_dir():
        shutil.rmtree(path, ignore_errors=True)
    else:
        with contextlib.suppress(OSError):
            path.unlink()


def in_work(first: int) -> str:
    """A name that no other driver uses."""
    return f"tmp-{socket.gethostname()}-{os.getpid()}-{first:010d}"


def read_text(path: Path) -> str:
    """A run file or a record, of which no more is read than a run file may have."""
    try:
        with open(path, "rb") as stream:
            stored = stream.read(LONGEST_RUN_FILE + 1)
        if len(stored) > LONGEST_RUN_FILE:
            raise Fault(REFUSED, f"{path} is too long: more than {LONGEST_RUN_FILE} bytes")
        return stored.decode("utf-8-sig")
    except FileNotFoundError:
        raise Fault(NOT_HELD, f"{path} is not there") from None
    except OSError as fault:
        raise Fault(UNREADABLE, f"{path} can't be read: {fault.strerror}") from None
    except UnicodeDecodeError:
        raise Fault(UNREADABLE, f"{path} is no text of UTF-8") from None


def plain_keys(name: str, text: str) -> Dict[str, Value]:
    """The keys of a run file of plain lines; others are refused, and nothing is guessed."""
    keys: Dict[str, Value] = {}
    for number, line in enumerate(text.split("\n"), 1):
        found = PLAIN_LINE.fullmatch(line.rstrip("\r"))
        if not found:
            if NO_LINE.fullmatch(line):
                continue
            raise Fault(REFUSED, f"{name}, line {number} is no plain `key = value`: Python 3.11 or later reads it")
        key, value = found[1], found[2]
        if key in keys:
            raise Fault(REFUSED, f"{name}, line {number}: the key {key} came before")
        keys[key] = value[1:-1] if value[0] == '"' else value == "true" if value in ("true", "false") else int(value)
    return keys


def read_keys(path: Path) -> Dict[str, Value]:
    """The twelve keys of a run file. Their values are for `glass check` to judge."""
    text = read_text(path)
    if tomllib is None:
        keys = plain_keys(str(path), text)
    else:
        try:
            keys = tomllib.loads(text)
        except tomllib.TOMLDecodeError as fault:
            raise Fault(REFUSED, f"{path} is not TOML: {fault}") from None
    missing = [key for key in KEYS if key not in keys]
    if missing:
        raise Fault(REFUSED, f"{path} has no key {missing[0]}")
    return {key: keys[key] for key in KEYS}


# ---------------------------------------------------------------- the folder


class RunFolder:
    def __init__(self, path: Union[str, Path]) -> None:
        self.path = Path(path)
        self.parts = self.path / "parts"
        self.run_file = self.path / "run.toml"
        self.report = self.path / "report"
        self.stop_file = self.path / "stop"

    def part(self, first: int) -> Path:
        return self.parts / f"{first:010d}"

    def checkpoint(self, record: Record) -> Path:
        return self.part(record.first) / "checkpoint"

    def record_at(self, first: int) -> Optional[Record]:
        """None where no part begins there."""
        path = self.part(first) / "record.json"
        if not path.parent.is_dir():
            return None
        try:
            record = Record(**json.loads(read_text(path)))
            if record.first != first or record.until <= first:
                raise ValueError
        except (ValueError, TypeError, Fault):
            raise Fault(DAMAGED, f"{path} is damaged") from None
        return record

    def chain(self) -> List[Record]:
        """The parts that follow each other from epoch 0 on."""
        records: List[Record] = []
        while True:
            record = self.record_at(records[-1].until if records else 0)
            if record is None:
                return records
            records.append(record)

    def last_first(self) -> Optional[int]:
        """Where the part begins that begins last: the chain's last one, without reading all of it."""
        try:
            names = [name for name in os.listdir(self.parts) if PART_NAME.fullmatch(name)]
        except OSError:
            return None
        return int(max(names)) if names else None

    def last_record(self) -> Optional[Record]:
        first = self.last_first()
        return None if first is None else self.record_at(first)

    def is_whole(self, record: Record) -> bool:
        """Whether a part's report and checkpoint are those that were recorded."""
        return (digest_of(self.part(record.first) / "report") == record.report
                and digest_of(self.checkpoint(record)) == record.checkpoint)

    def set_aside(self, first: int) -> str:
        """Takes a damaged part out of the chain, and keeps it under another name."""
        name = f"damaged-{first:010d}-{time.time_ns():x}"
        try:
            os.rename(self.part(first), self.parts / name)
            sync(self.parts)
        except OSError as fault:
            raise Fault(NOT_PLACED, f"{self.part(first)} can't be set aside: {fault.strerror}") from None
        return name

    # ------------------------------------------------------------ placing a part

    def make_room(self, first: int) -> Path:
        """The folder of a part in work."""
        room = self.parts / in_work(first)
        remove(room)
        if not self.parts.is_dir():
            self.parts.mkdir(exist_ok=True)
            sync(self.path)
        room.mkdir()
        return room

    def commit(self, room: Path, record: Record) -> bool:
        """Places a part that is done. False where another driver placed one that begins there."""
        with open(room / "record.json", "w", encoding="utf-8") as stream:
            json.dump(asdict(record), stream, indent=1)
            stream.write("\n")
        for path in (room / "report", room / "checkpoint", room / "record.json", room):
            sync(path)
        try:
            os.rename(room, self.part(record.first))
        except OSError:
            # A network file system may report a failure of a rename that was done.
            placed = self.record_at(record.first)
            if placed is None:
                raise
            if placed.id != record.id:
                return self.compare(placed, record)
        sync(self.parts)
        return True

    def compare(self, placed: Record, record: Record) -> bool:
        """Two parts that begin at one epoch; those that end at one epoch too have the same bytes."""
        if placed.until == record.until and (placed.report, placed.checkpoint) != (record.report, record.checkpoint):
            raise Fault(DAMAGED, f"{self.part(record.first)} was made twice, on {placed.host} and on {record.host}, "
                                 "with different bytes: a processor or a memory is faulty")
        return False

    def drop_checkpoints(self, chain: List[Record]) -> None:
        """All but the last two."""
        for record in chain[:-2]:
            remove(self.checkpoint(record))

    def clear_rooms(self) -> None:
        """Removes what ended drivers have left: of this machine by their process, of others by age."""
        for path in [*self.parts.glob("tmp-*"), *self.path.glob("report.tmp-*")]:
            found = ROOM_NAME.fullmatch(path.name)
            with contextlib.suppress(OSError):
                if found and (not is_alive(int(found[2])) if found[1] == socket.gethostname()
                              else time.time() - path.stat().st_mtime > DEAD_SECONDS):
                    remove(path)

    # ------------------------------------------------------------ the same run

    def check_same_run(self, chain: List[Record], keys: Dict[str, Value], plan: str, command: str) -> None:
        """Refuses a run file that would put other rows or sums behind those of the parts, and another command."""
        if not chain:
            return
        last = chain[-1]
        if last.command != command:
            raise Fault(REFUSED, f"{self.path}: the command is {command}, and the parts were made by {last.command}")
        for key, value in last.keys.items():
            if key != "epochs" and keys.get(key) != value:
                raise Fault(REFUSED, f"{self.run_file}: {key} is {keys.get(key)}, and the parts were made with {value}")
        if last.plan != plan:
            raise Fault(REFUSED, f"{self.run_file} has another plan than the parts: a table or the couplings changed")
        if int(keys["epochs"]) < last.until:
            raise Fault(REFUSED, f"{self.run_file}: epochs is {keys['epochs']}, and epoch {last.until} is done")


def is_alive(pid: int) -> bool:
    try:
        os.kill(pid, 0)
    except ProcessLookupError:
        return False
    except OSError:
        pass
    return True
