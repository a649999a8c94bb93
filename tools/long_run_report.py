"""The report of a run in parts, or its sums: made of the parts' each time, never appended to."""
from __future__ import annotations

import hashlib
import os
import re
from pathlib import Path
from typing import BinaryIO, Callable, List, Optional, Sequence

from long_run_folder import DAMAGED, NOT_PLACED, Fault, Record, RunFolder, digest_of, in_work, remove, sync
from make_tables import Refusal
from measured_text import joined, read_measured, text_of

HEADER = re.compile(rb"((?:glass|measure) 1 size=[0-9]+ slots=[0-9]+ samples=[0-9]+ rule=[a-z]+)(?: every=[0-9]+)? from=([0-9]+) "
                    rb"to=([0-9]+)(?: digest=[0-9a-f]{64})?\n")


def header_of(path: Path) -> Optional[tuple]:
    """What the first line of a report or of sums says: the text before the epochs, and both epochs."""
    try:
        with open(path, "rb") as stream:
            found = HEADER.fullmatch(stream.readline(256))
    except OSError:
        return None
    return (found[1], int(found[2]), int(found[3])) if found else None


def write_joined(folder: RunFolder, chain: Sequence[Record], out: BinaryIO) -> str:
    """Writes the report of one run over all parts, or the sums. Returns its SHA-256."""
    digest = hashlib.sha256()

    def put(line: bytes) -> None:
        digest.update(line)
        out.write(line)

    (put_sums if chain[-1].command == "measure" else put_rows)(folder, chain, put)
    return digest.hexdigest()


def put_sums(folder: RunFolder, chain: Sequence[Record], put: Callable[[bytes], None]) -> None:
    """The sums of one run over all parts, of which one is held at a time."""
    try:
        whole = joined(read_measured(str(folder.part(record.first) / "report")) for record in chain)
    except Refusal as refusal:
        raise Fault(DAMAGED, str(refusal)) from None
    for line in text_of(whole):
        put(line.encode("ascii"))


def put_rows(folder: RunFolder, chain: Sequence[Record], put: Callable[[bytes], None]) -> None:
    """A header, the rows of each part, and the last part's end and spins."""
    for record in chain:
        path = folder.part(record.first) / "report"
        header = header_of(path)
        if header is None or header[1:] != (record.first, record.until):
            raise Fault(DAMAGED, f"{path} has another header than its record says")
        if record.first == 0:
            put(b"%b from=0 to=%d\n" % (header[0], chain[-1].until))
        with open(path, "rb") as stream:
            stream.readline()
            for line in stream:
                if not line.startswith(b"row,"):
                    break
                put(line)
            if record is chain[-1]:
                put(line)
                for line in stream:
                    put(line)


def check_reports(folder: RunFolder, chain: List[Record]) -> None:
    """Each part's report is the one that was recorded."""
    if not chain:
        raise Fault(DAMAGED, f"{folder.path} has no finished part")
    for record in chain:
        path = folder.part(record.first) / "report"
        if digest_of(path) != record.report:
            raise Fault(DAMAGED, f"{path} is missing or damaged")


def place_joined(folder: RunFolder, chain: List[Record], to: Path) -> str:
    """Writes the joined report under a new name and renames it, so that `to` is whole or as before."""
    check_reports(folder, chain)
    new = to.with_name(f"{to.name}.{in_work(0)}")
    try:
        with open(new, "wb") as out:
            digest = write_joined(folder, chain, out)
        sync(new)
        os.replace(new, to)
        sync(to.parent)
    except OSError as fault:
        raise Fault(NOT_PLACED, f"{to} can't be written: {fault.strerror}") from None
    finally:
        remove(new)
    return digest


def is_joined(folder: RunFolder, epochs: int) -> bool:
    """Whether the folder has the report of the whole run. It was placed whole, so its header decides."""
    header = header_of(folder.report)
    return header is not None and header[1:] == (0, epochs)
