"""Reports as arrays. What no run prints is refused by the reader of analyse.py, with its line and its text."""
from __future__ import annotations

import hashlib
import io
import re
import sys
from dataclasses import dataclass, replace
from typing import BinaryIO, Callable, Dict, List, NamedTuple, Optional, Sequence, Tuple, TypeVar

import numpy as np
from numpy.typing import NDArray

from analyse import HEADER, Report
from make_tables import Refusal
from manifest import study_of
from text_lines import LONGEST_LINE

Integers = NDArray[np.int64]
COUNT, SIGNED = rb"(?:0|[1-9][0-9]{0,9})", rb"(?:0|-?[1-9][0-9]{0,6})"
ROWS = re.compile(rb"(?:row,%b\n)*" % b",".join([COUNT] * 3 + [SIGNED] * 3 + [COUNT] * 2))
# Bytes of a report that are taken at a time, for each row of which the match of ROWS takes room too; and more than a row has.
PIECE, LONGEST_ROW = 2 ** 18, 100
Taken = TypeVar("Taken")


@dataclass(frozen=True)
class Records:
    """The recorded epochs of a run. Axes: epoch, disorder sample, temperature slot (0 the coldest), replica.

    Energies are those of the whole lattice in units of the coupling; an overlap is the sum over the sites, from
    -sites to sites; a label is the slot in which that configuration began. `every` is the interval of the
    recorded epochs, None where there are fewer than two.
    """
    name: str
    size: int
    rule: str
    first: int
    until: int
    every: Optional[int]
    epochs: Integers
    energies: Integers
    overlaps: Integers
    labels: NDArray[np.int8]

    @property
    def sites(self) -> int:
        return self.size ** 3

    @property
    def samples(self) -> int:
        return self.overlaps.shape[1]

    @property
    def slots(self) -> int:
        return self.overlaps.shape[2]

    def after(self, skip: int) -> Records:
        """The records from epoch `skip` on."""
        kept = self.epochs >= skip
        if not kept.any():
            raise Refusal(f"{self.name} has no row" + (f" from epoch {skip} on" if skip else ""))
        return self if kept.all() else self.part(int(np.argmax(kept)), len(kept))

    def part_of_sample(self, sample: int) -> Records:
        """The records of one sample alone."""
        one = slice(sample, sample + 1)
        return replace(self, energies=self.energies[:, one], overlaps=self.overlaps[:, one], labels=self.labels[:, one])

    def part(self, start: int, end: int) -> Records:
        """The records from place `start` among the epochs to before place `end`."""
        return replace(self, epochs=self.epochs[start:end], energies=self.energies[start:end],
                       overlaps=self.overlaps[start:end], labels=self.labels[start:end])


def read_report(name: str) -> Records:
    """The report of a file, `-` for standard input. Refusal where no run prints it."""
    try:
        if name == "-":
            return records_from("standard input", io.BytesIO(sys.stdin.buffer.read()))
        with open(name, "rb") as stream:
            # A pipe is read whole, since a report that no run prints is read twice.
            return records_from(name, stream if stream.seekable() else io.BytesIO(stream.read()))
    except OSError as fault:
        raise Refusal(f"{name} can't be read: {fault.strerror}") from None


def records_of(name: str, stored: bytes) -> Records:
    """The records of a report's bytes. Refusal where no run prints them."""
    return records_from(name, io.BytesIO(stored))


def records_from(name: str, stream: BinaryIO) -> Records:
    records = lawful_records(name, stream)
    if records is None:
        # It goes line by line, and tells the first that is wrong.
        stream.seek(0)
        Report(name, stream, 0)
        raise AssertionError(f"{name}: two readers of reports differ")
    return records


def lawful_records(name: str, stream: BinaryIO) -> Optional[Records]:
    """The records, or None where a line is wrong."""
    line = stream.readline(LONGEST_LINE)
    header = HEADER.fullmatch(line[:-1]) if line.endswith(b"\n") else None
    if header is None:
        return None
    size, slots, samples, first, until = (int(header[k]) for k in (1, 2, 3, 5, 6))
    columns, behind = rows_of(stream, slots, samples) if 0 < slots <= 32 and samples else (None, 0)
    if columns is None or not is_lawful_frame(name, header, stream, behind):
        return None
    rows = len(columns.overlaps)
    if rows % (samples * slots):
        return None
    shape = (-1, samples, slots)
    epochs = columns.epochs.reshape(shape)
    if (epochs != epochs[:, :1, :1]).any():
        return None
    recorded = epochs[:, 0, 0].copy()
    records = Records(name, size, header[4].decode(), first, until,
                      int(recorded[1] - recorded[0]) if len(recorded) > 1 else None, recorded,
                      columns.energies.reshape(*shape, 2), columns.overlaps.reshape(shape), columns.labels.reshape(*shape, 2))
    return records if are_lawful(records) else None


class Columns(NamedTuple):
    """Rows in the order of the report: epochs, both energies, overlaps, both labels."""
    epochs: Integers
    energies: Integers
    overlaps: Integers
    labels: NDArray[np.int8]


def rows_of(stream: BinaryIO, slots: int, samples: int) -> Tuple[Optional[Columns], int]:
    """The rows, and the place of the first line behind them. None where one is out of order or has no such label.

    The text is taken in pieces, so that of a long report only its numbers are held.
    """
    parts, done, behind, text = [], 0, stream.tell(), b""
    while block := stream.read(PIECE):
        text += block
        found = ROWS.match(text)
        stop = found.end() if found else 0
        if stop:
            table = np.fromstring(text[4:stop - 1].replace(b"\nrow,", b","), np.int64, sep=",").reshape(-1, 8)
            place = np.arange(done, done + len(table))
            if ((table[:, 1] != place // slots % samples) | (table[:, 2] != place % slots)
                    | (table[:, 6:] >= slots).any(axis=1)).any():
                return None, behind
            # Copies, so that the whole table isn't held.
            parts.append(Columns(table[:, 0].copy(), table[:, 3:5].copy(), table[:, 5].copy(), table[:, 6:].astype(np.int8)))
            done, behind, text = done + len(table), behind + stop, text[stop:]
        if len(text) > LONGEST_ROW:
            break
    empty = Columns(*(np.zeros(of, np.int64) for of in (0, (0, 2), 0)), np.zeros((0, 2), np.int8))
    return Columns(*(np.concatenate(pieces) for pieces in zip(empty, *parts))), behind


class Joined:
    """A line, and a stream from a place on, as a stream of lines."""

    def __init__(self, line: bytes, stream: BinaryIO, place: int) -> None:
        self.line, self.stream = line, stream
        stream.seek(place)

    def readline(self, most: int) -> bytes:
        line, self.line = self.line, b""
        return line or self.stream.readline(most)


def is_lawful_frame(name: str, header: re.Match[bytes], stream: BinaryIO, behind: int) -> bool:
    """Whether header, end and spins are those of a report, by those of a run without rows."""
    until = header[6]
    no_rows = header[0][:header.start(5)] + until + b" to=" + until + b"\n"
    for lines in (io.BytesIO(header[0] + b"\nend," + until + b"\n"), Joined(no_rows, stream, behind)):
        try:
            Report(name, lines, 0)
        except Refusal:
            return False
    return True


def are_lawful(records: Records) -> bool:
    """What each row must be, beside its form and its place."""
    energies, overlaps, sites = records.energies, records.overlaps, records.sites
    return (are_recorded(records)
            and bool((abs(energies) <= 3 * sites).all() and (energies % 2 == 0).all())
            and bool((abs(overlaps) <= sites).all() and (overlaps % 2 == 0).all())
            # The energies of one sample differ by multiples of 4.
            and bool((energies % 4 == energies[:1, :, :1, :1] % 4).all())
            and are_walks(records))


def are_recorded(records: Records) -> bool:
    """Whether a run from `first` to `until` records these epochs: f with f mod every = every - 1."""
    epochs, first, until = records.epochs, records.first, records.until
    if not len(epochs):
        return True
    if epochs[0] < first or epochs[-1] >= until:
        return False
    # Where one epoch f is recorded, each (f + 1)-th may be.
    every = records.every if records.every is not None else int(epochs[0]) + 1
    return (every > 0 and bool((np.diff(epochs) == every).all()) and (epochs[0] + 1) % every == 0
            and (len(epochs) == 1 or epochs[0] - every < first) and epochs[-1] + every >= until)


def are_walks(records: Records) -> bool:
    """Whether the labels are permutations, and from epoch to epoch moved by exchanges alone."""
    labels, slots = records.labels, records.slots
    if not (np.sort(labels, axis=2) == np.arange(slots)[:, None]).all():
        return False
    if len(labels) and records.epochs[0] == 0 and (labels[0] != np.arange(slots)[:, None]).any():
        return False
    if records.every != 1:
        return True
    slot, epoch = np.arange(slots), records.epochs[:-1, None]
    partner = np.where((slot + epoch) % 2 == 0, slot + 1, slot - 1)
    partner = np.where((partner < 0) | (partner >= slots), slot, partner)
    before, after = labels[:-1], labels[1:]
    brought = np.take_along_axis(before, np.broadcast_to(partner[:, None, :, None], before.shape), axis=2)
    return bool(((after == before) | (after == brought)).all())


def of_each_report(names: Sequence[str], take: Callable[[Records], Taken], skip: int = 0) -> List[Taken]:
    """What `take` makes of each report from epoch `skip` on. They must differ in their seeds alone, and their manifests
    may not tell otherwise.

    One report is held at a time.
    """
    study_of(tuple(names))
    kinds: List[Tuple[object, ...]] = []
    seen: Dict[bytes, str] = {}

    def checked(records: Records) -> Records:
        kinds.append((records.size, records.slots, records.samples, records.rule, records.first, records.until, records.every))
        if kinds[-1] != kinds[0]:
            raise Refusal(f"{records.name} is of another run than {names[0]}: the first lines or epochs differ")
        rows = hashlib.sha256(np.ascontiguousarray(records.energies)).digest()
        rows += hashlib.sha256(np.ascontiguousarray(records.overlaps)).digest()
        if seen.setdefault(rows, records.name) != records.name or len(seen) < len(kinds):
            raise Refusal(f"{records.name} has the same rows as {seen[rows]}: reports must differ in their seeds")
        return records

    return [take(checked(read_report(name).after(skip))) for name in names]


def read_reports(names: Sequence[str], skip: int = 0) -> List[Records]:
    """Reports that differ in their seeds alone, from epoch `skip` on. All are held: `of_each_report` takes less room."""
    return of_each_report(names, lambda records: records, skip)
