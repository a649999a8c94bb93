#!/usr/bin/env python3
"""Tells what a file or folder of `glass` is, and whether it is whole.

    python3 tools/describe.py checkpoint report.txt disorder.couplings run.toml seed-0001

It knows checkpoints of all three kinds, couplings files, reports, sums over runs and their manifests, what `glass average` prints,
run files, and the folders of tools/long_run.py. Of a run file it tells how near the tables beside it are to
temperatures. Lengths and digests are computed, each line of a report is looked at, and of a folder each part is
compared with its record and the report with the one that the parts make.

Status 0 where all are whole, 1 where one is damaged or unknown, 2 for wrong words or what can't be read, 9 where the
output fails.
"""
from __future__ import annotations

import argparse
import hashlib
import io
import json
import os
import struct
import sys
import tempfile
from pathlib import Path
from types import SimpleNamespace
from typing import List, Optional, Sequence

sys.dont_write_bytecode = True
from analyse import Report  # noqa: E402
from couplings import LONGEST, couplings_of, file_bytes, read_bytes  # noqa: E402
from exit_status import status_of  # noqa: E402
from jackknife import SumsFile  # noqa: E402
from long_run_folder import KEYS, Fault, RunFolder, digest_of, read_keys  # noqa: E402
from long_run_report import check_reports, write_joined  # noqa: E402
from make_tables import Checks, OneLineParser, Refusal, outcome  # noqa: E402
from manifest import Manifest, file_of, read_manifest, write_manifest  # noqa: E402
from measured_text import read_measured  # noqa: E402
from table_rounding import tables_of, told  # noqa: E402

DIGEST_BYTES = 32
LINE = "  "


class Damaged(Exception):
    """Why a file isn't whole; `facts` are what could be read."""

    def __init__(self, text: str, facts: Sequence[str] = ()) -> None:
        super().__init__(text)
        self.facts = list(facts)


# ---------------------------------------------------------------- checkpoints


def states_length(size: int, slots: int) -> int:
    """The bytes of slots and pairs, as docs/specification/checkpoint.md has them."""
    return 2 * slots * (64 + 2 * size * (244 + 4 * size ** 2)) + 488 * (slots - 1)


def sealed(path: Path, length: int, facts: List[str]) -> List[str]:
    """Compares a file's length and its last 32 bytes with what they are to be."""
    found = path.stat().st_size
    if found != length:
        raise Damaged(f"it has {found} bytes, not {length}", facts)
    digest, left = hashlib.sha256(), length - DIGEST_BYTES
    with open(path, "rb") as stream:
        while left:
            block = stream.read(min(left, 1 << 20))
            if not block:
                raise Damaged(f"it ended {left + DIGEST_BYTES} bytes early as it was read", facts)
            digest.update(block)
            left -= len(block)
        stored = stream.read()
    if digest.digest() != stored:
        raise Damaged(f"digest {stored.hex()} is stored, and {digest.hexdigest()} computed", facts)
    return facts + [f"digest {stored.hex()}"]


def header_of(stream: io.BufferedReader, count: int) -> bytes:
    found = stream.read(count)
    if len(found) != count:
        raise Damaged("it is too short for a checkpoint")
    return found


def shape_of(words: bytes) -> tuple:
    size, slots = struct.unpack(">II", words)
    if not (4 <= size <= 64 and size % 2 == 0 and 1 <= slots <= 32):
        raise Damaged(f"size {size} and {slots} slots are of no run")
    return size, slots


def level_checkpoint(path: Path) -> List[str]:
    with open(path, "rb") as stream:
        head = header_of(stream, 56)
    (epoch,), (size, slots) = struct.unpack(">Q", head[40:48]), shape_of(head[48:])
    facts = ["checkpoint of a state at one epoch", f"size {size}, slots {slots}, epoch {epoch}",
             f"plan {head[8:40].hex()}"]
    return sealed(path, 56 + states_length(size, slots) + DIGEST_BYTES, facts)


def uneven_checkpoint(path: Path) -> List[str]:
    with open(path, "rb") as stream:
        head = header_of(stream, 64)
        size, slots = shape_of(head[40:48])
        samples, every, records = struct.unpack(">IQI", head[48:64])
        places = [struct.unpack(">QB", header_of(stream, 9)) for _ in range(slots)]
    epochs, waiting = [epoch for epoch, _ in places], sum(phase == 2 for _, phase in places)
    facts = ["checkpoint of slots at epochs of their own",
             f"size {size}, slots {slots}, epochs {min(epochs)} to {max(epochs)}, {waiting} waiting for a partner",
             f"samples {samples}, every {every}, {records} records ahead", f"plan {head[8:40].hex()}"]
    return sealed(path, 64 + 9 * slots + states_length(size, slots) + 14 * records + DIGEST_BYTES, facts)


def banks_checkpoint(path: Path) -> List[str]:
    with open(path, "rb") as stream:
        head = header_of(stream, 12 + 56)
    (banks,), (epoch,) = struct.unpack(">I", head[8:12]), struct.unpack(">Q", head[52:60])
    size, slots = shape_of(head[60:])
    facts = [f"checkpoint of {banks} banks at one epoch", f"size {size}, slots {slots}, epoch {epoch}",
             f"plan {head[20:52].hex()}"]
    return sealed(path, 44 + banks * (88 + states_length(size, slots)), facts)


# ---------------------------------------------------------------- other files


def couplings_file(path: Path) -> List[str]:
    stored = read_bytes(path, LONGEST)
    size, samples = couplings_of("the file", stored)
    return ["couplings", f"size {size}, {len(samples)} samples", f"digest {stored[-DIGEST_BYTES:].hex()}"]


def report(path: Path) -> List[str]:
    with open(path, "rb") as stream:
        read = Report("the report", stream, 0)
    h = read.header
    return ["report", f"size {h.size}, slots {h.slots}, samples {h.samples}, {h.rule}, epochs {h.first} to {h.until}, "
            f"{read.epochs} recorded", f"SHA-256 {digest_of(path)}"]


def measured(path: Path) -> List[str]:
    read = read_measured(str(path))
    h = read.heading
    return ["sums over a run", f"size {h.size}, slots {h.slots}, samples {h.samples}, {h.rule}, epochs {h.first} to {h.to}, every {h.every}, "
            f"{len(read.bins)} bins", f"plan {h.digest}", f"SHA-256 {digest_of(path)}"]


def averages(path: Path) -> List[str]:
    with open(path, "rb") as stream:
        read = SumsFile("the file", stream).read()
    return ["averages", f"size {read.size}, slots {read.slots}, samples {read.samples}, blocks {read.blocks}, "
            f"rows {read.rows}"]


def table_facts(path: Path) -> List[str]:
    """How near the tables beside a run file are to temperatures, and what follows for the run."""
    try:
        facts, warnings = told(tables_of(path))
    except Refusal as refusal:
        return [f"its tables aren't looked at: {refusal}"]
    return facts + [f"warning: {warning}" for warning in warnings]


def manifest_file(path: Path) -> List[str]:
    """A manifest is whole where it is of the report beside it."""
    found = read_manifest(str(path.with_suffix("")))
    if path.suffix != ".toml" or found is None:
        raise Damaged("a manifest has the name of its report and .toml")
    return ["manifest of a report", f"report {found.report}", f"plan {found.plan}",
            ", ".join(f"{key} {json.dumps(value)}" for key, value in found.keys.items())]


def run_file(path: Path) -> List[str]:
    keys = read_keys(path)
    return ["run file (glass check judges it)", ", ".join(f"{key} {json.dumps(value)}" for key, value in keys.items()),
            *table_facts(path)]


def run_folder(path: Path) -> List[str]:
    folder = RunFolder(path)
    keys, chain = read_keys(folder.run_file), folder.chain()
    facts = ["folder of a long run", f"epoch {chain[-1].until if chain else 0} of {keys['epochs']}, {len(chain)} parts"]
    if not chain:
        return facts
    hosts = sorted({record.host for record in chain})
    facts += [f"{sum(record.seconds for record in chain):.0f} seconds on {', '.join(hosts)}", f"plan {chain[-1].plan}"]
    aside = [name for name in sorted(os.listdir(folder.parts)) if name.startswith("damaged-")]
    facts += [f"set aside: {name}" for name in aside]
    check_reports(folder, chain)
    for record in chain[-2:]:
        if folder.checkpoint(record).exists() and digest_of(folder.checkpoint(record)) != record.checkpoint:
            raise Damaged(f"{folder.checkpoint(record)} is damaged", facts)
    if not folder.checkpoint(chain[-1]).exists():
        raise Damaged(f"{folder.checkpoint(chain[-1])} is missing", facts)
    with open(os.devnull, "wb") as nowhere:
        joined = write_joined(folder, chain, nowhere)
    if folder.report.exists() and chain[-1].until == keys["epochs"] and digest_of(folder.report) != joined:
        raise Damaged(f"{folder.report} is not what the parts make: remove it, and run or join again", facts)
    return facts + [f"joined {'sums' if chain[-1].command == 'measure' else 'report'}: SHA-256 {joined}"]


KINDS = ((b"GLASSCK1", level_checkpoint), (b"GLASSCK2", uneven_checkpoint), (b"GLASSCK3", banks_checkpoint),
         (b"GLASSCJ1", couplings_file), (b"glass 1 ", report), (b"measure ", measured), (b"average ", averages),
         (b"kind = \"", manifest_file))


def facts_of(path: Path) -> List[str]:
    if path.is_dir():
        return run_folder(path)
    with open(path, "rb") as stream:
        begin = stream.read(8)
    for magic, describe in KINDS:
        if begin == magic:
            return describe(path)
    if path.suffix == ".toml":
        return run_file(path)
    raise Damaged("it begins as no file of glass")


def tell(path: Path) -> bool:
    """Prints what a file is. Whether it is whole."""
    try:
        facts, end, whole = facts_of(path), "whole", True
    except Damaged as damaged:
        facts, end, whole = damaged.facts, f"not whole: {damaged}", False
    except (Refusal, Fault) as refusal:
        facts, end, whole = [], f"not whole: {refusal}", False
    except OSError as fault:
        raise Refusal(f"{path} can't be read: {fault.strerror}") from None
    print(f"{path}: {facts[0] if facts else end}")
    for fact in facts[1:] + ([end] if facts else []):
        print(LINE + fact)
    return whole


# ---------------------------------------------------------------- the program


def checkpoint_bytes(kind: bytes, head: bytes, body: int) -> bytes:
    stored = kind + head + bytes(body)
    return stored + hashlib.sha256(stored).digest()


class Shrunk:
    """A file that has lost its end since its length was looked at."""

    def __init__(self, path: Path, length: int) -> None:
        self.path, self.length = path, length

    def __fspath__(self) -> str:
        return str(self.path)

    def stat(self) -> SimpleNamespace:
        return SimpleNamespace(st_size=self.length)


def check_shrunk(checks: Checks, path: Path, stored: bytes) -> None:
    """A file that ends while it is read is told so: its reader doesn't wait for the rest."""
    for length in (len(stored) - 40, 9, 0):
        path.write_bytes(stored[:length])
        try:
            told = sealed(Shrunk(path, len(stored)), len(stored), [])  # type: ignore[arg-type]
        except Damaged as damaged:
            told = [str(damaged)]
        checks.same(f"shrunk to {length}", told, [f"it ended {len(stored) - length} bytes early as it was read"])


def check_manifest(checks: Checks, path: Path, text: bytes) -> None:
    path.write_bytes(text)
    keys = dict.fromkeys(KEYS, 1)
    write_manifest(path, Manifest("", keys, {"rules": "1" * 64, "swaps": "2" * 64}, "3" * 64, digest_of(path) or ""))  # type: ignore[arg-type]
    status, out, _ = outcome([str(file_of(path))], main)
    checks.same("a manifest", (status, out.splitlines()[0], out.splitlines()[-1]), (0, f"{file_of(path)}: manifest of a report", "  whole"))
    path.write_bytes(text + b"x")
    status, out, _ = outcome([str(file_of(path))], main)
    checks.same("that of another report", (status, "is of another report" in out), (1, True))


def self_test() -> int:
    """Lengths are the worked ones of docs/specification/checkpoint.md."""
    checks, plan = Checks("describe"), bytes(range(32))
    level = checkpoint_bytes(b"GLASSCK1", plan + struct.pack(">QII", 9, 4, 2), 10688 - 88)
    places = struct.pack(">QBQB", 3, 0, 4, 2)
    uneven = checkpoint_bytes(b"GLASSCK2", plan + struct.pack(">IIIQI", 4, 2, 5, 1, 1) + places, 10714 + 14 - 82 - 32)
    one = checkpoint_bytes(b"GLASSCK1", plan + struct.pack(">QII", 7, 4, 1), 5144 - 88)
    banks = checkpoint_bytes(b"GLASSCK3", struct.pack(">I", 2) + one + one, 0)
    checks.same("lengths", [len(stored) for stored in (level, uneven, banks)], [10688, 10728, 10332])
    text = b"glass 1 size=4 slots=1 samples=1 rule=heat from=0 to=0\nend,0\n"
    sums = b"measure 1 size=4 slots=1 samples=1 rule=heat every=1 from=0 to=0 digest=%b\nend,0\n" % (b"0" * 64)
    with tempfile.TemporaryDirectory() as name:
        path = Path(name) / "file"
        for stored, first in ((level, "size 4, slots 2, epoch 9"),
                              (uneven, "size 4, slots 2, epochs 3 to 4, 1 waiting for a partner"),
                              (banks, "size 4, slots 1, epoch 7"),
                              (file_bytes(4, [bytes(192)] * 3), "size 4, 3 samples"),
                              (text, "size 4, slots 1, samples 1, heat, epochs 0 to 0, 0 recorded"),
                              (sums, "size 4, slots 1, samples 1, heat, epochs 0 to 0, every 1, 0 bins")):
            path.write_bytes(stored)
            status, out, _ = outcome([str(path)], main)
            checks.same(first, (status, out.splitlines()[1].strip(), out.splitlines()[-1]), (0, first, "  whole"))
            for damaged in (stored[:-1], stored[:-1] + bytes([stored[-1] ^ 1]), stored[:9]):
                path.write_bytes(damaged)
                status, out, _ = outcome([str(path)], main)
                checks.same(f"{first}, damaged", (status, "not whole" in out), (1, True))
        check_shrunk(checks, path, level)
        check_manifest(checks, path, text)
        path.write_bytes(b"something else")
        checks.same("another file", outcome([str(path)], main)[0], 1)
        checks.same("no file", outcome([name + "/none"], main)[0], 2)
    return checks.end()


def main(words: Optional[Sequence[str]] = None) -> int:
    parser = OneLineParser(prog="describe", description=__doc__, allow_abbrev=False,
                           formatter_class=argparse.RawDescriptionHelpFormatter)
    parser.add_argument("files", nargs="*", metavar="FILE", help="files, or folders of long runs")
    parser.add_argument("--self-test", action="store_true", help="describe files put together by hand")
    try:
        options = parser.parse_args(words)
        if options.self_test:
            return self_test()
        if not options.files:
            raise Refusal("a file is needed; --help says more")
        return 0 if all([tell(Path(name)) for name in options.files]) else 1
    except Refusal as refusal:
        print(f"describe: {refusal}", file=sys.stderr)
        return 2


if __name__ == "__main__":
    sys.exit(status_of("describe", main))
