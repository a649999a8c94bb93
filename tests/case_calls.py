"""One call of the program in the folder of a case, and what is otherwise about it than the case says."""
import contextlib
import hashlib
import resource
import subprocess
import tempfile
from pathlib import Path
from typing import Any, Dict, Iterator, List, NamedTuple, Optional

from case_files import WrongTable, bytes_in

Step = Dict[str, Any]
Files = Dict[str, Optional[bytes]]
# Seconds after which a call has not returned.
TIMEOUT = 120
UNWRITTEN = "writing the report failed"
# What a case may say of a file that a call left.
OF_SAVED = {"length", "longer", "ends", "as"}


class Ended(NamedTuple):
    """How a call ended: its status, negative for a signal, and what it wrote."""
    status: int
    out: bytes
    err: bytes


@contextlib.contextmanager
def files_limited(room: Optional[int]) -> Iterator[None]:
    """Limits the bytes of each file that this process, or one that it starts, writes meanwhile; not at all for none."""
    before = resource.getrlimit(resource.RLIMIT_FSIZE)
    resource.setrlimit(resource.RLIMIT_FSIZE, before if room is None else (room, before[1]))
    try:
        yield
    finally:
        resource.setrlimit(resource.RLIMIT_FSIZE, before)


def call(program: str, step: Step, folder: Path) -> Ended:
    """Calls the program with the words of a step. Of an output that has room for some bytes alone the system takes
    these and no more; one of a mute step takes no line. The signal of a file that is too long stays ignored, as
    Python leaves it."""
    words = step["words"].split(" ") if isinstance(step["words"], str) else step["words"]
    with tempfile.TemporaryFile() as out, open("/dev/full", "wb") as full:
        try:
            with files_limited(step.get("room")):
                done = subprocess.run([program, *words], cwd=folder, stdin=subprocess.DEVNULL, stdout=out,
                                      stderr=full if step.get("mute") else subprocess.PIPE, check=False,
                                      timeout=TIMEOUT, restore_signals=False)
        except subprocess.TimeoutExpired:
            return Ended(-1, b"", b"it did not return")
        out.seek(0)
        return Ended(done.returncode, out.read(), done.stderr or b"")


def files_now(folder: Path) -> Files:
    """The bytes of each name of a folder; none for a folder in it."""
    return {it.name: it.read_bytes() if it.is_file() else None for it in folder.iterdir()}


def shorter_rooms(step: Step, named: Step, folder: Path) -> Iterator[Step]:
    """A step with each room that its output is too long for."""
    whole = bytes_in(step["out"], named, folder)
    kept = {key: it for key, it in step.items() if key in ("words", "mute")}
    for room in range(len(whole)):
        yield {**kept, "room": room, "status": 9, "wanted": whole[:room], "line": UNWRITTEN}


def rows_in(report: bytes) -> bytes:
    """The rows of a report."""
    return b"".join(line for line in report.splitlines(keepends=True) if line.startswith(b"row,"))


def rows_of(report: bytes, chosen: Step) -> bytes:
    """The rows of some samples of a report, or of all samples below one."""
    samples = chosen["samples"] if "samples" in chosen else range(chosen["below"])
    return b"".join(line for line in rows_in(report).splitlines(keepends=True) if int(line.split(b",")[2]) in samples)


def short(text: bytes) -> str:
    """A text as a fault shows it."""
    shown = repr(text)[2:-1]
    return shown if len(shown) <= 300 else f"{shown[:200]} .. {shown[-80:]} ({len(text)} bytes)"


def faults_of_output(step: Step, out: bytes, named: Step, folder: Path) -> Iterator[str]:
    """Where the bytes on the output are others. Nothing is to be there where the step says nothing of them."""
    wanted = step.get("wanted")
    if "out" in step and wanted is None:
        wanted = bytes_in(step["out"], named, folder)
    if wanted is None and not {"begins", "sha256", "rows"} & set(step):
        if step.get("status", 0) in (0, 10):
            raise WrongTable("status 0 or 10, and nothing said of the output")
        wanted = b""
    if wanted is not None and out != wanted:
        yield f"printed {short(out)}, not {short(wanted)}"
    if "begins" in step and not out.startswith(bytes_in(step["begins"], named, folder)):
        yield f"printed {short(out)}"
    if "sha256" in step and hashlib.sha256(out).hexdigest() != step["sha256"]:
        yield f"printed {short(out)}, with the SHA-256 {hashlib.sha256(out).hexdigest()}"
    if "rows" in step:
        rows = rows_of(out, step["rows"])
        if hashlib.sha256(rows).hexdigest() != step["rows"]["sha256"]:
            yield f"rows {short(rows)}, with the SHA-256 {hashlib.sha256(rows).hexdigest()}"


def faults_of_line(step: Step, err: bytes, named: Step, folder: Path) -> Iterator[str]:
    """Where the error output is not the one line of the step, or has one and the step has none."""
    if step.get("mute"):
        return
    if "line_begins" in step:
        if not (err.startswith(f"glass: {step['line_begins']}".encode()) and err.find(b"\n") == len(err) - 1):
            yield f"told {short(err)}"
        return
    wanted = b"glass: " + bytes_in(step["line"], named, folder) + b"\n" if "line" in step else b""
    if err != wanted:
        yield f"told {short(err)}, not {short(wanted)}"


def faults_of_sum(case: Step, outputs: List[bytes]) -> Iterator[str]:
    """Where the rows of all steps, between a first and a last line, are not the report with a digest."""
    if "adds_up" in case:
        wanted = case["adds_up"]
        report = wanted["first"].encode() + b"".join(map(rows_in, outputs)) + wanted["last"].encode()
        if hashlib.sha256(report).hexdigest() != wanted["sha256"]:
            yield f"the rows add up to {short(report)}, with the SHA-256 {hashlib.sha256(report).hexdigest()}"


def faults_of_saved(saved: Step, name: str, now: Files) -> Iterator[str]:
    """Where a file is not what a step says that the call left under its name."""
    stored = now.get(name)
    if stored is None:
        yield f"{name} is no file"
        return
    if "length" in saved and len(stored) != saved["length"]:
        yield f"{name} has {len(stored)} bytes, not {saved['length']}"
    if "longer" in saved and len(stored) <= saved["longer"]:
        yield f"{name} has {len(stored)} bytes, not more than {saved['longer']}"
    if "ends" in saved and not stored.hex().endswith(saved["ends"]):
        yield f"{name} ends with {stored[-32:].hex()}"
    if "as" in saved and stored != now.get(saved["as"]):
        yield f"{name} is not as {saved['as']}"


def faults_of_files(step: Step, before: Files, now: Files) -> Iterator[str]:
    """Where the folder is otherwise than before, but for the names that the step says were saved."""
    for name, saved in step.get("saved", {}).items():
        if not saved or set(saved) - OF_SAVED:
            raise WrongTable(f"what is said of {name} is not known")
        yield from faults_of_saved(saved, name, now)
    for name in sorted((set(before) | set(now)) - set(step.get("saved", {}))):
        if name not in before or name not in now or before[name] != now[name]:
            yield f"the file {name} is otherwise than before"


def faults_of(step: Step, ended: Ended, before: Files, named: Step, folder: Path) -> Iterator[str]:
    """What is otherwise than a step says, each with the words of the call."""
    found = [f"status {ended.status}, not {step.get('status', 0)}"] if ended.status != step.get("status", 0) else []
    found += faults_of_output(step, ended.out, named, folder)
    found += faults_of_line(step, ended.err, named, folder)
    found += faults_of_files(step, before, files_now(folder))
    room = f" in {step['room']} bytes" if "room" in step else ""
    for fault in found:
        yield f"{step['words']}{room}: {fault}"
