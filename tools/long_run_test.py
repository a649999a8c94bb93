"""The self-test of long_run.py, with a program that stands in for `glass` (long_run_stand_in.py)."""
from __future__ import annotations

import contextlib
import io
import signal
import subprocess
import sys
import tempfile
from pathlib import Path
from typing import List, Tuple

import long_run_folder
from glass_program import Plan
from long_run_driver import GREATEST_ROWS, Options, Pace, most_until, part_length
from long_run_folder import Fault, digest_of, plain_keys, read_keys
from long_run_states import duration, index_of, print_states, ranges
from make_tables import Checks
from manifest import read_manifest
from measured_text import read_measured

TOOLS = Path(__file__).resolve().parent
STAND_IN = TOOLS / "long_run_stand_in.py"
RUN_FILE = """size = 4  # a comment
rule = "heat"
rules = "rules.csv"
swaps = "swaps.csv"
couplings = "plus"

sweeps = 1
seed = 7
samples = 2
epochs = 40
every = 3
start = "up"
spins = true
"""


class Case:
    """A folder of a run of 40 epochs, in parts of 10, beside what one run without a stop makes."""

    def __init__(self, path: Path) -> None:
        self.path = path
        path.mkdir()
        self.write(RUN_FILE)
        for table in ("rules.csv", "swaps.csv"):
            (path / table).write_text("")

    def write(self, text: str) -> None:
        (self.path / "run.toml").write_text(text)

    def trouble(self, text: str) -> None:
        (self.path / "trouble").write_text(text)

    def one_run(self, command: str) -> Tuple[bytes, bytes]:
        (self.path / "trouble").unlink(missing_ok=True)
        ran = subprocess.run([str(STAND_IN), command, "run.toml", "--save", "whole"], cwd=self.path,
                             stdout=subprocess.PIPE, check=True)
        return ran.stdout, (self.path / "whole").read_bytes()

    def call(self, *words: str) -> Tuple[int, str]:
        """Status and error output of `run`."""
        command = [sys.executable, str(TOOLS / "long_run.py"), "run", str(self.path), "--program", str(STAND_IN),
                   "--part-epochs", "10", *words]
        ran = subprocess.run(command, stdout=subprocess.PIPE, stderr=subprocess.PIPE, universal_newlines=True,
                             check=False)
        return ran.returncode, ran.stderr

    def parts(self) -> List[str]:
        """Those of the chain, by their first epochs."""
        return sorted(path.name for path in self.path.glob("parts/[0-9]*"))

    def is_one_run(self, command: str = "run") -> bool:
        """Whether report or sums and last checkpoint are those of one run, and two checkpoints are kept."""
        report, checkpoint = self.one_run(command)
        kept = sorted((self.path / "parts").glob("[0-9]*/checkpoint"))
        return ((self.path / "report").read_bytes() == report and kept[-1].read_bytes() == checkpoint and len(kept) <= 2
                and not list(self.path.glob("parts/tmp-*")))


# ---------------------------------------------------------------- numbers and words


def check_lengths(checks: Checks) -> None:
    """The amounts of a run as docs/specification/run_file.md counts them."""
    for first, every, rows in ((0, 1, 2048), (5, 1, 2048), (7, 10, 1024), (19, 10, 64), (0, 3, 5)):
        until = most_until(first, every, rows)
        amounts = [rows * (end // every - first // every) <= GREATEST_ROWS for end in (until, until + 1)]
        checks.same(f"rows from {first}, every {every}, {rows} an epoch", amounts, [True, False])
    options = Options("glass", part_seconds=100)
    for pace, left, wanted in ((None, None, 1), (None, 5.0, 1), (None, -1.0, 0), (Pace(4, 50), None, 8),
                               (Pace(4000, 50), None, 5000), (Pace(4000, 50), 10.0, 400), (Pace(1, 0.01), 50.0, 0)):
        checks.same(f"length after {pace} with {left} s", part_length(pace, options, left), wanted)
    for samples, wanted in ((1, 64), (64, 64), (65, 128), (256, 256)):
        updates = Plan(4, 1, samples, 3, "").updates(1)
        checks.same(f"updates of {samples} samples", updates, 2 * 3 * 64 * wanted)


def check_words(checks: Checks) -> None:
    from long_run import seconds_of
    times = [seconds_of(text) for text in ("15", "0:00:20", "24:00:00", "2-03:04:05")]
    checks.same("times", times, [900.0, 20.0, 86400.0, 183845.0])
    checks.same("ranges", ranges([12, 3, 7, 11, 10, 3]), "3,7,10-12")
    names = ("a/seed-0007", "seed-12/", "x2-0100b", "run")
    checks.same("indices", [index_of(name) for name in names], [7, 12, 100, None])
    checks.same("durations", [duration(s) for s in (59.7, 3700, 200000)], ["1 min  0 s", "1 h  1 min", "2 d  7 h"])


def check_run_file(checks: Checks, folder: Path) -> None:
    """The reader of plain lines agrees with Python's, and refuses what it can't read."""
    path = folder / "run.toml"
    path.write_text(RUN_FILE)
    keys = plain_keys("run.toml", RUN_FILE)
    checks.same("plain keys", (keys["size"], keys["rule"], keys["spins"], len(keys)), (4, "heat", True, 12))
    checks.same("as Python reads it", read_keys(path), keys)
    reader, long_run_folder.tomllib = long_run_folder.tomllib, None
    checks.same("without Python's", read_keys(path), keys)
    with open(path, "r+b") as stream:
        stream.truncate(long_run_folder.LONGEST_RUN_FILE + 1)
    try:
        told = str(read_keys(path))
    except Fault as fault:
        told = str(fault)
    checks.same("a file that is too long", told, f"{path} is too long: more than 1048576 bytes")
    for line in ("size = 0x4", "[run]", 'rule = "he\\u0061t"', "rules = 'a.csv'", "size", "seed = 7"):
        try:
            plain_keys("run.toml", RUN_FILE + line)
            told = ""
        except Fault as fault:
            told = str(fault)
        checks.same(f"{line!r} is refused by its number", told.startswith("run.toml, line 14"), True)
    long_run_folder.tomllib = reader


# ---------------------------------------------------------------- runs


def check_end(checks: Checks, case: Case) -> None:
    checks.same("a run", case.call(), (0, ""))
    checks.same("is one run", case.is_one_run(), True)
    left = read_manifest(str(case.path / "report"))
    checks.same("its manifest", left and (left.keys, left.programs, sorted(left.digests)),
                (read_keys(case.path / "run.toml"), digest_of(STAND_IN), ["rules", "swaps"]))
    before = case.parts()
    checks.same("done twice", (case.call(), case.parts()), ((0, ""), before))
    for part in before:  # as a kill behind a placing leaves them
        (case.path / "parts" / part / "checkpoint").touch()
    (case.path / "report").unlink()
    checks.same("checkpoints that a kill has left", (case.call(), case.is_one_run()), ((0, ""), True))
    case.write(RUN_FILE.replace("epochs = 40", "epochs = 50"))
    checks.same("a longer run", (case.call(), case.is_one_run()), ((0, ""), True))
    left = read_manifest(str(case.path / "report"))
    checks.same("and its manifest", left and left.keys["epochs"], 50)


def check_sums(checks: Checks, case: Case) -> None:
    """Parts of `measure` are joined to the sums of one run, with a manifest, and go on; those of `run` aren't put behind them."""
    case.trouble("status 11 30")
    checks.same("no memory", case.call("--command", "measure"), (11, "glass: no memory\n"))
    (case.path / "trouble").unlink()
    status, said = case.call("--command", "run")
    checks.same("another command", (status, said.count("\n"), "the parts were made by measure" in said), (3, 1, True))
    checks.same("the command of the parts", (case.call(), case.is_one_run("measure")), ((0, ""), True))
    left = read_manifest(str(case.path / "report"))
    checks.same("its manifest", left and (left.keys, left.plan), (read_keys(case.path / "run.toml"), read_measured(str(case.path / "report")).heading.digest))
    case.write(RUN_FILE.replace("epochs = 40", "epochs = 70"))
    checks.same("longer sums", (case.call("--command", "measure"), case.is_one_run("measure")), ((0, ""), True))
    with contextlib.redirect_stdout(io.StringIO()) as out:
        checks.same("done", print_states([str(case.path)]), True)
    checks.same("its state", " 70 " in out.getvalue() and "done" in out.getvalue(), True)
    part = case.path / "parts" / "0000000010" / "report"
    part.write_bytes(part.read_bytes().replace(b"from=10", b"from=11"))
    (case.path / "report").unlink()
    status, said = case.call()
    checks.same("a damaged part", (status, said.count("\n"), str(part) in said), (65, 1, True))


def check_sums_behind_rows(checks: Checks, case: Case) -> None:
    checks.same("a run", case.call(), (0, ""))
    case.write(RUN_FILE.replace("epochs = 40", "epochs = 50"))
    status, said = case.call("--command", "measure")
    checks.same("sums behind rows", (status, said.count("\n"), "the parts were made by run" in said), (3, 1, True))
    checks.same("rows behind rows", (case.call()[0], case.is_one_run()), (0, True))


def check_states(checks: Checks, case: Case) -> None:
    """A folder that can't be read has a line like the others."""
    (case.path / "run.toml").unlink()
    for text, told in ((None, "is not there"), (RUN_FILE.replace("epochs = 40", 'epochs = "40"'), "epochs is no whole number"),
                       (RUN_FILE.replace("epochs = 40", "epochs = true"), "epochs is no whole number"),
                       (RUN_FILE.replace("epochs", "epoch"), "has no key epochs"), ("size = 4 \xe9", "is no text of UTF-8")):
        if text is not None:
            (case.path / "run.toml").write_text(text, encoding="latin-1")
        with contextlib.redirect_stdout(io.StringIO()) as out:
            are_done = print_states([str(case.path)])
        checks.same(f"a state: {told}", (are_done, told in out.getvalue().splitlines()[1]), (False, True))


def check_output(checks: Checks, case: Case) -> None:
    """An output that takes nothing is told in a line, and what the parts are stays."""
    checks.same("a run", case.call(), (0, ""))
    if not Path("/dev/full").exists():
        return
    for what, *words in (("report", "join"), ("states", "status"), ("last line", "run", "--program", str(STAND_IN))):
        command = [sys.executable, str(TOOLS / "long_run.py"), *words, str(case.path)]
        with open("/dev/full", "wb") as full:
            ran = subprocess.run(command, stdout=full, stderr=subprocess.PIPE, universal_newlines=True, check=False)
        wanted = (9, f"long_run: writing the {what} failed: No space left on device\n")
        checks.same(f"{words[0]} into a full device", (ran.returncode, ran.stderr), wanted)
    checks.same("as it was", case.is_one_run(), True)


def check_other_run(checks: Checks, case: Case) -> None:
    case.trouble("status 11 12")
    checks.same("no memory", case.call(), (11, "glass: no memory\n"))
    for old, new in (("every = 3", "every = 4"), ("samples = 2", "samples = 1"), ("spins = true", "spins = false"),
                     ('start = "up"', 'start = "random"'), ("seed = 7", "seed = 8"), ("epochs = 40", "epochs = 9")):
        case.write(RUN_FILE.replace(old, new))
        status, said = case.call()
        checks.same(f"{new}: {said}", (status, said.count("\n"), old.split()[0] in said), (3, 1, True))
    case.write(RUN_FILE)
    (case.path / "trouble").unlink()
    checks.same("and as it was", (case.call()[0], case.is_one_run()), (0, True))


def check_troubles(checks: Checks, case: Case) -> None:
    """The program's own statuses are passed on with its line, and lose nothing that was done."""
    for status, line in ((9, "writing the report failed"), (10, "placing the checkpoint failed"), (11, "no memory")):
        case.trouble(f"status {status} 12")
        checks.same(line, case.call(), (status, f"glass: {line}\n"))
        checks.same("the part before is there", case.parts(), ["0000000000"])
    case.trouble(f"signal {signal.SIGSEGV.value} 12")
    checks.same("died", case.call()[0], 70)
    case.trouble("seconds 0.2")
    checks.same("no part fits", case.call("--time-limit", "0:00:01")[0], 74)
    checks.same("an empty limit is none", case.call("--time-limit", "")[0], 2)
    (case.path / "trouble").unlink()
    (case.path / "stop").touch()
    checks.same("a file asks for a stop", case.call()[0], 75)
    (case.path / "stop").unlink()
    checks.same("the end", (case.call()[0], case.is_one_run()), (0, True))


def check_damage(checks: Checks, case: Case) -> None:
    """The last part is made again; where both checkpoints are lost nothing is guessed."""
    for name in ("checkpoint", "report", "record.json"):
        case.trouble("status 11 30")
        checks.same("three parts", case.call()[0], 11)
        with open(case.path / "parts" / case.parts()[-1] / name, "ab") as stream:
            stream.write(b"x")
        (case.path / "trouble").unlink()
        status, said = case.call()
        checks.same(f"a damaged {name}", (status, "set aside as damaged-00000" in said), (0, True))
        checks.same("is one run", case.is_one_run(), True)
        case.write(RUN_FILE.replace("epochs = 40", "epochs = 60" if name == "checkpoint" else "epochs = 80"))
    for checkpoint in case.path.glob("parts/[0-9]*/checkpoint"):
        checkpoint.write_bytes(b"")
    case.write(RUN_FILE.replace("epochs = 40", "epochs = 90"))
    checks.same("both are lost", case.call()[0], 65)


def self_test() -> int:
    checks = Checks("long_run")
    check_lengths(checks)
    check_words(checks)
    with tempfile.TemporaryDirectory() as name:
        folder = Path(name)
        check_run_file(checks, folder)
        for number, check in enumerate((check_end, check_sums, check_sums_behind_rows, check_states, check_output, check_other_run, check_troubles, check_damage)):
            check(checks, Case(folder / f"case-{number}"))
    return checks.end()
