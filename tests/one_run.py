"""A run of the program without a stop, and folders in which the same run is made in parts and disturbed."""
from __future__ import annotations

import os
import random
import re
import shutil
import signal
import subprocess
import sys
import time
from pathlib import Path
from typing import Dict, List, NoReturn, Optional, Tuple

ROOT = Path(__file__).resolve().parent.parent
DRIVER = ROOT / "tools" / "long_run.py"
EXAMPLE = ROOT / "examples" / "glass_8"
RUN_FILE = """size = 8
rule = "metropolis"
rules = "rules16.csv"
swaps = "swaps16.csv"
couplings = "random"
sweeps = {sweeps}
seed = 20240611
samples = 3
epochs = {epochs}
every = 7
start = "random"
spins = true
"""
EPOCHS = 240
PARTS = 12
# One run takes about so long, so that a kill meets each part of it.
RUN_SECONDS = 1.2
MOST_SWEEPS = 1000000
CHILD_SECONDS = 2.0
LONGEST = 120
FAILED = 1
WRONG_WORDS = NO_PROGRAM = 2


def give_up(status: int, text: str) -> NoReturn:
    print(f"{Path(sys.argv[0]).name}: {text}", file=sys.stderr)
    sys.exit(status)


def seed_of(words: List[str]) -> Tuple[int, List[str]]:
    """The number behind --seed, 1 where it isn't there, and the other words."""
    if "--seed" not in words:
        return 1, words
    at = words.index("--seed")
    text = words[at + 1] if at + 1 < len(words) else ""
    if not re.fullmatch("[0-9]{1,18}", text):
        give_up(WRONG_WORDS, f"--seed takes a number, not '{text}'")
    return int(text), words[:at] + words[at + 2:]


def program_of(words: List[str]) -> str:
    """The program to be tested: that of the words, else the one that tests/program.sh finds or builds."""
    if len(words) > 1:
        give_up(WRONG_WORDS, f"what is {words[1]}? --help says more")
    if words:
        place = words[0]
    else:
        place = subprocess.run([str(ROOT / "tests" / "program.sh")], stdout=subprocess.PIPE, universal_newlines=True,
                               check=False).stdout.strip()
    if os.access(place, os.X_OK) and os.path.isfile(place):
        return os.path.abspath(place)
    give_up(NO_PROGRAM, f"there is no program {place}: nothing was tested")


class OneRun:
    """The bytes of the run without a stop, to EPOCHS and to half as many epochs more."""

    def __init__(self, program: str, room: Path) -> None:
        self.program, self.room = program, room
        self.number = 0
        self.sweeps = 1
        while self.seconds() < RUN_SECONDS / 3 and self.sweeps < MOST_SWEEPS:
            self.sweeps = min(MOST_SWEEPS, 2 * self.sweeps)
        self.sweeps = max(1, int(self.sweeps * RUN_SECONDS / max(self.last_seconds, 1e-3)))
        self.ends = {epochs: self.end_of(epochs) for epochs in (EPOCHS, 3 * EPOCHS // 2)}

    def text(self, epochs: int = EPOCHS) -> str:
        return RUN_FILE.format(sweeps=self.sweeps, epochs=epochs)

    def folder(self) -> Path:
        """A new folder of this run."""
        self.number += 1
        path = self.room / f"seed-{self.number:04d}"
        path.mkdir()
        self.fill(path)
        return path

    def fill(self, path: Path, epochs: int = EPOCHS) -> None:
        (path / "run.toml").write_text(self.text(epochs))
        for name in ("rules16.csv", "swaps16.csv"):
            shutil.copyfile(EXAMPLE / name, path / name)

    def seconds(self) -> float:
        start = time.monotonic()
        self.end_of(EPOCHS)
        self.last_seconds = time.monotonic() - start
        return self.last_seconds

    def end_of(self, epochs: int) -> Tuple[bytes, bytes]:
        """Report and last checkpoint."""
        path = self.room / "whole"
        path.mkdir(exist_ok=True)
        self.fill(path, epochs)
        ran = subprocess.run([self.program, "run", "run.toml", "--save", "whole"], cwd=path, stdout=subprocess.PIPE,
                             check=False)
        if ran.returncode or not (path / "whole").exists():
            give_up(FAILED, f"{self.program} makes no run: status {ran.returncode}")
        return ran.stdout, (path / "whole").read_bytes()

    def start(self, folder: Path, *words: str) -> subprocess.Popen:
        """A driver at work there, in a group of processes of its own."""
        command = [sys.executable, str(DRIVER), "run", str(folder), "--program", self.program,
                   "--part-epochs", str(EPOCHS // PARTS), *words]
        return subprocess.Popen(command, stdout=subprocess.DEVNULL, stderr=subprocess.PIPE, universal_newlines=True,
                                start_new_session=True)

    def call(self, folder: Path, *words: str) -> int:
        """The status of a driver that nothing disturbs."""
        with self.start(folder, *words) as driver:
            return ended(driver)[0]

    def faults(self, folder: Path, epochs: int = EPOCHS) -> List[str]:
        """In what the folder differs from the run without a stop; nothing where all is right."""
        report, checkpoint = self.ends[epochs]
        kept = sorted(folder.glob("parts/[0-9]*/checkpoint"))
        found = []
        if not (folder / "report").is_file() or (folder / "report").read_bytes() != report:
            found.append("the joined report is another than that of one run")
        if not kept or kept[-1].read_bytes() != checkpoint:
            found.append("the last checkpoint is another than that of one run")
        if len(kept) > 2:
            found.append(f"{len(kept)} checkpoints are kept")
        joined = subprocess.run([sys.executable, str(DRIVER), "join", str(folder)], stdout=subprocess.PIPE, check=False)
        if joined.stdout != report:
            found.append("join makes another report")
        return found


# ---------------------------------------------------------------- disturbing


def ended(driver: subprocess.Popen) -> Tuple[int, str]:
    """Status and error output of a driver, once it has ended."""
    try:
        said = driver.communicate(timeout=LONGEST)[1]
    except subprocess.TimeoutExpired:
        driver.kill()
        driver.communicate()
        return -signal.SIGKILL, "it had not ended"
    return driver.returncode, said


def after(driver: subprocess.Popen, seconds: float, number: int) -> Tuple[int, str]:
    """Sends a driver a signal after some time, and waits for its end."""
    time.sleep(seconds)
    if driver.poll() is None:
        driver.send_signal(number)
    return ended(driver)


def child_of(driver: subprocess.Popen) -> Optional[int]:
    """The process number of the driver's `glass run`, once it has one."""
    end = time.monotonic() + CHILD_SECONDS
    while time.monotonic() < end and driver.poll() is None:
        try:
            numbers = Path(f"/proc/{driver.pid}/task/{driver.pid}/children").read_text().split()
            for number in numbers:
                if is_at_work(int(number)):
                    return int(number)
        except OSError:
            pass
        time.sleep(0.005)
    return None


def is_at_work(number: int) -> bool:
    """Whether a process is a `glass run` that hasn't ended."""
    try:
        # Before it is the program, a child has the words of its driver.
        return Path(f"/proc/{number}/cmdline").read_bytes().split(b"\0")[1:2] == [b"run"]
    except OSError:
        return False


def kill_driver(run: OneRun, folder: Path, chance: random.Random, *words: str) -> bool:
    """Begins a driver and kills it at a random moment. Whether it was at work then."""
    with run.start(folder, *words) as driver:
        return after(driver, chance.uniform(0.02, RUN_SECONDS), signal.SIGKILL)[0] == -signal.SIGKILL


def kill_program(run: OneRun, folder: Path, chance: random.Random) -> bool:
    """Begins a driver and kills its program at a random moment. Whether the driver told it."""
    with run.start(folder) as driver:
        time.sleep(chance.uniform(0, RUN_SECONDS / 2))
        child = child_of(driver)
        if child is not None:
            try:
                os.kill(child, signal.SIGKILL)
            except ProcessLookupError:
                pass
        return ended(driver)[0] == 70


def parts_of(folder: Path) -> Dict[str, str]:
    """The parts' records by their first epochs."""
    return {path.parent.name: path.read_text() for path in sorted(folder.glob("parts/[0-9]*/record.json"))}
