"""The program: where it is, what it says of a run file, and how a tool starts it."""
from __future__ import annotations

import ctypes
import os
import re
import shutil
import signal
import subprocess
import sys
from dataclasses import dataclass
from pathlib import Path
from typing import Callable, Optional

from long_run_folder import DIED, NOT_HELD, REFUSED, STOPPED, Fault
from long_run_stop import Stop

PLAN = re.compile("plan 1 size=([0-9]+) slots=([0-9]+) samples=([0-9]+) rule=[a-z]+ sweeps=([0-9]+) "
                  "digest=([0-9a-f]{64})\n")
# The program moves disorder samples in banks of so many, also where it prints fewer.
BANK = 64
PR_SET_PDEATHSIG = 1


@dataclass(frozen=True)
class Plan:
    size: int
    slots: int
    samples: int
    sweeps: int
    digest: str

    def updates(self, epochs: float) -> float:
        """Spin updates of so many epochs: all samples that are moved, slots and both replicas."""
        return epochs * self.sweeps * 2 * moved(self.samples) * self.slots * self.size ** 3


def moved(samples: int) -> int:
    """How many samples the program moves where it prints so many."""
    return (samples + BANK - 1) // BANK * BANK


def find_program(word: Optional[str]) -> str:
    """The program that is named, or the repository's, or the installed one beside these tools, or that of PATH."""
    above = list(Path(__file__).resolve().parents)
    given = word or os.environ.get("GLASS")
    installed = [above[3] / "bin" / "glass"] if [it.name for it in above[1:3]] == ["glass", "share"] else []
    places = [Path(given)] if given else [above[1] / "glass", *installed]
    for place in places:
        if place.is_file() and os.access(place, os.X_OK):
            return str(place.resolve())
    found = None if given and os.sep in given else shutil.which(given or "glass")
    if not found:
        raise Fault(NOT_HELD, f"the program {given or 'glass'} is not there: build it by make, or name it by --program")
    return os.path.abspath(found)


def plan_of(program: str, run_file: Path, stop: Optional[Stop] = None) -> Plan:
    """What `glass check` says of a run file in its folder; its refusals are passed on."""
    try:
        ran = subprocess.run([program, "check", run_file.name], cwd=run_file.parent, stdin=subprocess.DEVNULL,
                             stdout=subprocess.PIPE, stderr=subprocess.PIPE, universal_newlines=True, check=False,
                             preexec_fn=child_setup())
    except OSError as fault:
        raise Fault(NOT_HELD, f"{program} can't be run in {run_file.parent}: {fault.strerror}") from None
    if ran.returncode < 0:
        is_ended = stop is not None and stop.is_end()
        raise Fault(*(STOPPED, "stopped") if is_ended else (DIED, f"{program} died by signal {-ran.returncode}"))
    if ran.returncode:
        raise Fault(ran.returncode, ran.stderr.strip() or f"{program} check ended with status {ran.returncode}")
    found = PLAN.fullmatch(ran.stdout)
    if not found:
        raise Fault(REFUSED, f"{program} check printed no plan")
    return Plan(*(int(found[k]) for k in range(1, 5)), found[5])


def child_setup() -> Callable[[], None]:
    """What the program does before it starts: it ends with this driver, and leaves Ctrl-C and warnings to it."""
    parent = os.getpid()
    prctl = ctypes.CDLL(None, use_errno=True).prctl if sys.platform.startswith("linux") else None

    def setup() -> None:
        signal.signal(signal.SIGINT, signal.SIG_IGN)
        signal.signal(signal.SIGUSR1, signal.SIG_IGN)
        if prctl is not None:
            prctl(PR_SET_PDEATHSIG, signal.SIGKILL, 0, 0, 0)
            if os.getppid() != parent:
                os._exit(1)

    return setup
