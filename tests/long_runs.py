#!/usr/bin/env python3
"""Disturbs long runs of the program, and accepts each only if its joined report is that of one run, byte for byte.

    tests/long_runs.py [PROGRAM]     the gate's test, under two minutes

PROGRAM is the one that tests/program.sh finds or builds, where none is named. Kills come at moments
by chance; --seed S makes them those of another test. A case that this machine can't make is told as not run.

Status: 0 where all cases passed, 1 where one failed, 2 for wrong words or where there is no program."""
from __future__ import annotations

import os
import random
import signal
import subprocess
import sys
import tempfile
import time
from pathlib import Path
from typing import Callable, List, Optional, Tuple

sys.dont_write_bytecode = True
from one_run import (EPOCHS, OneRun, after, child_of, ended, is_at_work, kill_driver,  # noqa: E402
                     kill_program, parts_of, program_of, seed_of)

LONGER = 3 * EPOCHS // 2
KILLS = 5
MOMENT = 0.3
# Room for three checkpoints of the run; the fourth fills it.
SMALL_DISK = 1100 * 1024


class Failed(Exception):
    pass


def want(is_right: bool, text: str) -> None:
    if not is_right:
        raise Failed(text)


def want_status(found: Tuple[int, str], wanted: int) -> None:
    want(found[0] == wanted, f"status {found[0]}, not {wanted}: {found[1].strip()}")


def kills(number: int) -> str:
    """Those that met something at work; without any nothing was tried."""
    want(number > 0, "no kill met anything at work")
    return f"{number} kills"


def begun(run: OneRun, folder: Path, paused: bool = True) -> Tuple[subprocess.Popen, int]:
    """A driver in one long part, and its program at work, or halted there so that it can't end by itself."""
    driver = run.start(folder, "--part-epochs", str(EPOCHS))
    child = child_of(driver)
    if child is None:
        raise Failed(f"no program is begun: {ended(driver)}")
    if paused:
        os.kill(child, signal.SIGSTOP)
    return driver, child


def want_ended(child: int) -> None:
    """The program is to be gone a moment after its driver."""
    time.sleep(MOMENT)
    if is_at_work(child):
        os.kill(child, signal.SIGKILL)
        raise Failed("the program works on")


def want_none_in_work(folder: Path) -> None:
    want(not list(folder.glob("parts/tmp-*")), "a part in work is left")


def stop_half_way(run: OneRun, folder: Path) -> None:
    """Leaves a folder with some parts, of which the last is not the run's last."""
    with run.start(folder) as driver:
        while len(parts_of(folder)) < 3 and driver.poll() is None:
            time.sleep(0.01)
        want_status(after(driver, 0, signal.SIGUSR1), 75)


# ---------------------------------------------------------------- cases


def driver_is_killed(run: OneRun, folder: Path, chance: random.Random) -> str:
    return kills(sum(kill_driver(run, folder, chance) for _ in range(KILLS)))


def program_is_killed(run: OneRun, folder: Path, chance: random.Random) -> str:
    return kills(sum(kill_program(run, folder, chance) for _ in range(KILLS)))


def program_ends_with_driver(run: OneRun, folder: Path, chance: random.Random) -> str:
    """A killed driver leaves no program at work, though its part is long."""
    driver, child = begun(run, folder)
    want_status(after(driver, 0, signal.SIGKILL), -signal.SIGKILL)
    want_ended(child)
    return ""


def two_drivers(run: OneRun, folder: Path, chance: random.Random) -> str:
    with run.start(folder) as one:
        while not parts_of(folder) and one.poll() is None:
            time.sleep(0.01)
        with run.start(folder, "--lock-wait", "0") as other:
            found = ended(other)
            want_status(found, 73)
            want(f"pid {one.pid}" in found[1], f"the holder is not told: {found[1]}")
        want_status(ended(one), 0)
    return ""


def no_lock(run: OneRun, folder: Path, chance: random.Random) -> str:
    """Three drivers at once and without the lock; two are killed."""
    drivers = [run.start(folder, "--no-lock", "--part-epochs", str(length)) for length in (13, 20, 29)]
    number = sum(after(driver, chance.uniform(0.2, 0.6), signal.SIGKILL)[0] == -signal.SIGKILL for driver in drivers[:2])
    want_status(ended(drivers[2]), 0)
    return kills(number)


def damaged_checkpoint(run: OneRun, folder: Path, chance: random.Random) -> str:
    stop_half_way(run, folder)
    last = folder / "parts" / max(parts_of(folder)) / "checkpoint"
    stored = bytearray(last.read_bytes())
    stored[chance.randrange(len(stored))] ^= 1 << chance.randrange(8)
    last.write_bytes(stored)
    want(run.call(folder) == 0, "it doesn't go on")
    want(len(list(folder.glob("parts/damaged-*"))) == 1, "nothing was set aside")
    return ""


def early_signal(run: OneRun, folder: Path, chance: random.Random) -> str:
    stop_half_way(run, folder)
    return ""


def end_signal(run: OneRun, folder: Path, chance: random.Random) -> str:
    driver, child = begun(run, folder)
    want_status(after(driver, 0, signal.SIGTERM), 75)
    want_ended(child)
    want(not os.listdir(folder / "parts"), "the part that was given up is left")
    return ""


def end_signal_of_all(run: OneRun, folder: Path, chance: random.Random) -> str:
    """As a batch engine ends a job: the driver and its program at once."""
    driver, _ = begun(run, folder, paused=False)
    os.killpg(driver.pid, signal.SIGTERM)
    want_status(ended(driver), 75)
    want(not os.listdir(folder / "parts"), "the part that was given up is left")
    return ""


def interrupts(run: OneRun, folder: Path, chance: random.Random) -> str:
    """Ctrl-C, which goes to all processes of a terminal: twice, and once."""
    driver, _ = begun(run, folder)
    for _ in range(2):
        os.killpg(driver.pid, signal.SIGINT)
        time.sleep(0.05)
    want_status(ended(driver), 75)
    want(not os.listdir(folder / "parts"), "the part that was given up is left")
    with run.start(folder, "--part-epochs", str(EPOCHS // 2)) as driver:
        want(child_of(driver) is not None, "no program is begun")
        os.killpg(driver.pid, signal.SIGINT)
        want_status(ended(driver), 75)
    want(len(parts_of(folder)) == 1, "the part in work is not finished")
    return ""


def changed_key(run: OneRun, folder: Path, chance: random.Random) -> str:
    stop_half_way(run, folder)
    before, text = parts_of(folder), run.text()
    for old, new in (("seed = 2", "seed = 3"), ("every = 7", "every = 8"), ("samples = 3", "samples = 4"),
                     ("spins = true", "spins = false"), ('start = "random"', 'start = "up"')):
        (folder / "run.toml").write_text(text.replace(old, new))
        want(run.call(folder) == 3, f"{new} is not refused")
    (folder / "run.toml").write_text(text)
    rules = (folder / "rules16.csv").read_text()
    (folder / "rules16.csv").write_text(rules.replace("1", "2", 1))
    want(run.call(folder) == 3, "another table is not refused")
    (folder / "rules16.csv").write_text(rules)
    want(parts_of(folder) == before, "a refused run changed the parts")
    return ""


def done_twice(run: OneRun, folder: Path, chance: random.Random) -> str:
    want(run.call(folder) == 0, "the first run")
    before = parts_of(folder)
    want(run.call(folder) == 0 and parts_of(folder) == before, "the second run did something")
    return ""


def extended(run: OneRun, folder: Path, chance: random.Random) -> str:
    want(run.call(folder) == 0, "the first run")
    run.fill(folder, LONGER)
    kill_driver(run, folder, chance)
    want(run.call(folder) == 0, "the longer run")
    faults = run.faults(folder, LONGER)
    want(not faults, "; ".join(faults))
    return "longer"


def full_disk(run: OneRun, folder: Path, chance: random.Random) -> str:
    """The folder on a disk that has room for some parts; then there is more."""
    words = ["mount", "-t", "tmpfs", "-o", f"size={SMALL_DISK}", "tmpfs", str(folder)]
    mounted = subprocess.run(words, stderr=subprocess.PIPE, check=False)
    if mounted.returncode:
        return "not run: no small disk can be mounted here"
    try:
        run.fill(folder)
        (folder / "filler").write_bytes(bytes(SMALL_DISK - 800 * 1024))
        found = (run.call(folder), len(parts_of(folder)))
        want(found[0] in (9, 10) and found[1] > 0, f"status {found[0]} with {found[1]} parts, not 9 or 10 with some")
        (folder / "filler").unlink()
        status = run.call(folder)
        if status in (9, 10):
            subprocess.run(["mount", "-o", f"remount,size={4 * SMALL_DISK}", str(folder)], check=True)
            status = run.call(folder)
        want(status == 0, f"status {status} where there is room")
        faults = run.faults(folder)
        want(not faults, "; ".join(faults))
        want_none_in_work(folder)
    finally:
        subprocess.run(["umount", str(folder)], check=True)
    return "disk"


Case = Callable[[OneRun, Path, random.Random], str]
CASES: List[Case] = [driver_is_killed, program_is_killed, program_ends_with_driver, two_drivers, no_lock,
                     damaged_checkpoint, early_signal, end_signal, end_signal_of_all, interrupts, changed_key,
                     done_twice, extended, full_disk]
# These compare by themselves.
COMPARED = ("longer", "disk")


def try_case(run: OneRun, case: Case, chance: random.Random) -> Optional[str]:
    """Disturbs a run, has it brought to its end, and compares. Returns what is to be told."""
    folder = run.folder()
    said = case(run, folder, chance)
    if said.startswith("not run"):
        return said
    if said not in COMPARED:
        want(run.call(folder) == 0, "the run is not brought to its end")
        faults = run.faults(folder)
        want(not faults, "; ".join(faults))
    want_none_in_work(folder)
    return said if said not in COMPARED else ""


def main(words: List[str]) -> int:
    if words == ["--help"]:
        print(__doc__)
        return 0
    seed, words = seed_of(words)
    # A shell that starts this in the background has Ctrl-C ignored, and a driver that is begun so leaves it at that.
    signal.signal(signal.SIGINT, signal.default_int_handler)
    program, start, failed = program_of(words), time.monotonic(), 0
    with tempfile.TemporaryDirectory() as room:
        run = OneRun(program, Path(room))
        for case in CASES:
            name = case.__name__.replace("_", " ")
            try:
                said = try_case(run, case, random.Random(f"{seed} {name}"))
                print(f"long runs: {name}: {said or 'passed'}", flush=True)
            except (Failed, OSError, subprocess.SubprocessError) as fault:
                failed += 1
                print(f"long runs: {name}: FAILED: {fault}", flush=True)
    print(f"long runs: {len(CASES)} cases, {failed} failed, {time.monotonic() - start:.0f} s")
    return 1 if failed else 0


if __name__ == "__main__":
    sys.exit(main(sys.argv[1:]))
