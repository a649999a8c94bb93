#!/usr/bin/env python3
"""Makes the runs of the validation, and keeps of each its seed, its processor seconds and its values.

    python3 runs.py PROGRAM 0.1            a tenth of all runs
    python3 runs.py PROGRAM 1 --lanes 4 --minutes 60
    python3 runs.py reference 0.01         the two parts of size 4 by the independent program and its other generator

Values go to seed_measured/PART.csv, a line a run, and reports are removed. Runs that are there aren't made again, and
all parts get on alike, so the study may be stopped and resumed.
"""
from __future__ import annotations

import argparse
import csv
import os
import resource
import shutil
import subprocess
import sys
import tempfile
import time
from multiprocessing import Pool
from pathlib import Path
from typing import List, NamedTuple, Sequence, Tuple

sys.dont_write_bytecode = True
from parts import BY_NAME, PARTS, Part, here, parts_at_the_transition  # noqa: E402

from couplings import file_bytes  # noqa: E402
from exit_status import status_of  # noqa: E402
from glass_analysis import read_report  # noqa: E402
from glass_analysis.sums import Means, per_sample  # noqa: E402
from make_tables import OneLineParser, Refusal  # noqa: E402
from measured_text import Measured, read_measured  # noqa: E402

TOOLS = here.parent.parent / "tools"
MEASURED = here / "seed_measured"
# Of each value that over the whole run, and those over its first and second half.
WHENS = ("", "_first", "_last")
# The study at the transition takes hours, and is made where it is named.
TRANSITION = tuple(part.name for part in parts_at_the_transition())
OTHERS = tuple(name for name in BY_NAME if name not in TRANSITION)
# What the independent program makes, and how many of its samples are one set of values; its runs are shorter.
REFERENCE, SHORTER = {"ferromagnet_4": 1, "glasses_4": 3}, 10


class Task(NamedTuple):
    part: str
    run: int
    program: str


def file_of(part: str, program: str) -> Path:
    return MEASURED / (f"reference_{part}.csv" if program == "reference" else f"{part}.csv")


def heads(part: Part) -> List[str]:
    return ["run", "seed", "seconds"] + [head + when for head in part.heads for when in WHENS]


# ---------------------------------------------------------------- one run


def tables_of(part: Part) -> Path:
    """The folder with the tables of a part, which are made once."""
    folder = MEASURED / f"tables_{part.name}"
    if not (folder / "swaps.csv").exists():
        folder.mkdir(exist_ok=True)
        subprocess.run([sys.executable, str(TOOLS / "make_tables.py"), part.rule, *part.slots], cwd=folder,
                       stdout=subprocess.DEVNULL, check=True)
    return folder


def write_run(part: Part, run: int, folder: Path, copies: int = 1) -> None:
    """Run file, tables and couplings, for so many times the part's samples."""
    for table in ("rules.csv", "swaps.csv"):
        shutil.copyfile(tables_of(part) / table, folder / table)
    couplings = "random"
    if part.couplings is not None:
        couplings = "file:j.couplings"
        samples = part.couplings(run)
        samples = (samples * copies)[:max(len(samples), copies * part.samples)]
        (folder / "j.couplings").write_bytes(file_bytes(part.size, samples))
    lines = [f"size = {part.size}", f'rule = "{part.rule}"', 'rules = "rules.csv"', 'swaps = "swaps.csv"',
             f'couplings = "{couplings}"', f"sweeps = {part.sweeps}", f"seed = {part.seed(run)}",
             f"samples = {part.samples * copies}", f"epochs = {part.epochs}", f"every = {part.every}", f'start = "{part.start}"',
             "spins = false"]
    (folder / "run.toml").write_text("\n".join(lines) + "\n")


def taken(part: Part, energies, overlaps) -> List[float]:  # type: ignore[no-untyped-def]
    """Each value over the whole, the first and the second half of the recorded epochs."""
    half = len(energies) // 2
    parts = [part.values(energies[cut], overlaps[cut], part.size ** 3) for cut in (slice(None), slice(half), slice(half, None))]
    return [float(values[n]) for n in range(len(part.heads)) for values in parts]


def taken_of_sums(part: Part, measured: Measured) -> List[float]:
    """Each value over the bins that are not left out, those but the last one, and the last one, which has half of the
    epochs; ten digits of it."""
    least, last = part.skip.bit_length(), measured.bins[-1]
    parts = [part.values(Means(per_sample(measured, *ends).mean(axis=0), part.size)) for ends in ((least, last), (least, last - 1), (last, last))]
    return [float(f"{values[n]:.10g}") for n in range(len(part.heads)) for values in parts]


def of_program(part: Part, run: int, program: str) -> List[float]:
    with tempfile.TemporaryDirectory(dir=MEASURED) as name:
        folder = Path(name)
        write_run(part, run, folder)
        with open(folder / "report", "wb") as report:
            subprocess.run([program, part.command, "run.toml"], cwd=folder, stdout=report, check=True)
        if part.command == "measure":
            return taken_of_sums(part, read_measured(str(folder / "report")))
        records = read_report(str(folder / "report")).after(part.skip)
        return taken(part, records.energies, records.overlaps)


def of_reference(part: Part, run: int) -> List[List[float]]:
    """Of each set of samples: none of them shares a number with another, so each set has the worth of a run."""
    copies, own = 64 // part.samples, REFERENCE[part.name]
    from reference.arrays import Philox, tempering_of_files
    with tempfile.TemporaryDirectory(dir=MEASURED) as name:
        folder = Path(name)
        write_run(part, run, folder, copies)
        tempering = tempering_of_files(folder, Philox(part.seed(run)))
        energies, overlaps = tempering.records(part.epochs // SHORTER, part.every)
    skipped = part.skip // part.every // SHORTER
    return [taken(part, energies[skipped:, first:first + own], overlaps[skipped:, first:first + own])
            for first in range(0, part.samples * copies, own)]


def seconds() -> float:
    """Of the processor, by this process and those that it has waited for."""
    return sum(usage.ru_utime + usage.ru_stime for usage in map(resource.getrusage, (resource.RUSAGE_SELF, resource.RUSAGE_CHILDREN)))


def made(task: Task) -> Tuple[Task, List[List[object]]]:
    """The lines of a run: one, or by the independent program one for each set of its samples."""
    part, began = BY_NAME[task.part], seconds()
    values = of_reference(part, task.run) if task.program == "reference" else [of_program(part, task.run, task.program)]
    each = round((seconds() - began) / len(values), 3)
    return task, [[task.run, part.seed(task.run), each, *line] for line in values]


# ---------------------------------------------------------------- all runs


def runs_done(part: str, program: str) -> List[int]:
    path = file_of(part, program)
    if not path.exists():
        return []
    with open(path, newline="") as stream:
        return [int(line["run"]) for line in csv.DictReader(stream)]


def tasks(program: str, share: float, names: Sequence[str] = tuple(BY_NAME)) -> List[Task]:
    """Those of some parts that are left, such that all get on alike."""
    parts = [part for part in PARTS if part.name in (REFERENCE if program == "reference" else names)]
    found = [(run / part.runs, Task(part.name, run, program)) for part in parts
             for run in set(range(1, max(3, round(share * part.runs)) + 1)) - set(runs_done(part.name, program))]
    return [task for _, task in sorted(found)]


def minutes_of(wanted: Sequence[Task]) -> float:
    """What runs take of a processor, by the mean of those of their parts that are kept; parts without any are left out."""
    rates = {}
    for part, program in {(task.part, task.program) for task in wanted}:
        if file_of(part, program).exists():
            with open(file_of(part, program), newline="") as stream:
                seconds_kept = [float(line["seconds"]) for line in csv.DictReader(stream)]
            # Of the independent program each run has several lines.
            rates[part] = sum(seconds_kept) / len(set(runs_done(part, program)))
    return sum(rates.get(task.part, 0.0) for task in wanted) / 60


def keep(task: Task, lines: Sequence[Sequence[object]]) -> None:
    path = file_of(task.part, task.program)
    is_new = not path.exists()
    with open(path, "a", newline="") as stream:
        writer = csv.writer(stream, lineterminator="\n")
        if is_new:
            writer.writerow(heads(BY_NAME[task.part]))
        writer.writerows(lines)


def main() -> int:
    parser = OneLineParser(prog="runs", description=__doc__, allow_abbrev=False,
                           formatter_class=argparse.RawDescriptionHelpFormatter)
    parser.add_argument("program", metavar="PROGRAM")
    parser.add_argument("share", type=float, metavar="SHARE", help="of the runs of the whole validation")
    parser.add_argument("--lanes", type=int, default=1, metavar="N", help="runs at one time (1)")
    parser.add_argument("--minutes", type=float, metavar="M", help="begin no run later")
    parser.add_argument("--parts", nargs="+", default=list(OTHERS), choices=list(BY_NAME), metavar="PART",
                        help="these alone (all but those at the transition)")
    parser.add_argument("--transition", dest="parts", action="store_const", const=list(TRANSITION), help="those at the transition")
    options = parser.parse_args()
    if not (0 < options.share <= 100 and 1 <= options.lanes <= 256):
        raise Refusal("a share above 0 is wanted, and --lanes from 1 to 256")
    MEASURED.mkdir(exist_ok=True)
    for part in PARTS:
        tables_of(part)
    end = time.monotonic() + 60 * options.minutes if options.minutes else None
    program = options.program if options.program == "reference" else os.path.realpath(options.program)
    left = tasks(program, options.share, options.parts)
    kept = sum(len(set(runs_done(part.name, program))) for part in PARTS)
    print(f"runs: {kept} are kept; {len(left)} more take about {minutes_of(left):.0f} processor minutes by the rates of these",
          file=sys.stderr, flush=True)
    with Pool(options.lanes) as pool:
        for task, lines in pool.imap_unordered(made, left):
            keep(task, lines)
            if end is not None and time.monotonic() > end:
                pool.terminate()
                break
    return 0


if __name__ == "__main__":
    sys.exit(status_of("runs", main))
