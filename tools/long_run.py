#!/usr/bin/env python3
"""Runs `glass run` or `glass measure` in parts in a folder that has run.toml and its tables, so that a run of months
survives kills, full disks, time limits and reboots.

    python3 tools/long_run.py run seed-0001 --workers 4      go on until the run is done
    python3 tools/long_run.py run seed-0001 --command measure    the same, with sums over the run in place of rows
    python3 tools/long_run.py join seed-0001 > report.txt    the report of what is done
    python3 tools/long_run.py status seed-*                  where each folder stands
    python3 tools/long_run.py status --array seed-*          the numbers of those to be started

Each part ends with a checkpoint, and is placed in the folder parts/ whole or not at all. The joined report is,
byte for byte, that of one run without a stop, and so are the joined sums. A run is made longer by a greater `epochs` in
run.toml; every other key, the tables and the command must stay as they are.

A run stops after its part, with status 75, at SIGUSR1, at Ctrl-C, or where the folder has a file `stop`; at
once, with its part lost, at SIGTERM or a second Ctrl-C. Start it again, there or on another machine.

status  0 done (for `status`: all are) · 75 stopped, start again · 74 its time was too short for one part
        73 another driver has the folder · 70 the program died by a signal · 65 a part is damaged, and can't be
        made again from a checkpoint · 2 to 11 and 127 those of `glass`, with its line (for a changed run file 3)
"""
import sys

sys.dont_write_bytecode = True
from long_run_stop import Stop  # noqa: E402

# A signal that comes before this line ends Python.
STOP = Stop().install() if __name__ == "__main__" and sys.argv[1:2] == ["run"] else Stop()

import argparse  # noqa: E402
import re  # noqa: E402
from pathlib import Path  # noqa: E402
from typing import Optional, Sequence  # noqa: E402

from exit_status import NotWritten, output, status_of  # noqa: E402
from glass_program import find_program  # noqa: E402
from long_run_driver import Driver, Options  # noqa: E402
from long_run_folder import NOT_HELD, STOPPED, Fault, RunFolder  # noqa: E402
from long_run_report import check_reports, place_joined, write_joined  # noqa: E402
from long_run_states import Progress, print_states, print_unfinished  # noqa: E402
from make_tables import OneLineParser, Refusal  # noqa: E402

WRONG_WORDS = 2
TOO_SHORT = "stopped before one part was done: give it more time, or shorter parts"
TIME = re.compile("(?:(?:([0-9]{1,4})-)?([0-9]{1,4}):([0-9]{2}):([0-9]{2})|([0-9]{1,7}))")


def seconds_of(text: str) -> float:
    """A time as batch engines write it: minutes, H:MM:SS or D-H:MM:SS."""
    found = TIME.fullmatch(text)
    if not found:
        raise Refusal(f"{text or 'an empty word'} is no time: write minutes, H:MM:SS or D-H:MM:SS")
    days, hours, minutes, seconds = (int(found[k] or 0) for k in range(1, 5))
    return float(86400 * days + 3600 * hours + 60 * (minutes + int(found[5] or 0)) + seconds)


def number(least: int, most: int):  # type: ignore[no-untyped-def]
    def read(text: str) -> int:
        if not re.fullmatch("[0-9]{1,10}", text) or not least <= int(text) <= most:
            raise Refusal(f"{text} is not from {least} to {most}")
        return int(text)

    return read


# ---------------------------------------------------------------- commands


def run(options: argparse.Namespace) -> int:
    folder = RunFolder(options.folder)
    if not folder.run_file.is_file():
        raise Fault(NOT_HELD, f"{folder.run_file} is not there")
    limit = None if options.time_limit is None else seconds_of(options.time_limit)
    STOP.limit(limit)
    progress = Progress()
    driver = Driver(folder, Options(
        find_program(options.program), options.workers, options.pieces, seconds_of(options.part_time),
        options.part_epochs, limit, float(options.lock_wait), not options.no_lock, options.job, options.program_command),
        STOP, progress)
    try:
        status = driver.run()
    finally:
        progress.close()
    what = {0: "done", STOPPED: "stopped"}.get(status, TOO_SHORT)
    if STOP.asked and folder.stop_file.exists():
        what += f"; remove {folder.stop_file} to go on"
    with output("the last line"):
        print(f"{folder.path}: epoch {driver.epoch()} of {driver.keys['epochs']}, {what}")
    return status


def join(options: argparse.Namespace) -> int:
    folder = RunFolder(options.folder)
    chain = folder.chain()
    if options.out:
        digest = place_joined(folder, chain, Path(options.out))
        with output("the last line"):
            print(f"wrote {options.out}: epochs 0 to {chain[-1].until}, {len(chain)} parts, digest {digest}")
    else:
        check_reports(folder, chain)
        if sys.stdout is None:
            raise NotWritten("writing the report failed: the standard output is closed")
        with output("the report"):
            write_joined(folder, chain, sys.stdout.buffer)
    return 0


def status(options: argparse.Namespace) -> int:
    show = print_unfinished if options.array else print_states
    with output("the states"):
        are_done = show(options.folders)
    return 0 if are_done else STOPPED


# ---------------------------------------------------------------- the words


def parser_of_words() -> argparse.ArgumentParser:
    parser = OneLineParser(prog="long_run", description=__doc__, allow_abbrev=False,
                           formatter_class=argparse.RawDescriptionHelpFormatter)
    parser.add_argument("--self-test", action="store_true", help="tests with a program that stands in for glass")
    commands = parser.add_subparsers(dest="command", metavar="COMMAND", parser_class=OneLineParser)
    words = commands.add_parser("run", allow_abbrev=False, help="go on until the run is done")
    words.add_argument("folder", metavar="FOLDER")
    words.add_argument("--command", dest="program_command", choices=("run", "measure"),
                       help="what the program does in each part (that of the parts that are there, else run)")
    words.add_argument("--workers", type=number(1, 64), default=1, metavar="N", help="threads (1)")
    words.add_argument("--pieces", type=number(1, 16), default=1, metavar="P", help="pieces of a sweep (1)")
    words.add_argument("--program", metavar="FILE", help="else $GLASS, the program beside tools/, that of PATH")
    words.add_argument("--part-time", default="15", metavar="T", help="length of a part: minutes or H:MM:SS (15)")
    words.add_argument("--part-epochs", type=number(1, 10 ** 9), metavar="E", help="length of a part in epochs instead")
    words.add_argument("--time-limit", metavar="T", help="begin no part that would end later: minutes or D-H:MM:SS")
    words.add_argument("--lock-wait", type=number(0, 10 ** 6), default=10, metavar="S",
                       help="seconds to wait for the lock (10)")
    words.add_argument("--no-lock", action="store_true", help="where the file system has no locks")
    words.add_argument("--job", default="", metavar="TEXT", help="a name that is recorded, as a job's number")
    words = commands.add_parser("join", allow_abbrev=False, help="the report of what is done")
    words.add_argument("folder", metavar="FOLDER")
    words.add_argument("--out", metavar="FILE", help="where to (the standard output)")
    words = commands.add_parser("status", allow_abbrev=False, help="where folders stand")
    words.add_argument("folders", nargs="+", metavar="FOLDER")
    words.add_argument("--array", action="store_true",
                       help="only the numbers of those neither done nor running, as 3,7,10-12")
    return parser


def main(words: Optional[Sequence[str]] = None) -> int:
    try:
        options = parser_of_words().parse_args(words)
        if options.self_test:
            from long_run_test import self_test
            return self_test()
        if options.command is None:
            raise Refusal("a command is needed; --help says more")
        return {"run": run, "join": join, "status": status}[options.command](options)
    except Refusal as refusal:
        print(f"long_run: {refusal}", file=sys.stderr)
        return WRONG_WORDS
    except Fault as fault:
        line = str(fault)
        print(line if line.startswith("glass: ") else f"long_run: {line}", file=sys.stderr)
        return fault.status


if __name__ == "__main__":
    sys.exit(status_of("long_run", main))
