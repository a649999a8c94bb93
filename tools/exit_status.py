"""The exit status of a tool, also where its output fails, memory is wanting or it is interrupted.

    python3 tools/exit_status.py --self-test       ends each tool so
"""
from __future__ import annotations

import contextlib
import os
import signal
import subprocess
import sys
from pathlib import Path
from typing import Callable, Iterator, List, Optional, Tuple

from make_tables import Checks, Refusal

REFUSED = 2
# Those of `glass`.
NOT_WRITTEN, NO_MEMORY = 9, 11


class NotWritten(Exception):
    """The standard output failed; the text is the one line that is told."""


@contextlib.contextmanager
def output(what: str) -> Iterator[None]:
    """Tells that the standard output failed, also where that shows only as the last of it goes out."""
    try:
        try:
            yield
        finally:
            if sys.stdout is not None:
                sys.stdout.flush()
    except OSError as fault:
        if fault.filename is not None or sys.stdout is None:
            raise
        # Python puts what is left once more as it ends, and would tell that too.
        os.dup2(os.open(os.devnull, os.O_WRONLY), sys.stdout.fileno())
        if isinstance(fault, BrokenPipeError):
            raise
        raise NotWritten(f"writing {what} failed: {fault.strerror}") from None


def status_of(name: str, main: Callable[[], int]) -> int:
    """What `main` answers, or the status of what ended it before."""
    if sys.stdout is not None and sys.stdout.errors == "strict":
        # The name of a file need not be text.
        sys.stdout.reconfigure(errors="backslashreplace")
    try:
        with output("the text"):
            return main()
    except Refusal as refusal:
        print(f"{name}: {refusal}", file=sys.stderr)
        return REFUSED
    except NotWritten as fault:
        print(f"{name}: {fault}", file=sys.stderr)
        return NOT_WRITTEN
    except BrokenPipeError:
        # Who reads no further wants no line.
        return NOT_WRITTEN
    except MemoryError:
        print(f"{name}: no memory", file=sys.stderr)
        return NO_MEMORY
    except KeyboardInterrupt:
        # A shell's loop ends where its command was ended by the signal itself.
        signal.signal(signal.SIGINT, signal.SIG_DFL)
        os.kill(os.getpid(), signal.SIGINT)
        raise


def status_of_study(about: Optional[str], main: Callable[[List[str]], int]) -> int:
    """The same of a script of the examples, which takes words or tells what it is about."""
    def answer() -> int:
        if sys.argv[1:] != ["--help"]:
            return main(sys.argv[1:])
        print(about)
        return 0

    return status_of(Path(sys.argv[0]).stem, answer)


# ---------------------------------------------------------------- the self-test

TOOLS = ("analyse", "correlations", "couplings", "demo_tables", "describe", "estimate", "jackknife", "long_run", "make_seeds",
         "make_tables", "manifest", "plain_potts")


def ended(words: Tuple[str, ...], out: int) -> Tuple[int, str]:
    """Status and error output of Python with these words, whose output is an open file."""
    environment = dict(os.environ, PYTHONIOENCODING="ascii")
    # Without a buffer a text that is not written is told before the end.
    environment.pop("PYTHONUNBUFFERED", None)
    ran = subprocess.run([sys.executable, *words], stdout=out, stderr=subprocess.PIPE, universal_newlines=True, check=False,
                         env=environment, cwd=Path(__file__).resolve().parent)
    return ran.returncode, ran.stderr


def self_test() -> int:
    checks = Checks("exit_status")
    reader, closed = os.pipe()
    os.close(reader)
    full = os.open("/dev/full", os.O_WRONLY) if os.path.exists("/dev/full") else None
    for tool in TOOLS:
        checks.same(f"{tool} into a closed pipe", ended((f"{tool}.py", "--help"), closed), (NOT_WRITTEN, ""))
        if full is not None:
            wanted = NOT_WRITTEN, f"{tool}: writing the text failed: No space left on device\n"
            checks.same(f"{tool} into a full device", ended((f"{tool}.py", "--help"), full), wanted)
    causes = {"make_tables.Refusal('wrong')": (REFUSED, "x: wrong\n"), "MemoryError": (NO_MEMORY, "x: no memory\n"),
              "KeyboardInterrupt": (-signal.SIGINT, ""), "SystemExit(print('\\udcff \xb2'))": (0, "")}
    for cause, wanted in causes.items():
        program = f"def main(): raise {cause}\nimport make_tables, sys, exit_status\nsys.exit(exit_status.status_of('x', main))"
        checks.same(cause, ended(("-c", program), subprocess.DEVNULL), wanted)
    return checks.end()


if __name__ == "__main__":
    if sys.argv[1:] == ["--self-test"]:
        sys.exit(self_test())
    print(__doc__)
    sys.exit(0 if sys.argv[1:] == ["--help"] else 2)
