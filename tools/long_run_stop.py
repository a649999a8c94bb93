"""What asks a driver to stop: signals, a file in its folder, and the end of its time."""
import signal
import time
from pathlib import Path
from typing import Optional

# A signal that goes to all processes of a job may end the program before the driver has seen its own.
SIGNAL_SECONDS = 1.0


class Stop:
    """Whether this part is the last (`softly`), or is given up (`now`)."""

    def __init__(self) -> None:
        self.warned = False  # SIGUSR1: the time of the job is nearly over
        self.asked = False  # one SIGINT, or the file
        self.now = False
        self.end: Optional[float] = None

    def install(self) -> "Stop":
        """A signal that is ignored where the driver starts, as under nohup, stays ignored."""
        handlers = {signal.SIGUSR1: self.on_warning, signal.SIGINT: self.on_interrupt,
                    signal.SIGTERM: self.on_end, signal.SIGHUP: self.on_end}
        for number, handler in handlers.items():
            if signal.getsignal(number) is not signal.SIG_IGN:
                signal.signal(number, handler)
        return self

    def on_warning(self, *_: object) -> None:
        self.warned = True

    def on_interrupt(self, *_: object) -> None:
        self.now = self.now or self.asked
        self.asked = True

    def on_end(self, *_: object) -> None:
        self.now = True

    def limit(self, seconds: Optional[float]) -> None:
        self.end = None if seconds is None else time.monotonic() + seconds

    def seconds_left(self) -> Optional[float]:
        return None if self.end is None else self.end - time.monotonic()

    def is_late(self) -> bool:
        return self.end is not None and time.monotonic() >= self.end

    def look(self, file: Path) -> None:
        self.asked = self.asked or file.exists()

    def is_set(self) -> bool:
        return self.now or self.asked or self.warned

    def is_end(self) -> bool:
        """Whether the part is to be given up: a signal has come, or comes within a moment, or the time is over."""
        end = time.monotonic() + SIGNAL_SECONDS
        while not self.now and not self.is_late() and time.monotonic() < end:
            time.sleep(0.02)
        return self.now or self.is_late()
