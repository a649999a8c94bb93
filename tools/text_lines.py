"""The lines of a text that `glass` has printed, read one after the other."""
from __future__ import annotations

import re
from typing import BinaryIO, Callable, Tuple, TypeVar

from make_tables import Refusal


# Longer lines are none of the text, so that no damaged file fills the memory.
LONGEST_LINE = 2 ** 17
NUMBER = re.compile("0|-?[1-9][0-9]{0,38}")
Read = TypeVar("Read")


class TextLines:
    """Such a text. A fault is told with its name and its line's number."""

    longest = LONGEST_LINE
    # What is told where the text ends too early, and where its last line has no line feed.
    cut = "the text ends before it is whole"
    open_line = cut

    def __init__(self, name: str, stream: BinaryIO) -> None:
        self.name, self.stream, self.line_number = name, stream, 0

    def damaged(self, text: str) -> Refusal:
        return Refusal(f"{self.name}, line {self.line_number}: {text}")

    def next_line(self) -> bytes:
        """The next line without its line feed."""
        line = self.stream.readline(self.longest)
        self.line_number += 1
        if not line:
            raise self.damaged(self.cut)
        if not line.endswith(b"\n"):
            raise self.damaged(self.open_line)
        return line[:-1]


class NumberLines(TextLines):
    """A text with lines of a word, the numbers that tell a place, and the numbers of that place, with commas between."""

    longest = 4096

    def line(self) -> str:
        return self.next_line().decode("ascii", "replace")

    def numbers(self, kind: str, place: Tuple[int, ...], count: int) -> Tuple[int, ...]:
        """So many numbers of the line of a place, which is due."""
        return self.numbers_of(self.line(), kind, place, count)

    def numbers_of(self, line: str, kind: str, place: Tuple[int, ...], count: int) -> Tuple[int, ...]:
        fields, front = line.split(","), [kind, *map(str, place)]
        if fields[:len(front)] != front:
            raise self.damaged(f"the line {','.join(front)} is due")
        if len(fields) != len(front) + count or not all(map(NUMBER.fullmatch, fields[len(front):])):
            raise self.damaged(f"{count} whole numbers are due")
        return tuple(map(int, fields[len(front):]))

    def end(self, last: str) -> None:
        """The last line, behind which nothing stands."""
        if self.line() != last:
            raise self.damaged(f"the line {last} is due")
        if self.stream.readline(1):
            self.line_number += 1
            raise self.damaged("the text has ended before this line")


def read_file(name: str, read: Callable[[str, BinaryIO], Read]) -> Read:
    """What is read of a file. Refusal where it is not there."""
    try:
        with open(name, "rb") as stream:
            return read(name, stream)
    except OSError as fault:
        raise Refusal(f"{name} can't be read: {fault.strerror}") from None
