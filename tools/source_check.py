"""The command line that the checks of documents against the sources share."""
import sys
from typing import Callable, List, Optional


def run(name: str, about: Optional[str], words: List[str], self_test: Callable[[], int], find: Callable[[], List[str]],
        agreed: Callable[[], str]) -> int:
    """Runs the check of this name with the words of its command line: what it is about where --help asks for it, its
    self-test where --self-test does, else a line on the error output for each difference that `find` gives, or what
    `agreed` says where there is none.
    Returns the exit status: 0 where nothing is found, 1 where something is, 2 for a wrong word."""
    if words == ["--help"]:
        print(about)
        return 0
    if words == ["--self-test"]:
        return self_test()
    if words:
        print(f"{name}: what is {words[0]}? --help says more", file=sys.stderr)
        return 2
    found = find()
    for line in found:
        print(f"{name}: {line}", file=sys.stderr)
    if not found:
        print(f"{name}: {agreed()}")
    return 1 if found else 0
