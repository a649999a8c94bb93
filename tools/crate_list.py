"""What crates.txt says: the crates, from the bottom up, and what each stands on."""
from typing import Dict, Iterable, List, Set


def crates_of(lines: Iterable[str]) -> Dict[str, List[str]]:
    """What each crate of crates.txt stands on, by name."""
    crates = {}
    for line in lines:
        name, colon, below = line.partition("#")[0].partition(":")
        if colon:
            crates[name.split()[0]] = below.split()
    return crates


def needed(crates: Dict[str, List[str]], program: str) -> Set[str]:
    """The program's crate and those that it stands on, directly or through others."""
    found, rest = set(), [program]
    while rest:
        name = rest.pop()
        if name in crates and name not in found:
            found.add(name)
            rest += crates[name]
    return found
