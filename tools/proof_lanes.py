#!/usr/bin/env python3
"""Proves a repository's libraries side by side, the longest chain of crates first.

The kit's own command for all crates gives each crate one job and lets a crate that waits for another keep its place.
Here a crate begins once those below it are proved, those with most behind them first, and processors that no crate
waits for go to the crates at work. What is called for a crate is what `rt lib` calls, from the kit's own module: `rt`
itself locks all crates below the one that it proves, so that two calls of it would wait for each other.

--self-test runs the tests of this tool."""
import importlib.machinery
import importlib.util
import os
import shutil
import sys
from concurrent.futures import FIRST_COMPLETED, Future, ThreadPoolExecutor, wait
from typing import Any, Callable, Dict, Iterable, List, Set

# More jobs of one check gain little for the processor time that they take.
MOST_JOBS = 2
Below = Dict[str, List[str]]


def weights_behind(below: Below, weight: Dict[str, int]) -> Dict[str, int]:
    """Of each crate its own weight and the greatest sum of weights of a chain of crates that stand on it."""
    behind: Dict[str, int] = {}

    def of(name: str) -> int:
        if name not in behind:
            above = [it for it in below if name in below[it]]
            behind[name] = weight[name] + max((of(it) for it in above), default=0)
        return behind[name]

    return {name: of(name) for name in below}


def ready(below: Below, left: Iterable[str], proved: Set[str]) -> List[str]:
    """The crates of `left` whose libraries are all proved, in their order."""
    return [name for name in left if all(it in proved for it in below[name])]


def jobs_of(idle: int, waiting: int) -> int:
    """How many jobs a crate gets where so many processors are idle and so many crates, it among them, could begin."""
    return max(1, min(MOST_JOBS, idle - waiting + 1))


def in_lanes(below: Below, weight: Dict[str, int], lanes: int, prove: Callable[[str, int], bool]) -> List[str]:
    """Calls `prove` with a crate's name and its jobs, for each crate once those below it are proved, on at most `lanes`
    processors at once. Returns the crates that are not proved: those that failed, and those that stand on them."""
    behind = weights_behind(below, weight)
    left = sorted(below, key=lambda it: (-behind[it], it))
    proved: Set[str] = set()
    running: Dict["Future[bool]", Any] = {}
    with ThreadPoolExecutor(lanes) as pool:
        while left or running:
            waiting = ready(below, left, proved)
            while waiting and lanes > sum(jobs for _, jobs in running.values()):
                idle = lanes - sum(jobs for _, jobs in running.values())
                name, jobs = waiting[0], jobs_of(idle, len(waiting))
                left.remove(waiting.pop(0))
                running[pool.submit(prove, name, jobs)] = (name, jobs)
            if not running:
                break
            for future in wait(running, return_when=FIRST_COMPLETED).done:
                name, _ = running.pop(future)
                if future.result():
                    proved.add(name)
    return sorted(set(below) - proved)


def kit() -> Any:
    """The kit's module of crates, which lies beside `rt`. Raises OSError where there is no such kit."""
    command = shutil.which("rt")
    if not command:
        raise OSError("the command rt of the Rattle kit is not on the PATH")
    path = os.path.join(os.path.dirname(os.path.realpath(command)), "rtlib.py")
    loader = importlib.machinery.SourceFileLoader("rtlib", path)
    spec = importlib.util.spec_from_loader("rtlib", loader)
    module = importlib.util.module_from_spec(spec)
    sys.modules["rtlib"] = module
    loader.exec_module(module)
    return module


def prove_libraries(root: str, names: Set[str], lanes: int, log: Any, tell: Callable[[str], None]) -> List[str]:
    """Proves those of the crates `names` below `root` that are libraries, over what earlier checks kept in their folders
    `out`, and leaves the libraries there. What the kit says goes to `log`; `tell` gets each crate that is proved.
    Returns the crates that are not proved."""
    rtlib = kit()
    rtlib.guarded()
    here = os.getcwd()
    os.chdir(root)
    try:
        crates = {it.name: it for it in rtlib.crates_below(os.getcwd()) if it.name in names and it.makes_rlib()}
    finally:
        os.chdir(here)
    below = {name: [it.name for it in crate.deps] for name, crate in crates.items()}
    weight = {name: sum(map(os.path.getsize, rtlib.files_of(crate.folder))) for name, crate in crates.items()}

    def prove(name: str, jobs: int) -> bool:
        crate = crates[name]
        crate.out = log
        os.makedirs(f"{crate.folder}/out", exist_ok=True)
        if crate.build_rlib(["--jobs", str(jobs)], anew=False):
            return False
        tell(name)
        return True

    held = rtlib.lock(list(crates.values()))
    try:
        return in_lanes(below, weight, lanes, prove)
    finally:
        for it in held:
            os.close(it)


def self_test() -> None:
    """The tests of what needs no kit."""
    below = {"low": [], "side": [], "mid": ["low"], "top": ["mid", "side"], "other": ["low"]}
    weight = {"low": 1, "side": 2, "mid": 5, "top": 1, "other": 3}
    assert weights_behind(below, weight) == {"low": 7, "side": 3, "mid": 6, "top": 1, "other": 3}
    assert ready(below, ["mid", "side", "top"], {"low"}) == ["mid", "side"]
    assert [jobs_of(*it) for it in ((4, 1), (4, 3), (4, 4), (1, 5))] == [2, 2, 1, 1]
    begun: List[str] = []

    def prove(name: str, _jobs: int) -> bool:
        assert all(it in begun for it in below[name])
        begun.append(name)
        return name != "mid"

    assert in_lanes(below, weight, 1, prove) == ["mid", "top"]
    assert begun == ["low", "mid", "other", "side"]
    print("proof_lanes: the self-test passed")


if __name__ == "__main__":
    if sys.argv[1:] != ["--self-test"]:
        sys.exit(__doc__)
    self_test()
