#!/usr/bin/env python3
"""Stands in for `glass` where the driver of long runs is tested: `check`, and `run` and `measure` with their options and files.

Its states are a chain of digests, so that the end shows each epoch that was made. It simulates nothing: overlaps, which
`measure` sums up, are digits of these digests, with no energy and no correlation at a distance. Words
in the file `trouble`, beside the run file, bring troubles that the program seldom has:

    seconds S     each epoch takes so long
    status N E    a part that ends past epoch E ends with status N, and with a line
    signal N E    the same, and it dies by that signal
"""
import hashlib
import os
import re
import sys
import time
from itertools import product

LINES = {6: "the checkpoint is damaged", 9: "writing the report failed", 10: "placing the checkpoint failed",
         11: "no memory"}


def keys_of(name):
    with open(name) as lines:
        return dict(re.findall(r'^(\w+) = "?([^"\n#]*?)"? *(?:#.*)?$', lines.read(), re.M))


def trouble():
    try:
        with open("trouble") as words:
            kind, value, *rest = words.read().split()
    except OSError:
        return "", "0", 0
    return kind, value, int((rest or ["0"])[0])


def leave(status):
    sys.stderr.write(f"glass: {LINES.get(status, 'some line')}\n")
    sys.exit(status)


def state_in(name, plan):
    """The epoch and the state of a checkpoint."""
    if not os.path.exists(name):
        leave(7)
    with open(name) as stream:
        words = stream.read().split()
    if len(words) != 4 or words[0] != plan or hashlib.sha256(" ".join(words[:3]).encode()).hexdigest() != words[3]:
        leave(6)
    return int(words[1]), words[2]


def sums_of(overlaps):
    """The four lines' numbers of a bin at size 4, of the overlaps of its epochs."""
    squares, classes = sum(q ** 2 for q in overlaps), [0] * 32
    for q in overlaps:
        classes[32 * abs(q) // 64] += 1
    moments = [len(overlaps), 0, 0, 0, 0, 0, sum(overlaps), sum(map(abs, overlaps)), squares, sum(q ** 4 for q in overlaps), 0, 0]
    return {"sum": moments, "hist": classes, "axis": [3 * squares, 0, 0], "face": [6 * squares, 0, 0]}


def print_sums(keys, plan, first, until, overlaps):
    """The text of sums, of the overlaps by measured epoch, which all samples and slots have in common."""
    print(f"measure 1 size={keys['size']} slots=2 samples={keys['samples']} rule={keys['rule']} every={keys['every']} "
          f"from={first} to={until} digest={plan}")
    bins = sorted({epoch.bit_length() for epoch in overlaps})
    for sample in range(int(keys["samples"])):
        for slot in range(2):
            for k in bins:
                sums = sums_of([q for epoch, q in overlaps.items() if epoch.bit_length() == k])
                for kind, numbers in sums.items():
                    print(",".join(map(str, [kind, sample, slot, k, *numbers])))
    print(f"end,{until}")


def run(command, options, keys, plan):
    start = state_in(options["--from"], plan) if "--from" in options else (0, plan)
    (first, state), until, every = start, int(options.get("--until", keys["epochs"])), int(keys["every"])
    kind, value, past = trouble()
    if until > past and kind == "signal":
        os.kill(os.getpid(), int(value))
    if until > past and kind == "status":
        leave(int(value))
    is_run, overlaps = command == "run", {}
    if is_run:
        print(f"glass 1 size={keys['size']} slots=2 samples={keys['samples']} rule={keys['rule']} from={first} to={until}")
    for epoch in range(first, until):
        state = hashlib.sha256(state.encode()).hexdigest()
        time.sleep(float(value) if kind == "seconds" else 0)
        if (epoch + 1) % every == 0:
            overlaps[epoch] = 2 * (int(state[:2], 16) % 63) - 62
            for place in product(range(int(keys["samples"])), range(2)) if is_run else ():
                print(f"row,{epoch},{place[0]},{place[1]},{int(state[:4], 16)},0,0,0,1")
    if not is_run:
        print_sums(keys, plan, first, until, overlaps)
    else:
        print(f"end,{until}")
    if is_run and keys["spins"] == "true":
        print(f"spin,0,0,0,{state}")
    sys.stdout.flush()
    if "--save" in options:
        text = f"{plan} {until} {state}"
        with open(options["--save"], "w") as stream:
            stream.write(f"{text} {hashlib.sha256(text.encode()).hexdigest()}\n")


def main(command, name, *words):
    keys = keys_of(name)
    plan = hashlib.sha256(repr([keys[key] for key in ("size", "rule", "rules", "sweeps", "seed")]).encode()).hexdigest()
    if command == "check":
        print(f"plan 1 size={keys['size']} slots=2 samples={keys['samples']} rule={keys['rule']} "
              f"sweeps={keys['sweeps']} digest={plan}")
    else:
        run(command, dict(zip(words[::2], words[1::2])), keys, plan)


if __name__ == "__main__":
    main(*sys.argv[1:])
