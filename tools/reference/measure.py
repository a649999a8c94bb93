#!/usr/bin/env python3
"""`glass measure` as an independent program: sums by bins of epochs over a run, one sample and one site at a time.

    python3 tools/reference/measure.py RUN [--until E] [--from CK] [--save CK'] [--workers N] [--pieces P]

The words, the files and the order of their refusals are those of docs/specification/measure.md. A small run takes seconds:
some ten thousand updates of a site each. Status, output and error line are those of the program; 13 where the answer isn't
told here: a run file with what TOML 1.1 alone has, or random couplings at a size above 8."""
import os
import sys
from collections import namedtuple
from functools import lru_cache
from pathlib import Path

sys.path.insert(0, str(Path(__file__).resolve().parents[1]))
sys.dont_write_bytecode = True
import checkpoint_judge  # noqa: E402
import expected_runs  # noqa: E402
import input_judge  # noqa: E402
from input_judge import BANK, Open, Refused  # noqa: E402
from reference.answers import ending_of, tell  # noqa: E402
from reference.banks import banks_encoding  # noqa: E402
from reference.checkpoint import encoding  # noqa: E402
from reference.epoch import serial  # noqa: E402
from reference.measured import Heading, followed_text  # noqa: E402
from reference.opening import Sample, opening  # noqa: E402
from reference.plain import number_word  # noqa: E402
from reference.request_words import file_word, split_words  # noqa: E402

MeasureOrder = namedtuple("MeasureOrder", "run workers pieces until from_ save")


# ---------------------------------------------------------------- words

OPTIONS = {b"--workers": lambda word: number_word(1, 64, word), b"--pieces": lambda word: number_word(1, 16, word),
           b"--until": lambda word: number_word(0, input_judge.GREATEST_EPOCH, word), b"--from": file_word, b"--save": file_word}


def measure_order(words):
    """The order of `measure`, None where the words are none."""
    read = split_words(OPTIONS, words[1:]) if words[:1] == [b"measure"] else None
    if read is None or len(read.others) != 1 or file_word(read.others[0]) is None:
        return None
    said = read.said
    return MeasureOrder(read.others[0], said.get(b"--workers", 1), said.get(b"--pieces", 1), said.get(b"--until"),
                        said.get(b"--from"), said.get(b"--save"))


# ---------------------------------------------------------------- steps


def level_bases(stored, planned, until):
    """What each bank starts with; a checkpoint of slots at epochs of their own is of another kind here."""
    if len(planned.plans) == 1 and len(stored) >= 88 and stored[:8] == b"GLASSCK2":
        raise Refused(6, "the checkpoint is of another kind")
    return checkpoint_judge.checkpoint(stored, planned, until)


def start_of(planned, bases, sample):
    """The state of one sample of the whole that a run starts with."""
    bank, b = divmod(sample, BANK)
    if bases is None:
        return opening(planned.plans[bank], planned.orders["start"], bank, b)
    kept = expected_runs.sample_state(planned, bases, sample, 0)
    return Sample(b, kept.positions[0].epoch, kept.slots, kept.pairs)


def saved_bytes(planned, start, until):
    """The checkpoint of all samples of all banks at an epoch."""
    states = [lru_cache(maxsize=None)(lambda b, g=g: serial(planned.plans[g], start(BANK * g + b), until))
              for g in range(len(planned.plans))]
    return encoding(planned.plan, states[0]) if len(states) == 1 else banks_encoding(planned.plans, states)


def measured(order):
    """What the order asks for: the text and the bytes to save. Raises Refused by the first step that refuses, or Open."""
    planned = input_judge.planned(order.run.decode())
    until = planned.orders["epochs"] if order.until is None else order.until
    bases = None
    if order.from_ is not None:
        bases = level_bases(input_judge.fetched(order.from_.decode(), "checkpoint"), planned, until)
    if planned.plan.couplings is None:
        raise Open
    start = lru_cache(maxsize=None)(lambda b: start_of(planned, bases, b))
    orders = planned.orders
    text, _ = followed_text(planned.plans, start, orders["samples"], orders["every"], until, orders["rule"], planned.digest)
    return text, None if order.save is None else saved_bytes(planned, start, until)


def ended(words):
    """How a call with these words ends; the files are those of the folder where it runs."""
    return ending_of(measure_order, measured, words)


def main(words):
    if words == ["--help"]:
        print(__doc__)
        return 0
    return tell(ended([b"measure", *map(os.fsencode, words)]))


if __name__ == "__main__":
    sys.exit(main(sys.argv[1:]))
