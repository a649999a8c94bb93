#!/usr/bin/env python3
"""`glass quench` as an independent program: states that are kept at listed times, by sweeps without exchange, one sample and one
site at a time.

    python3 tools/reference/quench.py RUN N T1 .. TN [--from KEPT] [--save KEPT'] [--workers N] [--pieces P]

The words, the files and the order of their refusals are those of docs/specification/quench.md. Status, output and error line
are those of the program; 13 where the answer isn't told here: a run file with what TOML 1.1 alone has, or random couplings at a
size above 8."""
import os
import sys
from collections import namedtuple
from functools import lru_cache
from pathlib import Path

sys.path.insert(0, str(Path(__file__).resolve().parents[1]))
sys.dont_write_bytecode = True
import input_judge  # noqa: E402
from input_judge import BANK, GREATEST_EPOCH, Open, Refused, number  # noqa: E402
from reference.answers import ending_of, tell  # noqa: E402
from reference.banks import banks_encoding, banks_len  # noqa: E402
from reference.checkpoint import encoding, encoding_len  # noqa: E402
from reference.kept import KeptRefusals, LevelTests, kept_encoding, kept_length, kept_refusal, longest_kept, states_in  # noqa: E402
from reference.measure import OPTIONS, level_bases, start_of  # noqa: E402
from reference.opening import slots_of  # noqa: E402
from reference.plain import number_word  # noqa: E402
from reference.quenched import QuenchHeading, gone_on, most_times, quench_text, state_fields, state_seen, still, time_at  # noqa: E402
from reference.request_words import file_word, split_words  # noqa: E402

QuenchOrder = namedtuple("QuenchOrder", "run times workers pieces from_ save")
QUENCH_OPTIONS = {name: read for name, read in OPTIONS.items() if name != b"--until"}


# ---------------------------------------------------------------- words


def times_of(words):
    """The listed times, None where the words are no number of times and as many of them, each above the one before it."""
    count = number_word(1, most_times, words[0]) if words else None
    times = [number_word(0, GREATEST_EPOCH, word) for word in words[1:]]
    if count is None or len(times) != count or None in times:
        return None
    return tuple(times) if all(a < b for a, b in zip(times, times[1:])) else None


def quench_order(words):
    """The order of `quench`, None where the words are none."""
    read = split_words(QUENCH_OPTIONS, words[1:]) if words[:1] == [b"quench"] else None
    if read is None or not read.others or file_word(read.others[0]) is None:
        return None
    times, said = times_of(read.others[1:]), read.said
    if times is None:
        return None
    return QuenchOrder(read.others[0], times, said.get(b"--workers", 1), said.get(b"--pieces", 1), said.get(b"--from"), said.get(b"--save"))


# ---------------------------------------------------------------- steps


def level_length(planned):
    return encoding_len(planned.plan.size, slots_of(planned.plan)) if len(planned.plans) == 1 else banks_len(planned.plans)


def level_refusal(planned, stored):
    """The line of the first refusal of one state's checkpoint, None where it has none."""
    try:
        level_bases(stored, planned, GREATEST_EPOCH)
    except Refused as refusal:
        return refusal.line
    return None


def level_epoch(planned, stored):
    return number(stored, 40 if len(planned.plans) == 1 else 12 + 40, 8)


TELL = KeptRefusals(
    short="the checkpoint is too short: {} bytes".format, states="the checkpoint has {} states, not 1 to {}".format,
    other_length="the checkpoint has {} bytes, not {}".format,
    damaged=lambda stored, computed: f"the checkpoint is damaged: {stored.hex()} stored, {computed.hex()} computed",
    other_time="the checkpoint has state {} at epoch {}, not {}".format)


def held_states(order, planned):
    """What each bank has in each state that the quench goes on from."""
    if order.from_ is None:
        return []
    stored = input_judge.fetched(order.from_.decode(), "checkpoint")
    tests = LevelTests(level_length(planned), lambda state: level_refusal(planned, state), lambda state: level_epoch(planned, state))
    line = kept_refusal(TELL, tests, order.times, stored)
    if line is not None:
        raise Refused(6, line)
    return [level_bases(state, planned, GREATEST_EPOCH) for state in states_in(tests.len, stored)]


def check_states(order, planned):
    wanted = kept_length(len(order.times), level_length(planned))
    if wanted > longest_kept:
        raise Refused(3, f"too many bytes of states: {wanted}")


def kept_by(order, planned, held):
    """State j of a sample of the whole."""
    @lru_cache(maxsize=None)
    def state(b, j):
        plan = planned.plans[b // BANK]
        if not held:
            before = start_of(planned, None, b) if j == 0 else state(b, j - 1)
            return still(plan, before, time_at(order.times, j))
        return gone_on(plan, order.times, len(held), lambda k: start_of(planned, held[k], b), j)
    return state


def kept_bytes(planned, kept, count):
    """The kept states of all samples of all banks."""
    def level(j):
        states = [lambda b, g=g: kept(BANK * g + b, j) for g in range(len(planned.plans))]
        return encoding(planned.plan, states[0]) if len(states) == 1 else banks_encoding(planned.plans, states)
    return kept_encoding([level(j) for j in range(count)])


def quenched(order):
    """What the order asks for: the text and the bytes to save. Raises Refused by the first step that refuses, or Open."""
    planned = input_judge.planned(order.run.decode())
    held = held_states(order, planned)
    check_states(order, planned)
    if planned.plan.couplings is None:
        raise Open
    kept, orders = kept_by(order, planned, held), planned.orders
    heading = QuenchHeading(planned.plan.size, slots_of(planned.plan), orders["samples"], orders["rule"], orders["sweeps"], order.times, len(held))
    text = quench_text(heading, lambda *place: state_seen(lambda b: planned.plans[b // BANK], kept, *place), lambda *place: state_fields(kept, *place))
    return text, None if order.save is None else kept_bytes(planned, kept, len(order.times))


def ended(words):
    """How a call with these words ends; the files are those of the folder where it runs."""
    return ending_of(quench_order, quenched, words)


def main(words):
    if words == ["--help"]:
        print(__doc__)
        return 0
    return tell(ended([b"quench", *map(os.fsencode, words)]))


if __name__ == "__main__":
    sys.exit(main(sys.argv[1:]))
