#!/usr/bin/env python3
"""`glass cross` as an independent program: overlaps of four copies of equal couplings, from two saved states, one sample and one
site at a time.

    python3 tools/reference/cross.py RUN FIRST SEED SECOND

The words, the files and the order of their refusals are those of docs/specification/quench.md. Status, output and error line
are those of the program; 13 where the answer isn't told here: a run file with what TOML 1.1 alone has, or random couplings at a
size above 8."""
import os
import sys
from collections import namedtuple
from functools import lru_cache
from pathlib import Path

sys.path.insert(0, str(Path(__file__).resolve().parents[1]))
sys.dont_write_bytecode = True
import input_judge  # noqa: E402
from input_judge import GREATEST_EPOCH, Open, Planned, Refused  # noqa: E402
from reference.answers import ending_of, tell  # noqa: E402
from reference.crossed import CrossHeading, copies_fields, cross_text  # noqa: E402
from reference.measure import level_bases, start_of  # noqa: E402
from reference.opening import slots_of  # noqa: E402
from reference.plain import number_word  # noqa: E402
from reference.request_words import file_word  # noqa: E402

CrossOrder = namedtuple("CrossOrder", "run first seed second save")
GREATEST_SEED = 2 ** 63 - 1


def cross_order(words):
    """The order of `cross`, None where the words are none."""
    if len(words) != 5 or words[0] != b"cross":
        return None
    run, first, seed, second = words[1], words[2], number_word(0, GREATEST_SEED, words[3]), words[4]
    if seed is None or any(file_word(name) is None or name.startswith(b"--") for name in (run, first, second)):
        return None
    return CrossOrder(run, first, seed, second, None)


def with_seed(planned, seed):
    """The plans with another seed and all else the same, the couplings too."""
    orders, plan = planned.orders, planned.plan
    digests = None
    if planned.digests is not None:
        bonds = input_judge.bonds_of(orders["couplings"], plan.size, orders["seed"], len(planned.plans))
        digests = [input_judge.plan_digest(plan.size, plan.rule, plan.rows, plan.swaps, plan.sweeps, seed, it) for it in bonds]
    return Planned(orders, [it._replace(seed=seed) for it in planned.plans], digests)


def state_at(name, planned):
    return level_bases(input_judge.fetched(name.decode(), "checkpoint"), planned, GREATEST_EPOCH)


def second_state(name, planned):
    """What is told of the second state calls it so."""
    try:
        return state_at(name, planned)
    except Refused as refusal:
        raise Refused(refusal.status, refusal.line.replace("the checkpoint", "the second checkpoint", 1)) from None


def crossed(order):
    """The text that the order asks for. Raises Refused by the first step that refuses, or Open."""
    planned = input_judge.planned(order.run.decode())
    others = with_seed(planned, order.seed)
    bases = (state_at(order.first, planned), second_state(order.second, others))
    if planned.plan.couplings is None:
        raise Open
    first, second = (lru_cache(maxsize=None)(lambda b, it=it: start_of(planned, it, b)) for it in bases)
    orders = planned.orders
    heading = CrossHeading(planned.plan.size, slots_of(planned.plan), orders["samples"], orders["rule"], orders["seed"], order.seed,
                           *(it[0].positions[0][0] for it in bases))
    return cross_text(heading, lambda *place: copies_fields(first, second, *place)), None


def ended(words):
    """How a call with these words ends; the files are those of the folder where it runs."""
    return ending_of(cross_order, crossed, words)


def main(words):
    if words == ["--help"]:
        print(__doc__)
        return 0
    return tell(ended([b"cross", *map(os.fsencode, words)]))


if __name__ == "__main__":
    sys.exit(main(sys.argv[1:]))
