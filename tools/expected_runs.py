"""What `glass check`, `run` and `average` must do with the files of a folder: status, line, text and saved checkpoint.

The files are read by input_judge.py, checkpoint_judge.py and report_judge.py; what a run does from there on is
asked of the definitions of tools/reference, one sample and one spin at a time, so it is told only of small and short
runs: of others the status and the first line."""
from collections import namedtuple

import checkpoint_judge
import input_judge as judge
import reference.definitions as rule
import report_judge
from input_judge import BANK, Open, Refused

# status and line (None: any of the manual); the first bytes of the output; all of it (None: not told); the run (None:
# nothing runs); how much work the program has, sites times sweeps of all slots and banks (None: not told)
Verdict = namedtuple("Verdict", "status line head text run work")
# What each bank starts with, and the last epoch.
Run = namedtuple("Run", "planned bases until")
# So many sites are followed through a run here, and so many are printed: an epoch of the least run over two banks.
MOST_MOVED, MOST_PRINTED = 4200, 30000


def refused(refusal):
    return Verdict(refusal.status, f"glass: {refusal.line}\n".encode(), b"", b"", None, 0)


NOT_TOLD = Verdict(None, None, b"", None, None, None)


def checked(name):
    """The verdict on `glass check NAME`."""
    try:
        planned = judge.planned(name)
    except Refused as refusal:
        return refused(refusal)
    except Open:
        return NOT_TOLD
    plan, samples = planned.plan, planned.orders["samples"]
    head = (f"plan 1 size={plan.size} slots={len(plan.rows)} samples={samples} rule={plan.rule} "
            f"sweeps={plan.sweeps} digest=").encode()
    return Verdict(0, b"", head, planned.digest and head + planned.digest.encode() + b"\n", None, 0)


def averaged(name, blocks):
    """The verdict on `glass average NAME BLOCKS`."""
    try:
        text = report_judge.averaged(name, blocks)
    except Refused as refusal:
        return refused(refusal)
    return Verdict(0, b"", text, text, None, 0)


def stopped(name):
    """The verdict on `glass run NAME --stop-after N --save CHECKPOINT`, as far as the reading of NAME and its files."""
    try:
        judge.planned(name, many=False)
    except Refused as refusal:
        return refused(refusal)
    except Open:
        pass
    return NOT_TOLD


# ---------------------------------------------------------------- what a run starts with


def openings(planned):
    """The positions of the opening, bank by bank; what their slots hold is made sample by sample."""
    return [checkpoint_judge.Base([(0, False)] * len(planned.plan.rows), None, None, {}) for _ in planned.plans]


def sample_copy(replica, size, b):
    labels, planes = replica
    spins = tuple(planes[rule.colour(size, i) * size + rule.z_of(size, i)][1][rule.place_in_plane(size, i)] >> b & 1 == 1
                  for i in range(size ** 3))
    return rule.PlainCopy(spins, tuple(words for words, _ in planes), labels[b])


def sample_state(planned, bases, sample, shift):
    """One sample of the state that a run starts with, its epochs counted from an even number on."""
    bank, b = divmod(sample, BANK)
    plan, base = planned.plans[bank], bases[bank]
    positions = tuple(rule.Position(epoch - shift, waits) for epoch, waits in base.positions)
    if base.slots is None:
        s = rule.opening(plan, planned.orders["start"], bank, b)
        return rule.UnevenState(b, positions, s.slots, s.pairs)
    slots = tuple(rule.PlainSlot(*(sample_copy(replica, plan.size, b) for replica in slot)) for slot in base.slots)
    return rule.UnevenState(b, positions, slots, tuple(rule.PlainPair(*pair) for pair in base.pairs))


def begins(bases):
    """The least completed epoch, which all banks have together."""
    return min(map(checkpoint_judge.done, bases[0].positions))


def shift_of(bases):
    return min(epoch for epoch, _ in bases[0].positions) // 2 * 2


def check_amount(planned, floor, until):
    orders, plan = planned.orders, planned.plan
    each = orders["samples"] * len(plan.rows)
    spins = each * 2 * plan.size ** 3
    rows = each * (until // orders["every"] - floor // orders["every"])
    if orders["spins"] and spins > 2 ** 28:
        raise Refused(3, f"too many spin bits: {spins}")
    if rows > 2 ** 22:
        raise Refused(3, f"too many rows: {rows}")


# ---------------------------------------------------------------- what a run prints and saves


def rows_of(run, samples, states, shift):
    """The rows of the report, sample by sample from the kept records and the rule."""
    plans, pending = run.planned.plans, run.bases[0].pending
    for e in range(begins(run.bases), run.until):
        if not rule.is_recorded(run.planned.orders["every"], e):
            continue
        for b in range(samples):
            for t in range(len(plans[0].rows)):
                record = pending.get((e, b, t))
                if record is None:
                    plan = plans[b // BANK]
                    record = rule.record_of(plan, b % BANK, rule.arrived(plan, states[b], e - shift, t))
                yield f"row,{e},{b},{t}," + ",".join(map(str, record))


def spins_of(run, samples, states, shift):
    for b in range(samples):
        plan = run.planned.plans[b // BANK]
        for t in range(len(plan.rows)):
            slot = rule.ready(plan, states[b], run.until - shift, t)
            for c, copy in enumerate(slot):
                yield f"spin,{b},{t},{c},{rule.spin_digits(plan.size, copy.spins)}"


def header(run):
    plan, samples = run.planned.plan, run.planned.orders["samples"]
    return (f"glass 1 size={plan.size} slots={len(plan.rows)} samples={samples} rule={plan.rule} "
            f"from={begins(run.bases)} to={run.until}")


def is_short(run):
    """Whether the run is followed here."""
    plan, orders = run.planned.plan, run.planned.orders
    sites = plan.size ** 3 * len(plan.rows)
    moved = sites * plan.sweeps * (run.until - begins(run.bases)) * orders["samples"]
    printed = sites * orders["samples"] if orders["spins"] else 0
    return plan.couplings is not None and moved <= MOST_MOVED and printed <= MOST_PRINTED


def report(run):
    samples, shift = run.planned.orders["samples"], shift_of(run.bases)
    states = [sample_state(run.planned, run.bases, b, shift) for b in range(samples)]
    lines = [header(run), *rows_of(run, samples, states, shift), f"end,{run.until}"]
    if run.planned.orders["spins"]:
        lines += spins_of(run, samples, states, shift)
    return ("\n".join(lines) + "\n").encode()


def ran(name, base_name, until):
    """The verdict on `glass run NAME --until UNTIL`, with `--from BASE_NAME` where that is not None."""
    try:
        planned = judge.planned(name)
        bases = openings(planned)
        if base_name is not None:
            bases = checkpoint_judge.checkpoint(judge.fetched(base_name, "checkpoint"), planned, until)
        check_amount(planned, begins(bases), until)
    except Refused as refusal:
        return refused(refusal)
    except Open:
        return NOT_TOLD
    run = Run(planned, bases, until)
    work = planned.plan.size ** 3 * len(planned.plan.rows) * planned.plan.sweeps * (until - begins(bases)) * len(bases)
    head = (header(run) + "\n").encode()
    return Verdict(0, b"", head, report(run) if is_short(run) else None, run, work)


def wrong_in_saved(stored, run, samples):
    """What is wrong in the checkpoint that a run saved, looked at in some samples; None where nothing is."""
    planned, bases, until = run
    shift = shift_of(bases)
    try:
        kept = checkpoint_judge.checkpoint(stored, planned, until)
    except Refused as refusal:
        return refusal.line
    if stored[:8] == b"GLASSCK2":
        return "it is of slots at epochs of their own"
    if kept[0].positions != [(until, False)] * len(planned.plan.rows):
        return f"it is at epoch {kept[0].positions[0][0]}"
    if bases[0].slots is not None and bases[0].positions == kept[0].positions:
        is_same = all((it.slots, it.pairs) == (base.slots, base.pairs) for it, base in zip(kept, bases))
        return None if is_same else "its state is not that of the start"
    for b in samples:
        plan = planned.plans[b // BANK]
        start, end = sample_state(planned, bases, b, shift), sample_state(planned, kept, b, until)
        slots = tuple(rule.ready(plan, start, until - shift, t) for t in range(len(plan.rows)))
        pairs = tuple(rule.generators(plan, start, k, until - shift) for k in range(len(plan.rows) - 1))
        if (slots, pairs) != (end.slots, end.pairs):
            return f"sample {b} is not that of the rule"
    return None
