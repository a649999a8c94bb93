"""What docs/specification/checkpoint.md says of a checkpoint: the states that it is, or the line of its first refusal.

It is written from that page and shares nothing with the program."""
import struct
from collections import namedtuple

import reference.definitions as rule
from input_judge import GREATEST_EPOCH, Open, Refused, number, seal_of

# What a bank starts with. Positions are pairs of an epoch and whether the slot waits; the rest is as contents_of gives it,
# and the records that are kept ahead by their epoch, sample and slot.
Base = namedtuple("Base", "positions slots pairs pending")


def contents_length(size, slots):
    return 2 * slots * (64 + 2 * size * (244 + 4 * size * size)) + 488 * (slots - 1)


def window(stored, at):
    return struct.unpack_from(">61I", stored, at)


def contents_of(stored, at, size, slots):
    """Each slot's two replicas, a replica being its labels and its planes, and each pair's two generators."""
    half, replicas = size * size // 2, []
    for _ in range(2 * slots):
        labels, at = stored[at:at + 64], at + 64
        planes = []
        for _ in range(2 * size):
            planes.append((window(stored, at), struct.unpack_from(f">{half}Q", stored, at + 244)))
            at += 244 + 8 * half
        replicas.append((labels, planes))
    pairs = [(window(stored, at + 488 * k), window(stored, at + 488 * k + 244)) for k in range(slots - 1)]
    return [tuple(replicas[2 * t:2 * t + 2]) for t in range(slots)], pairs


def check_labels(slots):
    for t, slot in enumerate(slots):
        for c in range(2):
            for b in range(64):
                label = slot[c][0][b]
                if label >= len(slots) or any(label == slots[s][c][0][b] for s in range(t)):
                    raise Refused(6, f"the checkpoint has a wrong replica at slot {t}, copy {c}, sample {b}")


def check_frame(stored, at, plan, digest, length):
    """Shape, which stands at a place; length; digest; and the plan's digest."""
    size, slots = plan.size, len(plan.rows)
    if (number(stored, at, 4), number(stored, at + 4, 4)) != (size, slots):
        raise Refused(6, f"the checkpoint has size {number(stored, at, 4)} and {number(stored, at + 4, 4)} slots")
    if len(stored) != length:
        raise Refused(6, f"the checkpoint has {len(stored)} bytes, not {length}")
    seal_of(6, "checkpoint", stored)
    if digest is None:
        raise Open
    if stored[8:40].hex() != digest:
        raise Refused(6, f"the checkpoint is of another plan: {stored[8:40].hex()} stored, {digest} here")


def level_checkpoint(stored, plan, digest, until):
    size, slots = plan.size, len(plan.rows)
    check_frame(stored, 48, plan, digest, 88 + contents_length(size, slots))
    contents, pairs = contents_of(stored, 56, size, slots)
    check_labels(contents)
    epoch = number(stored, 40, 8)
    if epoch > until:
        raise Refused(6, f"the checkpoint is at epoch {epoch}, past {until}")
    return Base([(epoch, False)] * slots, contents, pairs, {})


def done(position):
    return position[0] + position[1]


def check_places(places):
    for t, (epoch, phase) in enumerate(places):
        partner = t + 1 if (t + epoch) % 2 == 0 else t - 1
        is_wrong = phase not in (0, 2) or epoch > GREATEST_EPOCH or phase == 2 and not 0 <= partner < len(places)
        if t > 0 and not is_wrong:
            below, low, high = places[t - 1], *sorted((places[t - 1][0], epoch))
            # Of the epochs at which the pair below has its turn the same ones lie below both; no two of them are neighbours.
            first_turn = low + (low + t - 1) % 2
            is_wrong = first_turn < high or partner == t - 1 and phase == 2 and below == (epoch, 2)
        if is_wrong:
            raise Refused(6, f"the checkpoint has a wrong place at slot {t}")


def uneven_checkpoint(stored, planned_, until):
    size, slots = planned_.plan.size, len(planned_.plan.rows)
    if len(stored) < 96:
        raise Refused(6, f"the checkpoint is too short: {len(stored)} bytes")
    count = number(stored, 60, 4)
    check_frame(stored, 40, planned_.plan, planned_.digest, 96 + 9 * slots + contents_length(size, slots) + 14 * count)
    contents, pairs = contents_of(stored, 64 + 9 * slots, size, slots)
    check_labels(contents)
    places = [(number(stored, 64 + 9 * t, 8), stored[72 + 9 * t]) for t in range(slots)]
    check_places(places)
    samples, every = number(stored, 48, 4), number(stored, 52, 8)
    if (samples, every) != (planned_.orders["samples"], planned_.orders["every"]):
        raise Refused(6, f"the checkpoint is of samples={samples} every={every}")
    positions = [(epoch, phase == 2) for epoch, phase in places]
    floor, deepest = min(map(done, positions)), max(map(done, positions))
    kept = [(e, b, t) for e in range(floor, deepest) if rule.is_recorded(every, e) for b in range(samples)
            for t in range(slots) if e < done(positions[t])]
    if count != len(kept):
        raise Refused(6, f"the checkpoint has {count} pending records, not {len(kept)}")
    if deepest > until:
        raise Refused(6, f"the checkpoint is at epoch {deepest}, past {until}")
    start = len(stored) - 32 - 14 * count
    return Base(positions, contents, pairs,
                {place: record_at(stored, start + 14 * k) for k, place in enumerate(kept)})


def record_at(stored, at):
    signed = [int.from_bytes(stored[at + 4 * k:at + 4 * k + 4], "big", signed=True) for k in range(3)]
    return rule.Record(*signed, stored[at + 12], stored[at + 13])


def banks_checkpoint(stored, planned_, until):
    banks, length = len(planned_.plans), 88 + contents_length(planned_.plan.size, len(planned_.plan.rows))
    if len(stored) < 44:
        raise Refused(6, f"the checkpoint is too short: {len(stored)} bytes")
    if stored[:8] != b"GLASSCK3":
        raise Refused(6, "the checkpoint is of another kind")
    if number(stored, 8, 4) != banks:
        raise Refused(6, f"the checkpoint has {number(stored, 8, 4)} banks, not {banks}")
    if len(stored) != 44 + banks * length:
        raise Refused(6, f"the checkpoint has {len(stored)} bytes, not {44 + banks * length}")
    seal_of(6, "checkpoint", stored)
    digests = planned_.digests or [None] * banks
    bases = [bank_checkpoint(stored[12 + g * length:12 + (g + 1) * length], planned_.plans[g], digests[g], until)
             for g in range(banks)]
    epochs = [base.positions[0][0] for base in bases]
    for g, epoch in enumerate(epochs):
        if epoch != epochs[0]:
            raise Refused(6, f"the checkpoint has bank {g} at epoch {epoch}, not {epochs[0]}")
    return bases


def bank_checkpoint(stored, plan, digest, until):
    if stored[:8] != b"GLASSCK1":
        raise Refused(6, "the checkpoint is of another kind")
    return level_checkpoint(stored, plan, digest, until)


def checkpoint(stored, planned_, until):
    """What each bank starts with."""
    if len(planned_.plans) > 1:
        return banks_checkpoint(stored, planned_, until)
    if len(stored) < 88:
        raise Refused(6, f"the checkpoint is too short: {len(stored)} bytes")
    if stored[:8] == b"GLASSCK2":
        return [uneven_checkpoint(stored, planned_, until)]
    return [bank_checkpoint(stored, planned_.plan, planned_.digest, until)]
