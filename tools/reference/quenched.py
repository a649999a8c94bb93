"""Sweeps without exchange, the states that a quench keeps, and their text: quenched_states/specs/StillRule.antt, KeptStates.antt and
QuenchText.antt."""
from collections import namedtuple

from reference.words import monus, slice_index, table
from reference.opening import PlainCopy, PlainSlot, Sample, dynamics_of, slots_of
from reference.sweep import Configuration, sweeps
from reference.epoch import slot_at
from reference.copies import two_time_field
from reference.planes import distance_correlation, link_overlap, total_overlap
from reference.measured import observed_in

# What the first line says: the rule as it is written, the listed times, and how many states were held from the beginning.
QuenchHeading = namedtuple("QuenchHeading", "size slots samples rule sweeps times held")


def still_copy(plan, b, t, n, copy):
    s = sweeps(dynamics_of(plan, b, t), plan.sweeps * n, Configuration(copy.spins, copy.wheels))
    return PlainCopy(s.spins, s.words, copy.replica)


def still_slot(plan, b, t, n, slot):
    return PlainSlot(still_copy(plan, b, t, n, slot.first), still_copy(plan, b, t, n, slot.second))


def still(plan, s, e):
    """The state at epoch e where no pair is exchanged and no pair's generator is turned."""
    return Sample(s.bit, e, table(lambda t: still_slot(plan, s.bit, t, monus(e, s.epoch), slot_at(s.slots, t)), slots_of(plan)), s.pairs)


most_times = 32


def time_at(times, j):
    return slice_index(times, j)


def kept_state(plan, s, times, j):
    return still(plan, s, time_at(times, j))


def gone_on(plan, times, count, held, j):
    """State j of a quench of which the first `count` states, at least one, are held: `held(k)` is state k of them."""
    return held(j) if j < count else still(plan, held(monus(count, 1)), time_at(times, j))


# ---------------------------------------------------------------- the text


def quench_heading_line(h):
    return (f"quench 1 size={h.size} slots={h.slots} samples={h.samples} rule={h.rule} sweeps={h.sweeps} "
            f"times={len(h.times)} held={h.held}\n")


def state_line(l, time, sample, slot, seen):
    numbers = (seen.first_energy, seen.second_energy, total_overlap(l, seen.field),
               *(distance_correlation(l, seen.field, r + 1) for r in range(l // 2)))
    return ",".join(["state", *map(str, (time, sample, slot, *numbers))]) + "\n"


def pair_line(l, waited, time, sample, slot, field):
    numbers = (total_overlap(l, field(0)), total_overlap(l, field(1)), link_overlap(l, field(0)), link_overlap(l, field(1)))
    return ",".join(["pair", *map(str, (waited, time, sample, slot, *numbers))]) + "\n"


def slot_lines(h, seen, fields, j, b, t):
    time = time_at(h.times, j)
    return state_line(h.size, time, b, t, seen(j, b, t)) + "".join(
        pair_line(h.size, time_at(h.times, i), time, b, t, lambda a, i=i: fields(i, j, b, t, a)) for i in range(j))


def sample_lines(h, seen, fields, j, b):
    return "".join(slot_lines(h, seen, fields, j, b, t) for t in range(h.slots))


def time_lines(h, seen, fields, j):
    return "".join(sample_lines(h, seen, fields, j, b) for b in range(h.samples))


def lines_between(h, seen, fields, first, end):
    return "".join(time_lines(h, seen, fields, j) for j in range(first, end))


def quench_text(h, seen, fields):
    """Of all states behind those that are held: `seen(j, b, t)` of state j, and `fields(i, j, b, t, a)` of states i and j."""
    return quench_heading_line(h) + lines_between(h, seen, fields, h.held, len(h.times)) + "end\n"


def state_seen(plan, kept, j, b, t):
    """Of a quench whose sample b has the kept states `kept(b, j)` under `plan(b)`."""
    return observed_in(plan(b), kept(b, j).bit, slot_at(kept(b, j).slots, t))


def state_fields(kept, i, j, b, t, a):
    return two_time_field(slot_at(kept(b, i).slots, t), slot_at(kept(b, j).slots, t), a)
