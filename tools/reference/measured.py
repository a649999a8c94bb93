"""What `measure` sums up, and its text: measured_sums/specs/EpochBins.antt, MeasuredSums.antt,
RunningSums.antt and SumsText.antt.

Numbers are whole and as great as they get; a sample's epochs are followed one after the other, a site at a time."""
from collections import namedtuple

from reference.words import count_below, one_if, table
from reference.lattice import volume
from reference.opening import slots_of
from reference.epoch import epoch, is_recorded, record_of, serial, slot_at, swept_slot
from reference.report import end_line
from reference.planes import axis_correlation, face_correlation, link_overlap, site_overlap, total_overlap

# The epochs of a run are below 2 ** 30.
epoch_digits = 30
most_bins = epoch_digits + 1
overlap_classes = 32

Observed = namedtuple("Observed", "first_energy second_energy field")
# A quantity is its name, and the number of a class or of steps where it has one.
Quantity = namedtuple("Quantity", "name number", defaults=(0,))
# What is said of a run in the first line: the rule and the plans' digest as they are written.
Heading = namedtuple("Heading", "size slots samples rule every from_ to digest")


def bin_of(f):
    return count_below(lambda k: 2 ** k <= f, epoch_digits)


def class_of(l, overlap):
    return min(overlap_classes - 1, overlap_classes * abs(overlap) // volume(l))


def observed_in(plan, b, slot):
    record = record_of(plan, b, slot)
    return Observed(record.first_energy, record.second_energy, site_overlap(slot.first.spins, slot.second.spins))


def observed(plan, s, t):
    """After the sweeps of the state's epoch, before its exchange."""
    return observed_in(plan, s.bit, swept_slot(plan, s.bit, t, slot_at(s.slots, t)))


def square(z):
    return z * z


def term_of(l, seen, quantity):
    """What one measured epoch adds."""
    e0, e1, q = seen.first_energy, seen.second_energy, total_overlap(l, seen.field)
    name, number = quantity
    if name == "InClass":
        return one_if(class_of(l, q) == number)
    if name == "Axes":
        return axis_correlation(l, seen.field, number)
    if name == "Faces":
        return face_correlation(l, seen.field, number)
    if name in ("Links", "LinkSquares"):
        links = link_overlap(l, seen.field)
        return links if name == "Links" else square(links)
    return {"Number": 1, "Energies": e0 + e1, "EnergySquares": square(e0) + square(e1), "EnergyProducts": e0 * e1,
            "Overlaps": q, "Magnitudes": abs(q), "OverlapSquares": square(q), "OverlapFourths": square(square(q)),
            "EnergyOverlapSquares": (e0 + e1) * square(q), "EnergyOverlapFourths": (e0 + e1) * square(square(q))}[name]


moments = tuple(map(Quantity, ("Number", "Energies", "EnergySquares", "EnergyProducts", "Links", "LinkSquares", "Overlaps",
                               "Magnitudes", "OverlapSquares", "OverlapFourths", "EnergyOverlapSquares", "EnergyOverlapFourths")))


classes = table(lambda c: Quantity("InClass", c), overlap_classes)


def axis_distances(l):
    return table(lambda r: Quantity("Axes", r), l // 2 + 1)


def face_distances(l):
    return table(lambda r: Quantity("Faces", r), l // 2 + 1)


def is_measured(every, k, f):
    return is_recorded(every, f) and bin_of(f) == k


def bin_sum(term, every, k, c, e):
    return sum(term(f) for f in range(c, e) if is_measured(every, k, f))


def epochs_in_bin(every, k, c, e):
    return count_below(lambda j: is_measured(every, k, c + j), e - c)


def sum_from(plan, start, every, e, t, k, quantity):
    """A sample's sum in a slot and a bin from the state that it starts with, by the serial dynamics to epoch e."""
    return bin_sum(lambda f: term_of(plan.size, observed(plan, serial(plan, start, f), t), quantity), every, k, start.epoch, e)


# ---------------------------------------------------------------- a slot's sums while a run goes on, by bin and quantity


def no_sums(k, quantity):
    """Over no epoch."""
    return 0


def with_epoch(l, f, seen, sums):
    """With an epoch in which this was observed."""
    return lambda k, quantity: sums(k, quantity) + (term_of(l, seen, quantity) if bin_of(f) == k else 0)


def behind_epoch(every, l, f, seen, sums):
    """Where the epoch isn't measured, nothing is added."""
    return with_epoch(l, f, seen, sums) if is_recorded(every, f) else sums


def sums_below(plan, start, every, t, e):
    """Of a run to epoch e from a sample's state."""
    return lambda k, quantity: sum_from(plan, start, every, e, t, k, quantity)


# ---------------------------------------------------------------- the text


def heading_line(h):
    return (f"measure 1 size={h.size} slots={h.slots} samples={h.samples} rule={h.rule} every={h.every} from={h.from_} "
            f"to={h.to} digest={h.digest}\n")


def numbers_line(kind, sample, slot, k, numbers):
    return ",".join([kind, *map(str, (sample, slot, k, *numbers))]) + "\n"


def bin_lines(l, sample, slot, k, number):
    return (numbers_line("sum", sample, slot, k, map(number, moments)) + numbers_line("hist", sample, slot, k, map(number, classes))
            + numbers_line("axis", sample, slot, k, map(number, axis_distances(l)))
            + numbers_line("face", sample, slot, k, map(number, face_distances(l))))


def slot_sums(h, sums, sample, slot):
    return "".join(bin_lines(h.size, sample, slot, k, lambda quantity: sums(sample, slot, k, quantity))
                   for k in range(most_bins) if epochs_in_bin(h.every, k, h.from_, h.to) > 0)


def sample_sums(h, sums, sample):
    return "".join(slot_sums(h, sums, sample, slot) for slot in range(h.slots))


def sums_text(h, sums):
    """The whole text, where `sums(b, t, k, quantity)` has the sums of sample b in slot t and bin k."""
    return heading_line(h) + "".join(sample_sums(h, sums, sample) for sample in range(h.samples)) + end_line(h.to)


def run_sums(plan, start, every, e, b, t, k, quantity):
    """Of a run to epoch e whose sample b starts with `start(b)` under `plan(b)`."""
    return sum_from(plan(b), start(b), every, e, t, k, quantity)


# ---------------------------------------------------------------- the same, each epoch made once


class Followed:
    """The sums of one sample by the serial dynamics: those of `sum_from`, with every state and every sum over sites made once."""

    def __init__(self, plan, start, every, e):
        self.plan, self.every, self.from_, self.to, self.seen = plan, every, start.epoch, e, {}
        s = start
        for f in range(start.epoch, e):
            if is_recorded(every, f):
                self.seen.update({(f, t): observed(plan, s, t) for t in range(slots_of(plan))})
            s = epoch(plan, s)
        self.state, self.terms = s, {}

    def term(self, f, t, quantity):
        if (f, t, quantity) not in self.terms:
            self.terms[f, t, quantity] = term_of(self.plan.size, self.seen[f, t], quantity)
        return self.terms[f, t, quantity]

    def sum(self, t, k, quantity):
        return bin_sum(lambda f: self.term(f, t, quantity), self.every, k, self.from_, self.to)


def followed_text(plans, starts, samples, every, e, rule, digest):
    """The text of a run whose sample b starts with `starts(b)` under the plan of its bank, and its samples followed."""
    own = [Followed(plans[b // 64], starts(b), every, e) for b in range(samples)]
    heading = Heading(plans[0].size, slots_of(plans[0]), samples, rule, every, starts(0).epoch, e, digest)
    return sums_text(heading, lambda b, t, k, quantity: own[b].sum(t, k, quantity)), own
