"""The text of four copies of equal couplings: quenched_states/specs/CrossText.antt."""
from collections import namedtuple

from reference.copies import copy_pairs, pair_field
from reference.epoch import slot_at
from reference.planes import axis_correlation, face_correlation, link_overlap, total_overlap

CrossHeading = namedtuple("CrossHeading", "size slots samples rule first_seed second_seed first_epoch second_epoch")


def cross_heading_line(h):
    return (f"cross 1 size={h.size} slots={h.slots} samples={h.samples} rule={h.rule} seeds={h.first_seed},{h.second_seed} "
            f"epochs={h.first_epoch},{h.second_epoch}\n")


def copies_line(kind, sample, slot, pair, numbers):
    return ",".join([kind, *map(str, (sample, slot, *pair, *numbers))]) + "\n"


def pair_lines(l, sample, slot, pair, field):
    distances = range(l // 2 + 1)
    return (copies_line("pair", sample, slot, pair, (total_overlap(l, field), link_overlap(l, field)))
            + copies_line("axis", sample, slot, pair, (axis_correlation(l, field, r) for r in distances))
            + copies_line("face", sample, slot, pair, (face_correlation(l, field, r) for r in distances)))


def copies_lines(h, fields, b, t):
    return "".join(pair_lines(h.size, b, t, pair, fields(b, t, pair)) for pair in copy_pairs)


def slots_lines(h, fields, b):
    return "".join(copies_lines(h, fields, b, t) for t in range(h.slots))


def cross_text(h, fields):
    """Where `fields(b, t, pair)` is the field of two copies of slot t of sample b."""
    return cross_heading_line(h) + "".join(slots_lines(h, fields, b) for b in range(h.samples)) + "end\n"


def copies_fields(first, second, b, t, pair):
    """Of the states `first(b)` and `second(b)` of sample b."""
    return pair_field(slot_at(first(b).slots, t), slot_at(second(b).slots, t), pair)
