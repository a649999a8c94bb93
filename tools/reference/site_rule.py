"""The spin rule of a site: spin_model/specs/SiteRule.antt."""
from reference.words import monus, slice_index


def heat_bath(thresholds, aligned_, draw_):
    return draw_ < slice_index(thresholds, aligned_)


def is_flipped(thresholds, satisfied_, draw_):
    return satisfied_ <= 3 or draw_ < slice_index(thresholds, monus(satisfied_, 4))


def new_spin(rule, thresholds, aligned_, satisfied_, draw_, spin_):
    if rule == "heat":
        return heat_bath(thresholds, aligned_, draw_)
    return (not spin_) if is_flipped(thresholds, satisfied_, draw_) else spin_
