"""Means over epochs: those of the slots, distributions of overlaps, and means between the slots."""
from __future__ import annotations

import argparse
from typing import List, Sequence, Tuple

import numpy as np

from estimate_words import Words
from glass_analysis import (Distribution, Estimate, Records, below, binder, blocks, densities, energy_moments, figures,
                            jackknife, moments, overlap_edges, reweighted, specific_heat, susceptibility)
from glass_analysis.distributions import below_errors
from glass_analysis.errors import Numbers
from glass_analysis.observables import MOMENTS
from make_tables import Refusal, positive

HEADS = ("energy", "q^2", "chi", "Binder", "c")


def of_moments(parts: Numbers, sites: int) -> List[Tuple[str, Estimate]]:
    return [("energy per site", jackknife(parts, lambda m: m[..., 0])), ("q²", jackknife(parts, lambda m: m[..., 1])),
            ("susceptibility", jackknife(parts, lambda m: susceptibility(m, sites))), ("Binder ratio", jackknife(parts, binder))]


def print_table(head: str, names: Sequence[str], named: Sequence[Tuple[str, Estimate]]) -> None:
    print(f"slot {head:>10}" + "".join(f" {what:>11} {'error':>9}" for what in HEADS[:len(named)]))
    for slot, name in enumerate(names):
        print(f"{slot:>4} {name:>10}" + "".join(f" {e.value[slot]:>11.6f} {e.error[slot]:>9.6f}" for _, e in named))


def means(words: Words, options: argparse.Namespace) -> None:
    found = words.of_each(lambda records: np.concatenate([moments(records), energy_moments(records)], axis=-1))
    slots, sites = words.named, words.run.sites
    parts = blocks(found, slots.blocks)
    named = of_moments(parts, sites)
    if slots.betas:
        betas = slots.betas
        named.append(("specific heat", jackknife(parts, lambda m: specific_heat(m[..., MOMENTS:], betas, sites))))
    words.begin()
    print_table(slots.head, slots.names, named)
    slots.end(options, lambda: figures.means(slots.across, slots.axis, named), len(parts))


def reweight(words: Words, options: argparse.Namespace) -> None:
    """Between the slots, at temperatures or inverse ones."""
    texts: List[str] = options.at or options.at_betas
    numbers = [float(positive(text, place, "temperature")) for place, text in enumerate(texts)]
    targets = [1 / number for number in numbers] if options.at else numbers

    def taken(records: Records) -> Tuple[Numbers, Numbers]:
        slot = None if options.from_slot is None else words.named.slot(options.from_slot)
        return reweighted(records, words.named.known_betas(), targets, slot)

    found = words.of_each(taken)
    slots = words.named
    parts = blocks([one[0] for one in found], slots.blocks)
    share = np.mean([one[1] for one in found], axis=0)
    named = of_moments(parts, words.run.sites)
    words.begin()
    print(f"{'T' if options.at else 'beta':>10}" + "".join(f" {what:>11} {'error':>9}" for what in HEADS[:4]) + f" {'records':>8}")
    for place, text in enumerate(texts):
        print(f"{text:>10}" + "".join(f" {e.value[place]:>11.6f} {e.error[place]:>9.6f}" for _, e in named)
              + f" {share[place]:>8.2f}")
    print("records: how many carry the weight of a sample, in those of a slot")
    slots.end(options, lambda: figures.means(numbers, "temperature" if options.at else "inverse temperature", named), len(parts))


def overlaps(words: Words, options: argparse.Namespace) -> None:
    def taken(records: Records) -> Tuple[Numbers, Numbers, Numbers]:
        slots = [words.named.slot(slot) for slot in options.slot]
        return (np.stack([densities(records, slot, options.bins) for slot in slots], axis=1),
                np.array([[below(records, slot, bound) for bound in options.below] for slot in slots]),
                np.array([[below_errors(records, slot, bound) for bound in options.below] for slot in slots]))

    if any(not 0 < bound <= 1 for bound in options.below):
        raise Refusal("a bound of |q| is above 0 and not above 1")
    found = words.of_each(taken)
    slots, edges = words.named, overlap_edges(words.run.sites, options.bins)
    parts = blocks([one[0] for one in found], slots.blocks)
    density = jackknife(parts)
    words.begin()
    for place, slot in enumerate(options.slot):
        print(f"{words.named.title(slot)}\n{'from':>9} {'to':>9} {'P(q)':>9} {'error':>9}")
        for k, value in enumerate(density.value[place]):
            print(f"{edges[k]:>9.5f} {edges[k + 1]:>9.5f} {value:>9.6f} {density.error[place, k]:>9.6f}")
    for n, bound in enumerate(options.below):
        small = jackknife(blocks([one[1][:, n].T for one in found], slots.blocks))
        for place, slot in enumerate(options.slot):
            print(f"P(|q| < {bound:g}) at {slots.title(slot)}: {small.value[place]:.6f} {small.error[place]:.6f}")
    if options.each:
        write_each(options, words, found)
    named = [(slots.title(slot), Distribution(edges, Estimate(density.value[place], density.error[place])))
             for place, slot in enumerate(options.slot)]
    slots.end(options, lambda: figures.overlaps(named), len(parts))


def write_each(options: argparse.Namespace, words: Words, found: Sequence[Tuple[Numbers, Numbers, Numbers]]) -> None:
    """A line of names, then a line for each sample: P(|q| < bound) with its own errors, and P(q) by bin."""
    edges = overlap_edges(words.run.sites, options.bins)
    names = ["report", "sample", "slot"] + [text for bound in options.below for text in (f"below_{bound:g}", "error")]
    lines = [",".join(names + [f"P({(a + b) / 2:.5f})" for a, b in zip(edges, edges[1:])])]
    for report, (by_sample, small, errors) in zip(options.reports, found):
        for sample, (place, slot) in ((s, p) for s in range(len(by_sample)) for p in enumerate(options.slot)):
            own = [f"{part[place][n][sample]:.6f}" for n in range(len(options.below)) for part in (small, errors)]
            lines.append(",".join([report, str(sample), str(slot), *own, *(f"{p:.6f}" for p in by_sample[sample, place])]))
    try:
        with open(options.each, "w", encoding="utf-8", errors="surrogateescape", newline="\n") as out:
            out.write("\n".join(lines) + "\n")
    except OSError as fault:
        raise Refusal(f"{options.each} can't be written: {fault.strerror}") from None
    print(f"wrote {options.each}")
