"""How a run goes: whether it is equilibrated, its autocorrelation times, and how its configurations walk."""
from __future__ import annotations

import argparse
import copy
import csv
from typing import List, NamedTuple, Optional, Sequence, Tuple

import numpy as np

from estimate_words import Outline, Words
from glass_analysis import Records, WalkTimes, blocks, figures, jackknife, round_trips, walk_times
from glass_analysis.equilibrium import (Mover, Parts, farthest_apart, greatest_expected, last_movers, meetings, parts_of,
                                        steps_of)
from glass_analysis.errors import Estimate, Numbers
from glass_analysis.observables import ENERGY, SQUARE, moments
from glass_analysis.reports import of_each_report
from glass_analysis.times import covariances, settled_samples, time_of
from glass_analysis.walk_times import LENGTHS
from glass_analysis.walks import acceptances_by_sample, downward_counts, downward_share, feedback_temperatures
from make_tables import Refusal
from manifest import Study, study_of
from place_temperatures import Unlawful, acceptances, even, told

MOMENTS = (("energy", ENERGY), ("q^2", SQUARE))


def in_errors(estimate: Estimate, slot: int, moment: int) -> float:
    value, error = estimate.value[slot, moment], estimate.error[slot, moment]
    return float(value / error) if error else float("nan")


def print_movers(what: str, of: Sequence[Tuple[str, List[Mover]]], samples: int, shorter: float) -> None:
    """The samples that are farthest between two parts, one of them so many times shorter, in errors of their own."""
    print(f"{what}, in errors of their own; of {samples} samples the farthest is by chance beyond "
          f"{greatest_expected(samples, shorter):.1f} in one study of two")
    for name, movers in of:
        print(f"  {name}: " + (", ".join(f"{mover.report} sample {mover.sample} ({mover.in_errors:+.1f})" for mover in movers)
                               or "the parts are too short"))


def equilibration(words: Words, options: argparse.Namespace) -> None:
    reports = words.of_each(parts_of)
    slots = words.named
    shown = [slots.slot(slot) for slot in options.slot]
    bins = steps_of(reports, slots.blocks)
    words.begin()
    for slot in shown:
        print(f"{slots.title(slot)}\n{'from':>9} {'to':>9}" + "".join(
            f" {what:>11} {'error':>9} {'step':>10} {'in errors':>9}" for what, _ in MOMENTS))
        for one in bins:
            line = f"{one.start:>9} {one.end:>9}"
            for _, moment in MOMENTS:
                line += f" {one.moments.value[slot, moment]:>11.6f} {one.moments.error[slot, moment]:>9.6f}"
                line += (f" {'-':>10} {'-':>9}" if one.step is None else
                         f" {one.step.value[slot, moment]:>+10.6f} {in_errors(one.step, slot, moment):>+9.2f}")
            print(line)
    worst = [(f"{slots.title(slot)}, {what}", last_movers(reports, slot, moment, options.worst))
             for slot in shown for what, moment in MOMENTS]
    print_movers("samples that move most from the last part but one to the last", worst, words.run.samples * len(reports), 2)
    slots.end(options, lambda: figures.equilibration(bins, [slots.title(slot) for slot in range(len(slots.names))], shown),
              slots.count(words.run.samples))


def check_starts(ordered: Study, random: Study) -> None:
    """Where manifests stand beside the reports: the plans are the same, pair by pair, and the starts are not."""
    for one, other in zip(ordered.manifests, random.manifests):
        if one.plan != other.plan:
            raise Refusal(f"{one.source} and {other.source} are of other plans: a pair differs in its start alone")
        if (one.keys["start"], other.keys["start"]) != ("up", "random"):
            raise Refusal(f"start is {one.keys['start']} in {one.source} and {other.keys['start']} in {other.source}: up and "
                          "random are wanted")


def bracket(words: Words, options: argparse.Namespace) -> None:
    """Runs from ordered spins beside runs of the same couplings from random ones."""
    if not options.random:
        raise Refusal("bracket wants reports of start = \"up\", and --random those of start = \"random\" with the same seeds")
    check_starts(words.study, study_of(tuple(options.random)))
    ordered = words.of_each(parts_of)
    random: List[Parts] = of_each_report(options.random, parts_of, options.skip)
    slots = words.named
    shown = [slots.slot(slot) for slot in options.slot]
    found = meetings(ordered, random, slots.blocks)
    words.begin()
    for slot in shown:
        print(f"{slots.title(slot)}\n{'from':>9} {'to':>9}" + "".join(
            f" {what + ' up':>11} {'random':>11} {'difference':>10} {'in errors':>9}" for what, _ in MOMENTS))
        for one in found:
            print(f"{one.start:>9} {one.end:>9}" + "".join(
                f" {one.ordered.value[slot, moment]:>11.6f} {one.random.value[slot, moment]:>11.6f} "
                f"{one.difference.value[slot, moment]:>+10.6f} {in_errors(one.difference, slot, moment):>+9.2f}"
                for _, moment in MOMENTS))
    worst = [(f"{slots.title(slot)}, {what}", farthest_apart(ordered, random, slot, moment, options.worst))
             for slot in shown for what, moment in MOMENTS]
    print_movers("samples that are farthest apart in the last part", worst, words.run.samples * len(ordered), 1)
    slots.end(options, lambda: figures.bracket(found, [slots.title(slot) for slot in range(len(slots.names))], shown),
              slots.count(words.run.samples))


class SlotTimes(NamedTuple):
    """Of one report: the walks' times, None with one slot; and by observable and slot the summed covariances and the
    number of samples that are settled."""
    walks: Optional[WalkTimes]
    covariances: Numbers
    settled: Numbers


def slot_times(records: Records) -> SlotTimes:
    series = ([records.energies[:, :, slot] for slot in range(records.slots)],
              [records.overlaps[:, :, slot, None].astype(float) ** 2 for slot in range(records.slots)])
    return SlotTimes(walk_times(records) if records.slots > 1 else None,
                     np.array([[covariances(one.astype(float)) for one in kind] for kind in series]),
                     np.array([[settled_samples(one) for one in kind] for kind in series]))


def times(words: Words, options: argparse.Namespace) -> None:
    found = words.of_each(slot_times)
    slots, run = words.named, words.run
    words.begin()
    walks = [one.walks for one in found if one.walks is not None]
    if walks:
        print_walk_times(options, run, walks)
    else:
        print("one temperature has no walk: a slow sample shows below alone, where its series is short of its own time")
    print("integrated times of all samples together, in epochs, and how many of the samples are each settled by themselves")
    print(f"slot {slots.head:>10}" + "".join(f" {what:>10} {'error':>9} {'settled':>9}" for what, _ in MOMENTS))
    every, samples = run.every or 1, run.samples * len(found)
    for slot, name in enumerate(slots.names):
        line = f"{slot:>4} {name:>10}"
        for kind, replicas in ((0, 2), (1, 1)):
            time = time_of(sum(one.covariances[kind, slot] for one in found), samples * replicas)
            settled = sum(int(one.settled[kind, slot]) for one in found)
            line += f" {every * time.value:>10.2f} {every * time.error:>9.2f} {f'{settled}/{samples}':>9}"
        print(line)


class Slow(NamedTuple):
    """A replica of a sample, and the times of its walks in epochs."""
    report: str
    sample: int
    replica: int
    integrated: float
    error: float
    exponential: float
    is_settled: bool

    @property
    def time(self) -> float:
        return self.integrated if np.isnan(self.exponential) else self.exponential


def slowest_first(names: Sequence[str], walks: Sequence[WalkTimes], every: int) -> List[Slow]:
    found = [Slow(report, sample, replica, *(float(every * values[sample, replica])
                                             for values in (one.integrated, one.error, one.exponential)),
                  bool(one.is_settled[sample, replica]))
             for report, one in zip(names, walks) for sample, replica in np.ndindex(one.integrated.shape)]
    return sorted(found, key=lambda slow: -slow.time)


def print_walk_times(options: argparse.Namespace, run: Outline, walks: Sequence[WalkTimes]) -> None:
    """The distribution over the samples, the slowest ones, and those whose run is too short."""
    every = run.every or 1
    length = run.records * every
    longest = np.concatenate([one.longest.max(axis=1) for one in walks]) * every
    print("walks in temperature: time of a sample, that of its slower replica, in epochs")
    print("    least      25 %    median      75 %      95 %  greatest")
    print(" ".join(f"{value:>9.4g}" for value in np.quantile(longest, (0, 0.25, 0.5, 0.75, 0.95, 1), method="lower")))
    found = slowest_first(options.reports, walks, every)
    print("the slowest\nsample replica integrated     error exponential run / time  report")
    for slow in found[:options.worst]:
        print(f"{slow.sample:>6} {slow.replica:>7} {slow.integrated:>10.1f} {slow.error:>9.1f} {slow.exponential:>11.1f} "
              f"{length / slow.time:>10.1f}{' ' if slow.is_settled else '+'} {slow.report}")
    short = [slow for slow in found if not slow.is_settled]
    if short:
        print(f"not settled (+): for {len({slow[:2] for slow in short})} of {len(longest)} samples the run is shorter than "
              f"{LENGTHS} times their time")
    else:
        print(f"settled: for each of {len(longest)} samples the run has {LENGTHS} times its time")
    if options.shorter:
        write_shorter(options.shorter, short, length)


def write_shorter(name: str, short: Sequence[Slow], length: int) -> None:
    """A line for each replica whose run is too short, with the epochs that it has and that it wants."""
    try:
        with open(name, "w", encoding="utf-8", errors="surrogateescape", newline="") as out:
            table = csv.writer(out, lineterminator="\n")
            table.writerow(["report", "sample", "replica", "epochs", "wanted"])
            table.writerows([slow.report, slow.sample, slow.replica, length, f"{LENGTHS * slow.time:.3g}"] for slow in short)
    except OSError as fault:
        raise Refusal(f"{name} can't be written: {fault.strerror}") from None
    print(f"wrote {name}")


class Walked(NamedTuple):
    """Of one report: acceptance by sample and pair, round trips by label, counts of `downward_counts`, energies by slot."""
    rates: Optional[Numbers]
    trips: Numbers
    counts: Numbers
    energies: Numbers
    drawn: Records


def walked(records: Records) -> Walked:
    return Walked(acceptances_by_sample(records), round_trips(records).sum(axis=(0, 2)),
                  downward_counts(records).sum(axis=0) if records.slots > 1 else np.zeros((1, 2)),
                  moments(records)[..., ENERGY].mean(axis=0),
                  # A copy, so that the report's arrays aren't held.
                  copy.deepcopy(records.part_of_sample(0)))


def walks(words: Words, options: argparse.Namespace) -> None:
    found = words.of_each(walked)
    slots, run = words.named, words.run
    words.begin()
    rates, count = [one.rates for one in found if one.rates is not None], None
    if rates:
        parts = blocks(rates, slots.blocks)
        count, acceptance = len(parts), jackknife(parts)
        print("pair acceptance     error")
        for pair, (value, error) in enumerate(zip(acceptance.value, acceptance.error)):
            print(f"{pair:>4} {value:>10.4f} {error:>9.4f}")
    else:
        print("acceptance is counted only where each epoch is recorded and there are two slots at least")
    print(f"label  round trips of {2 * run.samples * len(found)} configurations")
    for label, trips in enumerate(sum(one.trips for one in found)):
        print(f"{label:>5} {trips:>12}")
    if run.every != 1:
        print("warning: not each epoch is recorded, and visits of the ends between records aren't seen:\n"
              "         the round trips are too few")
    if options.feedback:
        print_feedback(words, found)
    slots.end(options, lambda: figures.walk(found[0].drawn), count)


def print_feedback(words: Words, found: Sequence[Walked]) -> None:
    """Temperatures from the measured walks, and those of even acceptance from the measured energies."""
    betas = words.named.known_betas()
    if min(betas) <= 0 or len(betas) < 3:
        raise Refusal("feedback wants three temperatures at least, none of them infinite")
    temperatures = [1 / beta for beta in betas]
    share = downward_share(sum(one.counts for one in found))
    energies = np.mean([one.energies for one in found], axis=0)
    print("slot   share that comes from the hottest slot")
    for slot, part in enumerate(share):
        print(f"{slot:>4} {part:>10.4f}")
    try:
        table = tuple(zip(temperatures, energies))
        placed = even(table, temperatures[0], temperatures[-1], len(temperatures))
    except (Unlawful, ValueError):
        raise Refusal("the measured energies don't rise from slot to slot") from None
    for what, chosen in (("optimised by feedback", feedback_temperatures(temperatures, share)), ("of even acceptance", placed)):
        print(f"temperatures {what}: " + " ".join(f"{value:.6g}" for value in chosen))
        print("  " + told(acceptances(table, chosen, words.run.sites)))
