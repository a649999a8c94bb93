"""Figures of sums over runs (docs/specification/measure.md): by slot, bin by bin, and of several sizes together."""
from __future__ import annotations

import argparse
from typing import Dict, List, Optional, Sequence, Tuple

import numpy as np

from estimate_words import NOTE
from glass_analysis import figures
from glass_analysis.errors import Estimate, Interval, Numbers, uncertainty
from glass_analysis.scaling import COLLAPSE_DEGREE, CROSSING_DEGREE, Curve, collapse_of, crossing_of
from glass_analysis.sums import (FIGURES, Function, Means, Study, by_bins, figure, heat, length_over_side, overlap_density, r_12,
                                 read_texts, study_of_texts, u_4)
from make_tables import Refusal
from manifest import study_of
from measured_text import CLASSES, Measured
from report_errors import few_blocks
from run_temperatures import check_run, keys_of, run_betas, temperature_names

# Figures that cross, and whether they rise with order.
CROSSING = {"xi/L": (length_over_side, True), "R12": (r_12, True), "U4": (u_4, False)}


def runs_by_size(names: Sequence[str]) -> Dict[int, str]:
    """A run file for each size."""
    found: Dict[int, str] = {}
    for name in names:
        size = int(keys_of(name)["size"])
        if size in found:
            raise Refusal(f"{name} and {found[size]} are both of size {size}: one run file for each size is wanted")
        found[size] = name
    return found


def betas_of(runs: Dict[int, str], texts: Sequence[Measured]) -> Optional[List[float]]:
    """The inverse temperatures of a size, None where no run file is named."""
    heading = texts[0].heading
    if not runs:
        return None
    if heading.size not in runs:
        raise Refusal(f"no run file is of size {heading.size}, as {texts[0].name} is")
    check_run(runs[heading.size], texts[0].name, size=heading.size, samples=heading.samples, rule=heading.rule, every=heading.every)
    betas = run_betas(runs[heading.size])
    if len(betas) != heading.slots:
        raise Refusal(f"{runs[heading.size]} has {len(betas)} temperatures, and {texts[0].name} {heading.slots} slots")
    return betas


def by_size_of(names: Sequence[str]) -> Dict[int, List[Measured]]:
    """Texts by size; the manifests beside those of one size may not tell that they are of other tables, sweeps, starts or couplings."""
    by_size = read_texts(names)
    for texts in by_size.values():
        study_of(tuple(text.name for text in texts))
    return by_size


def only_size(options: argparse.Namespace) -> Tuple[List[Measured], Optional[List[float]]]:
    by_size = by_size_of(options.reports)
    if len(by_size) > 1:
        raise Refusal("the texts are of several sizes: scaling takes them together")
    texts = next(iter(by_size.values()))
    return texts, betas_of(runs_by_size(options.run), texts)


def begin(texts: Sequence[Measured]) -> None:
    heading = texts[0].heading
    what = texts[0].name if len(texts) == 1 else f"{len(texts)} texts"
    print(f"{what}: size {heading.size}, {heading.rule}, slots {heading.slots}, samples {heading.samples}, epochs {heading.first} to "
          f"{heading.to}, bins {', '.join(map(str, texts[0].bins))}")


def end(texts: int, plot: Optional[str], drawn: object) -> None:
    if texts > 1:
        print(few_blocks(texts) or f"errors are over {texts} blocks, and are themselves uncertain by {uncertainty(texts):.0%}")
    else:
        print(NOTE.replace("reports", "texts"))
    if plot:
        figures.save(plot, drawn)  # type: ignore[arg-type]
        print(f"wrote {plot}")


def titles(betas: Optional[Sequence[float]], slots: int) -> List[str]:
    return temperature_names(betas) if betas else [""] * slots


def sums(options: argparse.Namespace) -> None:
    """Each figure by slot, with its error over the seeds and that over the samples of all seeds."""
    texts, betas = only_size(options)
    study = study_of_texts(texts, options.from_bin, options.to_bin)
    wanted: Dict[str, Function] = dict(FIGURES)
    if betas:
        wanted["c"] = lambda means: heat(means, betas or [])
    begin(texts)
    names = titles(betas, texts[0].heading.slots)
    told = {name: figure(study, of) for name, of in wanted.items()}
    for some in (("energy", "c", "link", "var link"), ("chi", "xi/L", "R12"), ("U4", "dU4/dbeta")):
        shown = [name for name in some if name in told]
        print(f"slot {'T' if betas else '':>10}" + "".join(f" {name:>11} {'error':>9} {'samples':>9}" for name in shown))
        for slot, name in enumerate(names):
            print(f"{slot:>4} {name:>10}" + "".join(
                f" {told[what].over_seeds.value[slot]:>11.6f} {told[what].over_seeds.error[slot]:>9.6f} "
                f"{told[what].over_samples[slot]:>9.6f}" for what in shown))
    print("error: over the seeds; samples: over the samples of all seeds, which lacks what those of a run have in common")
    if options.slot:
        print_densities(study, names, options.slot)
    across, axis = ([1 / beta for beta in betas], "temperature") if betas and all(betas) else (list(range(len(names))), "slot")
    drawn = [(name, told[name].over_seeds) for name in ("energy", "chi", "xi/L", "R12", "U4")]
    end(len(texts), options.plot, figures.means([float(value) for value in across], axis, drawn) if options.plot else None)


def print_densities(study: Study, names: Sequence[str], slots: Sequence[int]) -> None:
    """P(q) by class of |q|, made symmetric."""
    found = figure(study, overlap_density)
    for slot in slots:
        if not 0 <= slot < len(names):
            raise Refusal(f"there is no slot {slot}")
        print(f"P(q) of slot {slot}\nclass   |q| from        to      P(q)     error   samples")
        for number in range(CLASSES):
            print(f"{number:>5} {number / CLASSES:>10.5f} {(number + 1) / CLASSES:>9.5f} {found.over_seeds.value[slot, number]:>9.6f} "
                  f"{found.over_seeds.error[slot, number]:>9.6f} {found.over_samples[slot, number]:>9.6f}")


def bins(options: argparse.Namespace) -> None:
    """Figures bin by bin, and the step to the next bin in errors of its own: whether a run is equilibrated."""
    texts, betas = only_size(options)
    names = titles(betas, texts[0].heading.slots)
    begin(texts)
    shown = ("energy", "chi", "xi/L", "R12", "U4", "link")
    found = {what: by_bins(texts, FIGURES[what]) for what in shown}
    for slot in options.slot or [0]:
        if not 0 <= slot < len(names):
            raise Refusal(f"there is no slot {slot}")
        print((f"T = {names[slot]}" if betas else f"slot {slot}") + "\n bin   epochs"
              + "".join(f" {what:>11} {'error':>9} {'in errors':>9}" for what in shown))
        for place, one in enumerate(found[shown[0]]):
            line = f"{one.number:>4} {2 ** one.number >> 1:>8}"
            for what in shown:
                value, step = found[what][place].value, found[what][place].step
                away = f"{step.value[slot] / step.error[slot]:>+9.2f}" if step is not None and step.error[slot] > 0 else f"{'-':>9}"
                line += f" {value.value[slot]:>11.6f} {value.error[slot]:>9.6f} {away}"
            print(line)
    end(len(texts), options.plot, figures.bins(found, options.slot or [0], names) if options.plot else None)


def told(found: Interval) -> str:
    where = "nowhere" if np.isnan(found.value) else f"at T = {found.value:.4f}"
    share = f"; {1 - found.missing:.1%} of the resamples do" if found.missing else ""
    return f"{where}{share}, between {found.low:.4f} and {found.high:.4f}"


def scaling(options: argparse.Namespace) -> None:
    """Dimensionless figures of several sizes: where their curves cross, and how they collapse."""
    by_size, runs = by_size_of(options.reports), runs_by_size(options.run)
    if options.collapse and min(options.collapse) <= 0:
        raise Refusal("--collapse wants T_c and nu to begin with, both above 0")
    if len(by_size) < 2:
        raise Refusal("scaling wants texts of two sizes at least")
    studies = {size: study_of_texts(texts, options.from_bin, options.to_bin) for size, texts in by_size.items()}
    betas = {size: betas_of(runs, texts) or [0.0] for size, texts in by_size.items()}
    if not all(map(all, betas.values())):
        raise Refusal("scaling wants --run, with a run file for each size, and no infinite temperature")
    temperatures = {size: 1 / np.array(own) for size, own in betas.items()}
    first = temperatures[min(temperatures)]
    if any(len(own) != len(first) or not np.allclose(own, first, rtol=1e-6) for own in temperatures.values()):
        raise Refusal("the sizes have other temperatures: curves are compared at one list of them")
    blocks = {size: study.seeds() if len(study.parts) > 1 else study.samples() for size, study in studies.items()}
    print("sizes " + ", ".join(f"{size}: {len(study.parts)} seeds of {study.parts.shape[1]} samples" for size, study in studies.items()))
    drawn: Dict[str, Dict[int, Estimate]] = {}
    for name, (of, rises) in CROSSING.items():
        curves = {size: curve(of, size) for size in studies}
        print(f"{'T':>10}" + "".join(f" {name + ' ' + str(size):>11} {'error':>9}" for size in studies))
        values = {size: figure(study, of).over_seeds for size, study in studies.items()}
        drawn[name] = values
        for place, temperature in enumerate(first):
            print(f"{temperature:>10.6g}" + "".join(f" {one.value[place]:>11.6f} {one.error[place]:>9.6f}" for one in values.values()))
        sizes = list(studies)
        for n, small in enumerate(sizes):
            for large in sizes[n + 1:]:
                found = crossing_of(first, [blocks[small], blocks[large]], [curves[small], curves[large]], rises)
                print(f"{name} of sizes {small} and {large} cross {told(found)}")
        if options.collapse:
            print_collapse(name, first, blocks, curves, options.collapse)
    print(f"crossings: of the difference of two curves as a polynomial of degree {CROSSING_DEGREE}; intervals of 68 % by a bootstrap "
          "over the blocks")
    fewest = min(len(one) for one in blocks.values())
    print(few_blocks(fewest) or f"the fewest blocks of a size are {fewest}")
    if options.plot:
        figures.save(options.plot, figures.scaling(first, drawn))
        print(f"wrote {options.plot}")


def curve(of: Function, size: int) -> Curve:
    return lambda values: of(Means(values, size))


def print_collapse(name: str, temperatures: Numbers, blocks: Dict[int, Numbers], curves: Dict[int, Curve],
                   begin_at: Sequence[float]) -> None:
    found = collapse_of(temperatures, blocks, curves, (begin_at[0], 1 / begin_at[1]))
    print(f"{name} collapses with T_c = {found.transition.value:.4f}, between {found.transition.low:.4f} and {found.transition.high:.4f}, "
          f"and nu = {found.nu.value:.3f}, between {found.nu.low:.3f} and {found.nu.high:.3f}")
    print(f"  by f((T - T_c) L^(1/nu)), f a polynomial of degree {COLLAPSE_DEGREE}, without corrections to scaling; chi-square "
          f"{found.square:.1f} with {found.degrees} degrees of freedom, of values that are not independent")
