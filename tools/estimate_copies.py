"""Figures of four copies of equal couplings: of what `glass cross` prints, and of pairs of measured runs."""
from __future__ import annotations

import argparse
import csv
from typing import Dict, List, NamedTuple, Optional, Sequence, Tuple

import numpy as np

from estimate_sums import betas_of, end, only_size, runs_by_size, titles
from glass_analysis import figures
from glass_analysis.copies import OF_COPIES, OF_TWINS, CopyFunction, CopyMeans, read_copies, study_of_copies, study_of_twins
from glass_analysis.errors import Numbers
from glass_analysis.sums import Told, told_of
from make_tables import Refusal
from manifest import read_manifest
from measured_text import Measured, read_measured
from run_temperatures import check_run, run_betas

NOTE_OF_ERRORS = "error: over the pairs of runs; samples: over the samples of all, which lacks what those of a run have in common"
BELOW_ALIKE = 0.2


class Table(NamedTuple):
    """Figures by name, of slots whose names are told."""
    names: List[str]
    betas: Optional[List[float]]
    told: Dict[str, Told]

    def show(self, groups: Sequence[Tuple[str, ...]]) -> None:
        for shown in groups:
            print(f"slot {'T' if self.betas else '':>10}" + "".join(f" {name:>11} {'error':>9} {'samples':>9}" for name in shown))
            for slot, name in enumerate(self.names):
                print(f"{slot:>4} {name:>10}" + "".join(
                    f" {self.told[what].over_seeds.value[slot]:>11.6f} {self.told[what].over_seeds.error[slot]:>9.6f} "
                    f"{self.told[what].over_samples[slot]:>9.6f}" for what in shown))

    def write(self, path: str) -> None:
        """A line for each slot and figure."""
        try:
            with open(path, "w", encoding="ascii", newline="") as out:
                table = csv.writer(out, lineterminator="\n")
                table.writerow(["slot", "temperature", "figure", "value", "error", "error over samples"])
                for what, found in self.told.items():
                    table.writerows([slot, name, what, *(f"{number:.9g}" for number in numbers)] for slot, (name, *numbers) in enumerate(
                        zip(self.names, found.over_seeds.value, found.over_seeds.error, found.over_samples)))
        except OSError as fault:
            raise Refusal(f"{path} can't be written: {fault.strerror}") from None
        print(f"wrote {path}")


def told_by(parts: Numbers, size: int, of: Dict[str, CopyFunction]) -> Dict[str, Told]:
    return {name: told_of(parts, lambda values, own=own: own(CopyMeans(values, size))) for name, own in of.items()}


def finish(table: Table, blocks: int, drawn: Sequence[str], options: argparse.Namespace) -> None:
    print(NOTE_OF_ERRORS)
    if options.csv:
        table.write(options.csv)
    hot = table.betas is not None and all(table.betas)
    across = [1 / beta for beta in table.betas] if hot and table.betas else [float(slot) for slot in range(len(table.names))]
    end(blocks, options.plot, figures.means(across, "temperature" if hot else "slot", [(name, table.told[name].over_seeds) for name in drawn])
        if options.plot else None)


def cross(options: argparse.Namespace) -> None:
    """U111, U1111 and U22 of four copies, and the figures of one pair, as means over the six."""
    texts = read_copies(options.reports)
    study, heading = study_of_copies(texts), texts[0].heading
    betas = None
    if options.run:
        check_run(options.run, texts[0].name, size=heading.size, samples=heading.samples, rule=heading.rule)
        betas = run_betas(options.run)
        if len(betas) != heading.slots:
            raise Refusal(f"{options.run} has {len(betas)} temperatures, and {texts[0].name} {heading.slots} slots")
    blocks = len(study.parts)
    what = texts[0].name if len(texts) == 1 else f"{len(texts)} texts of {blocks} pairs of runs" if blocks > 1 else f"{len(texts)} texts"
    epochs = sorted({epoch for text in texts for epoch in text.heading.epochs})
    told = f"epoch {epochs[0]}" if len(epochs) == 1 else f"epochs {epochs[0]} to {epochs[-1]}"
    print(f"{what}: size {heading.size}, {heading.rule}, slots {heading.slots}, samples {heading.samples}, {told}")
    table = Table(titles(betas, heading.slots), betas, told_by(study.parts, study.size, OF_COPIES))
    table.show((("U4", "U22", "U111", "U1111"), ("chi", "xi/L", "R12"), ("link", "var link", "of samples")))
    finish(table, blocks, ("U4", "U22", "U111", "U1111", "xi/L"), options)


def check_couplings(firsts: Sequence[Measured], seconds: Sequence[Measured]) -> None:
    """Where manifests stand beside both texts of a pair and name couplings files, these are one."""
    for one, other in zip(firsts, seconds):
        manifests = [read_manifest(text.name) for text in (one, other)]
        digests = [manifest.digests.get("couplings") if manifest else None for manifest in manifests]
        if all(digests) and digests[0] != digests[1]:
            raise Refusal(f"{one.name} and {other.name} are of other couplings: a pair has the same")


def squares(options: argparse.Namespace) -> None:
    """Squares of means without bias, of two measured runs of equal couplings, pair by pair."""
    if not options.second:
        raise Refusal("squares wants texts, and --second those of the same couplings and other seeds, in the order of the others")
    firsts, _ = only_size(options)
    seconds = [read_measured(name) for name in options.second]
    check_couplings(firsts, seconds)
    betas, heading = betas_of(runs_by_size(options.run), firsts), firsts[0].heading
    study = study_of_twins(firsts, seconds, options.from_bin, 31 if options.to_bin is None else options.to_bin)
    print(f"{len(firsts)} pairs of texts: size {heading.size}, {heading.rule}, slots {heading.slots}, samples {heading.samples}, epochs "
          f"{heading.first} to {heading.to}")
    table = Table(titles(betas, heading.slots), betas, told_by(study.parts, study.size, OF_TWINS))
    table.show((("chi", "U4", "U22"), ("link", "var link", "of samples"), ("energy", "V var e")))
    print("of samples: the variance of the samples' mean link overlap; V var e: that of their mean energies per site, times the sites")
    most = float(np.nanmax(study.alike)) if np.isfinite(study.alike).any() else float("nan")
    print(f"the energies of both runs are correlated over the samples by {most:.2f}" + (
        "" if not most < BELOW_ALIKE else ": warning: so little is that of other couplings, or of runs that are too short"))
    finish(table, len(study.parts), ("chi", "U4", "U22", "link", "energy"), options)
