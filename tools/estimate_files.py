"""Lengths of what `glass lines` prints, and arrays for other programs."""
from __future__ import annotations

import argparse
from typing import Dict

from estimate_words import Slots, Words
from glass_analysis import (Estimate, Records, axis_correlations, blocks, coherence_length, figures, jackknife, link_overlap,
                            read_lines)
from glass_analysis.export import Hdf5File, write_csv, write_npz
from long_run_folder import Value
from make_tables import Refusal
from manifest import read_manifest
from run_temperatures import check_run


def lengths(options: argparse.Namespace) -> None:
    states = read_lines(options.reports)
    slots, first = Slots(options, states[0].slots), states[0]
    if options.run:
        check_run(options.run, first.name, size=first.size, samples=first.samples)
    parts = blocks([axis_correlations(state) for state in states], slots.blocks)
    link, correlation = jackknife(parts, link_overlap), jackknife(parts)
    title = first.name if slots.files == 1 else f"{slots.files} files"
    print(f"{title}: size {first.size}, slots {first.slots}, samples {first.samples}, epoch {first.epoch}")
    print(f"slot {slots.head:>10} {'link':>11} {'error':>9} {'xi_12':>9} {'error':>9} {'cut':>4}"
          f" {'tail':>8} {'nearer':>8}")
    for slot, name in enumerate(slots.names):
        line = f"{slot:>4} {name:>10} {link.value[slot]:>11.6f} {link.error[slot]:>9.6f}"
        found = coherence_length(parts[:, slot], first.size)
        if found.length is None:
            print(f"{line}  no length: {found.refusal}")
        else:
            print(f"{line} {found.length.value:>9.4f} {found.length.error:>9.4f} {found.cut:>4}"
                  f" {found.tail:>+8.4f} {found.nearer:>+8.4f}")
    print("xi_12 = I_2 / I_1, I_k the sum of r^k C(r) up to the cut and of the fitted shape beyond it, which adds the tail;\n"
          "nearer: the change with a cut one step nearer")
    slots.end(options, lambda: figures.correlations([slots.title(slot) for slot in range(len(slots.names))],
                                                    Estimate(correlation.value, correlation.error)), len(parts))


def attributes_of(name: str) -> Dict[str, Value]:
    """What the manifest beside a report tells: digests of the plan, the report, tables and couplings, and the run's keys."""
    manifest = read_manifest(name)
    if manifest is None:
        return {}
    digests = {f"{key}_sha256": digest for key, digest in manifest.digests.items()}
    return {**manifest.keys, **digests, "plan": manifest.plan, "report_sha256": manifest.report, "programs": manifest.programs}


def export(words: Words, options: argparse.Namespace) -> None:
    if not (options.npz or options.csv or options.hdf5):
        raise Refusal("export wants --npz, --csv or --hdf5")
    if len(options.reports) > 1 and (options.npz or options.csv):
        raise Refusal("--npz and --csv take one report; --hdf5 takes several")
    file = Hdf5File(options.hdf5) if options.hdf5 else None

    def taken(records: Records) -> None:
        for name, write in ((options.npz, write_npz), (options.csv, write_csv)):
            if name:
                write(name, records)
                print(f"wrote {name}")
        if file:
            file.add(records, attributes_of(records.name))

    try:
        words.of_each(taken)
    except Refusal:
        if file:
            file.drop()
        raise
    if file:
        file.close()
        print(f"wrote {options.hdf5}: {file.count} {'reports' if file.count > 1 else 'report'}")
