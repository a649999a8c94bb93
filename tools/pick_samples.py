"""The couplings of chosen samples of several runs, for a run of their own.

A list is comma-separated text with the columns `report` and `sample`, as `estimate.py times --shorter` writes it. The
manifest beside each report (tools/manifest.py) tells what its couplings are.
"""
from __future__ import annotations

import csv
from pathlib import Path
from typing import Dict, List, Tuple

from couplings import LONGEST, couplings_of, program_sample, read_bytes
from make_tables import Refusal
from manifest import FILE, Manifest, read_manifest


def chosen(name: str) -> List[Tuple[str, int]]:
    """Report and sample of each line, each pair once, in the order of the list."""
    try:
        with open(name, encoding="utf-8", errors="surrogateescape", newline="") as stream:
            pairs = [(row["report"], int(row["sample"])) for row in csv.DictReader(stream)]
    except OSError as fault:
        raise Refusal(f"{name} can't be read: {fault.strerror}") from None
    except (KeyError, TypeError, ValueError, csv.Error):
        raise Refusal(f"{name} is no list with the columns report and sample") from None
    if not pairs:
        raise Refusal(f"{name} names no sample")
    return list(dict.fromkeys(pairs))


def couplings_of_sample(report: str, manifest: Manifest, sample: int) -> bytes:
    size, samples = int(manifest.keys["size"]), int(manifest.keys["samples"])
    if not 0 <= sample < samples:
        raise Refusal(f"{report} has no sample {sample}")
    kind = manifest.couplings_kind()
    if kind == "plus":
        raise Refusal(f"{report} is of a ferromagnet, whose samples are all alike")
    if kind == "random":
        return program_sample(size, int(manifest.keys["seed"]), sample)
    path = Path(report).parent / str(manifest.keys["couplings"])[len(FILE):]
    stored = read_bytes(path, LONGEST)
    _, found = couplings_of(str(path), stored)
    return found[sample]


def picked(name: str) -> Tuple[int, List[bytes]]:
    """The size, and the couplings of each sample of a list."""
    manifests: Dict[str, Manifest] = {}
    found = []
    for report, sample in chosen(name):
        if report not in manifests:
            manifest = read_manifest(report)
            if manifest is None:
                raise Refusal(f"{report} has no manifest: make it by glass-manifest RUN {report}")
            manifests[report] = manifest
        found.append(couplings_of_sample(report, manifests[report], sample))
    sizes = sorted({int(manifest.keys["size"]) for manifest in manifests.values()})
    if len(sizes) > 1:
        raise Refusal(f"{name} has samples of the sizes {sizes[0]} and {sizes[1]}")
    return sizes[0], found
