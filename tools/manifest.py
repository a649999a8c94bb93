#!/usr/bin/env python3
"""Writes beside a report of `glass run`, or sums of `glass measure`, what it was made of: REPORT.toml, its manifest.

    glass run run.toml > report.txt
    python3 tools/manifest.py run.toml report.txt       writes report.txt.toml

It has the SHA-256 of the report, the digest of the plan as `glass check` prints it, the SHA-256 of the program, the
keys of the run file, and the SHA-256 of both tables and of the couplings file. tools/long_run.py writes it beside each
report that it joins.

A report alone tells neither its temperatures nor its sweeps, start and couplings. Tools that take several reports read
the manifests where they stand. They refuse reports of other tables or sweeps, of another rule, start or kind of
couplings, and reports of one seed. Reports of one couplings file have their disorder in common, so they are one block.

status  0 written · 2 the words, or a report that isn't of this run · 3 to 8 and 127 those of `glass check`, with its line
"""
from __future__ import annotations

import argparse
import functools
import json
import os
import re
import sys
from fractions import Fraction
from pathlib import Path
from typing import Dict, List, NamedTuple, Optional, Sequence, Tuple

sys.dont_write_bytecode = True
from exit_status import status_of  # noqa: E402
from glass_program import Plan, find_program, plan_of  # noqa: E402
from long_run_folder import KEYS, Fault, Value, digest_of, in_work, plain_keys, read_keys, read_text, sync, tomllib  # noqa: E402
from make_tables import OneLineParser, Refusal  # noqa: E402
from run_temperatures import check_run, rule_table, run_betas, temperature_names  # noqa: E402

KIND = "glass manifest 1"
TABLES = ("rules", "swaps")
# What reports that are averaged have in common, beside their tables and the kind of their couplings.
COMMON = ("size", "rule", "sweeps", "samples", "start")
FILE = "file:"
# Of a report, and of sums over a run, which tell the plan.
HEADER = re.compile(rb"(?:glass|measure) 1 size=([0-9]+) slots=([0-9]+) samples=([0-9]+) rule=([a-z]+)(?: every=[0-9]+)? from=[0-9]+ "
                    rb"to=[0-9]+(?: digest=([0-9a-f]{64}))?\n")
DIGEST = re.compile("[0-9a-f]{64}")


class Manifest(NamedTuple):
    """What a report was made of. `source` is the file that says so; `digests` has the SHA-256 of each table and of the
    couplings file, by the key that names it; plan, report and programs are "" where they aren't known."""
    source: str
    keys: Dict[str, Value]
    digests: Dict[str, str]
    plan: str = ""
    report: str = ""
    programs: str = ""

    def couplings_kind(self) -> str:
        named = str(self.keys["couplings"])
        return "file" if named.startswith(FILE) else named


class Study(NamedTuple):
    """Reports that may be averaged. `blocks` has of each the number of its couplings file, from 0 on; it is None where
    each report is a block of its own."""
    manifests: List[Manifest]
    blocks: Optional[List[int]]


# ---------------------------------------------------------------- files


def file_of(report: object) -> Path:
    return Path(f"{report}.toml")


def digests_of(folder: Path, named: Dict[str, str]) -> Dict[str, str]:
    """The SHA-256 of files in a folder, by the keys that name them."""
    digests = {key: digest_of(folder / name) for key, name in named.items()}
    for key, digest in digests.items():
        if digest is None:
            raise Refusal(f"{folder / named[key]} can't be read")
    return digests  # type: ignore[return-value]


def of_run_file(run_file: Path, plan: str = "", report: str = "", programs: str = "") -> Manifest:
    """The keys of a run file, and the digests of what it names, which lies in its folder."""
    keys = read_keys(run_file)
    named = {key: str(keys[key]) for key in TABLES}
    if str(keys["couplings"]).startswith(FILE):
        named["couplings"] = str(keys["couplings"])[len(FILE):]
    return Manifest(str(run_file), keys, digests_of(run_file.parent, named), plan, report, programs)


def spelled(value: Value) -> str:
    """As TOML has it, whose escapes are those of JSON, and one more."""
    return json.dumps(value, ensure_ascii=False).replace("\x7f", "\\u007f")


def text_of(manifest: Manifest) -> str:
    head = {"kind": KIND, "report": manifest.report, "plan": manifest.plan, "programs": manifest.programs}
    parts = ((None, head), ("run", manifest.keys), ("digests", manifest.digests))
    return "\n".join((f"[{name}]\n" if name else "") + "".join(f"{key} = {spelled(value)}\n" for key, value in part.items())
                     for name, part in parts)


def parts_of(name: str, text: str) -> Tuple[Dict[str, Value], Dict[str, Value], Dict[str, Value]]:
    """The head, the run's keys and the digests; by Python's own reader where there is one."""
    try:
        if tomllib is not None:
            head = tomllib.loads(text)
            return head, head.pop("run"), head.pop("digests")
        head_text, rest = text.split("[run]\n")
        return tuple(plain_keys(name, part) for part in (head_text, *rest.split("[digests]\n")))  # type: ignore[return-value]
    except (ValueError, KeyError, Fault):
        raise Refusal(f"{name} is no manifest of a report") from None


def read_manifest(report: str) -> Optional[Manifest]:
    """That of a report; None where none stands beside it. It must be of these very bytes."""
    path = file_of(report)
    if report == "-" or not path.exists():
        return None
    try:
        head, keys, digests = parts_of(str(path), read_text(path))
    except Fault as fault:
        raise Refusal(str(fault)) from None
    words = [head.get(key) for key in ("plan", "report")] + list(digests.values())
    if (head.get("kind") != KIND or not set(KEYS) <= set(keys) or not set(TABLES) <= set(digests)
            or not all(isinstance(word, str) and DIGEST.fullmatch(word) for word in words)):
        raise Refusal(f"{path} is no manifest of a report")
    if digest_of(Path(report)) != head["report"]:
        raise Refusal(f"{path} is of another report than {report}")
    return Manifest(str(path), keys, digests, head["plan"], head["report"], str(head.get("programs", "")))  # type: ignore[arg-type]


def write_manifest(report: Path, manifest: Manifest) -> Path:
    """Whole or as before."""
    path = file_of(report)
    # The driver of long runs clears what bears such a name.
    new = path.with_name(f"{report.name}.{in_work(0)}")
    try:
        new.write_text(text_of(manifest), encoding="utf-8")
        sync(new)
        os.replace(new, path)
    except OSError as fault:
        raise Refusal(f"{path} can't be written: {fault.strerror}") from None
    finally:
        new.unlink(missing_ok=True)
    return path


# ---------------------------------------------------------------- of a run file


def check_header(report: str, plan: Plan, rule: Value, run_file: Path) -> None:
    """The report's first line is one of this run."""
    try:
        with open(report, "rb") as stream:
            found = HEADER.fullmatch(stream.readline(256))
    except OSError as fault:
        raise Refusal(f"{report} can't be read: {fault.strerror}") from None
    wanted = (plan.size, plan.slots, plan.samples, str(rule))
    if found is None or (int(found[1]), int(found[2]), int(found[3]), found[4].decode()) != wanted:
        raise Refusal(f"{report} is no report of {run_file}: its first line is another")
    if found[5] and found[5].decode() != plan.digest:
        raise Refusal(f"{report} is of another plan than {run_file}")


def of_report(run_file: Path, report: str, program: str) -> Manifest:
    """That of a report, by its run file and what `glass check` says of it."""
    plan = plan_of(program, run_file)
    manifest = of_run_file(run_file, plan.digest, digest_of(Path(report)) or "", digest_of(Path(program)) or "")
    check_header(report, plan, manifest.keys["rule"], run_file)
    return manifest


# ---------------------------------------------------------------- which reports may be averaged


def check_same(first: Manifest, other: Manifest) -> None:
    """Refuses what makes other mean values."""
    for key in COMMON:
        if first.keys[key] != other.keys[key]:
            raise Refusal(f"{key} is {other.keys[key]} in {other.source}, and {first.keys[key]} in {first.source}")
    for key in TABLES:
        if first.digests[key] != other.digests[key]:
            raise Refusal(f"{key} of {other.source} is another table than that of {first.source}")
    kinds = first.couplings_kind(), other.couplings_kind()
    if kinds[0] != kinds[1]:
        raise Refusal(f"couplings are of the kind {kinds[1]} in {other.source}, and {kinds[0]} in {first.source}")


def check_seeds(manifests: Sequence[Manifest]) -> None:
    """Runs of one seed share their random numbers, whatever their couplings are."""
    seen: Dict[Value, Manifest] = {}
    for manifest in manifests:
        other = seen.setdefault(manifest.keys["seed"], manifest)
        if other is not manifest:
            raise Refusal(f"seed is {manifest.keys['seed']} in {manifest.source} and in {other.source}: "
                          "reports must differ in their seeds")


def blocks_of(manifests: Sequence[Manifest]) -> Optional[List[int]]:
    """The number of each report's couplings file; None where no file names the couplings."""
    if manifests[0].couplings_kind() != "file":
        return None
    numbers: Dict[str, int] = {}
    return [numbers.setdefault(manifest.digests["couplings"], len(numbers)) for manifest in manifests]


@functools.lru_cache(maxsize=4)
def study_of(names: Tuple[str, ...], run_files: Tuple[str, ...] = ()) -> Study:
    """Of several reports: refuses what may not be averaged, and tells which are one block.

    Reports without a manifest are taken as they are where none has one. `run_files` are those of reports without: one
    for all of them, which then differ in their seeds alone, or one for each report.
    """
    found = [read_manifest(name) for name in names]
    if run_files:
        found = with_run_files(names, found, run_files)
    if not any(found):
        return Study([], None)
    for name, manifest in zip(names, found):
        if manifest is None:
            raise Refusal(f"{name} has no manifest, and others have: make it by glass-manifest RUN {name}")
    manifests = [manifest for manifest in found if manifest is not None]
    for manifest in manifests[1:]:
        check_same(manifests[0], manifest)
    if len(run_files) != 1:
        check_seeds(manifests)
    return Study(manifests, blocks_of(manifests) if len(manifests) > 1 else None)


def with_run_files(names: Sequence[str], found: Sequence[Optional[Manifest]], run_files: Sequence[str]) -> List[Optional[Manifest]]:
    if len(run_files) not in (1, len(names)):
        raise Refusal(f"{len(run_files)} run files for {len(names)} reports: one for all, or one for each is wanted")
    files = list(run_files) * (len(names) if len(run_files) == 1 else 1)
    try:
        program = find_program(None)
        return [manifest or of_report(Path(file), name, program) for name, manifest, file in zip(names, found, files)]
    except Fault as fault:
        raise Refusal(str(fault)) from None


# ---------------------------------------------------------------- temperatures of slots


class Slots(NamedTuple):
    """What the slots of files are called: the head of their column and a name each; `betas` are the inverse temperatures,
    where they are known."""
    head: str
    names: List[str]
    betas: Optional[List[float]]


def add_run(group: argparse._ActionsContainer) -> None:
    group.add_argument("--run", nargs="+", default=[], metavar="FILE",
                       help="run files, whose rule table tells the temperatures. Of reports without a manifest it tells what they "
                            "were made of: one for all that differ in their seeds alone, or one for each")


def check_table(run_file: str, study: Study) -> None:
    """Refuses temperatures of another rule table than that of the reports, where a manifest tells it."""
    for manifest in study.manifests[:1]:
        if digest_of(rule_table(run_file)) != manifest.digests["rules"]:
            raise Refusal(f"{run_file} has another rule table than {manifest.source}")


def slots_of(options: argparse.Namespace, typed: Optional[Sequence[Fraction]], slots: int, study: Study) -> Slots:
    """By the words --run, --betas or --temperatures, of which one is given at most; `typed` are the inverse temperatures of
    the last two."""
    betas, names = [float(beta) for beta in typed or []], options.betas or options.temperatures or []
    if options.run:
        check_table(options.run[0], study)
        betas = run_betas(options.run[0])
        names = temperature_names(betas)
    if betas and len(betas) != slots:
        raise Refusal(f"{len(betas)} temperatures, and there are {slots} slots")
    return Slots("beta" if options.betas else "T" if betas else "", names or [""] * slots, betas or None)


def study_by_header(names: Sequence[str], run_files: Sequence[str], **found: Value) -> Study:
    """Of what has no manifest ever, as sums, lines and what comes through a pipe: each run file must be of their first line."""
    if len(run_files) not in (0, 1, len(names)):
        raise Refusal(f"{len(run_files)} run files for {len(names)} files: one for all, or one for each is wanted")
    for number, run_file in enumerate(run_files):
        check_run(run_file, "standard input" if names[number] == "-" else names[number], **found)
    return Study([], None)


# ---------------------------------------------------------------- the command


def main(words: Optional[Sequence[str]] = None) -> int:
    parser = OneLineParser(prog="manifest", description=__doc__, allow_abbrev=False,
                           formatter_class=argparse.RawDescriptionHelpFormatter)
    parser.add_argument("run_file", nargs="?", metavar="RUN", help="the run file; what it names lies beside it")
    parser.add_argument("report", nargs="?", metavar="REPORT", help="the report of its run")
    parser.add_argument("--program", metavar="FILE", help="else $GLASS, the program beside tools/, that of PATH")
    parser.add_argument("--self-test", action="store_true", help="write and read manifests, whole and damaged")
    try:
        options = parser.parse_args(words)
        if options.self_test:
            from manifest_test import self_test
            return self_test()
        if options.report is None:
            raise Refusal("a run file and a report are needed; --help says more")
        manifest = of_report(Path(options.run_file), options.report, find_program(options.program))
        print(f"wrote {write_manifest(Path(options.report), manifest)}: plan {manifest.plan}")
    except Refusal as refusal:
        print(f"manifest: {refusal}", file=sys.stderr)
        return 2
    except Fault as fault:
        line = str(fault)
        print(line if line.startswith("glass: ") else f"manifest: {line}", file=sys.stderr)
        return fault.status
    return 0


if __name__ == "__main__":
    sys.exit(status_of("manifest", main))
