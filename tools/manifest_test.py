"""The self-test of manifest.py, with a program that stands in for glass, and of the tools that take several reports."""
from __future__ import annotations

import math
import os
import random
import tempfile
from pathlib import Path
from typing import Callable, Dict, List, Sequence, Tuple

import analyse
import jackknife
import long_run_folder
import manifest
from jackknife_test import glass_report
from make_tables import Checks, Refusal, outcome
from run_temperatures import thresholds_at

STAND_IN = Path(__file__).resolve().parent / "long_run_stand_in.py"
RUN_FILE = """size = 4
rule = "metropolis"
rules = "rules.csv"
swaps = "swaps.csv"
couplings = "file:a b.couplings"
sweeps = 1
seed = 7
samples = 5
epochs = 4
every = 1
start = "random"
spins = false
"""
# Of the simulated study: the standard deviation of the files' true energies, and of a run from its file's, in units of the
# coupling for the whole lattice.
FILES, SEEDS, OF_FILES, OF_SEEDS = 4, 10, 400.0, 100.0


def report_of(energy: int, slots: int = 1) -> str:
    """A report of one epoch and one sample."""
    rows = "".join(f"row,0,0,{slot},{energy},{energy},{2 * slot},{slot},{slot}\n" for slot in range(slots))
    return f"glass 1 size=8 slots={slots} samples=1 rule=heat from=0 to=1\n{rows}end,1\n"


def simulated(source: random.Random) -> List[List[int]]:
    """Energies of the runs of each couplings file; their mean is 0, and all differ by multiples of 4."""
    files = [source.gauss(0, OF_FILES) for _ in range(FILES)]
    return [[4 * round((own + source.gauss(0, OF_SEEDS)) / 4) for _ in range(SEEDS)] for own in files]


def write_study(folder: Path, energies: Sequence[Sequence[int]], kind: str = "file") -> List[str]:
    """Reports with their manifests, file by file."""
    names = []
    for number, of_file in enumerate(energies):
        for seed, energy in enumerate(of_file):
            name = folder / f"{number}_{seed}.txt"
            name.write_text(report_of(energy))
            keys = {**dict.fromkeys(long_run_folder.KEYS, 1), "rule": "heat", "start": "up", "rules": "r", "swaps": "s",
                    "couplings": f"file:{number}" if kind == "file" else kind, "seed": 100 * number + seed}
            digests = {"rules": "1" * 64, "swaps": "2" * 64, "couplings": f"{number:064x}"}
            report = long_run_folder.digest_of(name) or ""
            manifest.write_manifest(name, manifest.Manifest("", keys, digests, "3" * 64, report, "4" * 64))
            names.append(str(name))
    return names


# ---------------------------------------------------------------- manifests


def check_writing(checks: Checks, folder: Path) -> None:
    for name, text in (("run.toml", RUN_FILE), ("rules.csv", "1\n"), ("swaps.csv", ""), ("a b.couplings", "J"),
                       ("report", report_of(0).replace("slots=1 samples=1 rule=heat", "slots=2 samples=5 rule=metropolis").replace("size=8", "size=4"))):
        (folder / name).write_text(text)
    words = [str(folder / "run.toml"), str(folder / "report"), "--program", str(STAND_IN)]
    status, out, err = outcome(words, manifest.main)
    checks.same("written", (status, out.startswith(f"wrote {folder}/report.toml: plan "), err), (0, True, ""))
    left = manifest.read_manifest(str(folder / "report"))
    checks.same("read", left and (left.keys, sorted(left.digests)), (long_run_folder.read_keys(folder / "run.toml"), ["couplings", "rules", "swaps"]))
    if long_run_folder.tomllib is not None:
        reader, manifest.tomllib = manifest.tomllib, None
        checks.same("read without Python's reader", manifest.read_manifest(str(folder / "report")), left)
        manifest.tomllib = reader
    check_refused_reports(checks, folder, words)
    for odd in ('a"b', "a\\b", "a\x7fb", "é"):
        text = manifest.text_of(manifest.Manifest("", {**left.keys, "couplings": f"file:{odd}"}, left.digests))  # type: ignore[union-attr]
        if long_run_folder.tomllib is not None:
            checks.same(f"the name {odd!r}", long_run_folder.tomllib.loads(text)["run"]["couplings"], f"file:{odd}")


def check_refused_reports(checks: Checks, folder: Path, words: List[str]) -> None:
    whole = (folder / "report.toml").read_text()
    for changed in (whole[:-20], whole.replace("glass manifest 1", "glass manifest 2"), whole.replace("[digests]", "[others]"),
                    "x" + whole, ""):
        (folder / "report.toml").write_text(changed)
        told = refusal_of(lambda: manifest.read_manifest(str(folder / "report")))
        checks.same("a damaged manifest", told, f"{folder / 'report.toml'} is no manifest of a report")
    (folder / "report.toml").write_text(whole)
    with open(folder / "report", "a") as stream:
        stream.write("x")
    told = refusal_of(lambda: manifest.read_manifest(str(folder / "report")))
    checks.same("another report", told, f"{folder / 'report.toml'} is of another report than {folder / 'report'}")
    for old, new, status in (("samples = 5", "samples = 6", 2), ('"metropolis"', '"heat"', 2), ("size = 4", "size = 6", 2),
                             ("rules.csv", "none.csv", 2)):
        (folder / "run.toml").write_text(RUN_FILE.replace(old, new))
        found = outcome(words, manifest.main)
        checks.same(f"a run file with {new}", (found[0], found[1], found[2].count("\n")), (status, "", 1))
    (folder / "run.toml").write_text(RUN_FILE)


def refusal_of(call: Callable[[], object]) -> str:
    try:
        call()
    except Refusal as refusal:
        return str(refusal)
    return ""


# ---------------------------------------------------------------- several reports


def check_same_study(checks: Checks, folder: Path) -> None:
    """What would make other mean values is refused by each tool, in one line that names it."""
    names = write_study(folder, [[0, 4], [8, 12]])
    tools: Dict[str, Callable[..., int]] = {"jackknife": jackknife.main, "analyse": analyse.main}
    path = manifest.file_of(names[1])
    whole = path.read_text()
    cases = [("rules", "1" * 64, "5" * 64), ("swaps", "2" * 64, "5" * 64), ("sweeps", "sweeps = 1", "sweeps = 2"),
             ("start", 'start = "up"', 'start = "random"'), ("rule", 'rule = "heat"', 'rule = "metropolis"'),
             ("couplings", '"file:0"', '"random"'), ("seed", "seed = 1\n", "seed = 0\n"), ("size", "size = 1", "size = 2"),
             ("is no manifest", "kind", "kinds")]
    for what, old, new in cases:
        path.write_text(whole.replace(old, new, 1))
        for tool, main in tools.items():
            manifest.study_of.cache_clear()
            status, out, err = outcome(names, main)
            checks.same(f"{tool}: {what}", (status, out, err.count("\n"), what in err), (2, "", 1, True))
    path.unlink()
    for tool, main in tools.items():
        manifest.study_of.cache_clear()
        status, out, err = outcome(names, main)
        checks.same(f"{tool}: one has none", (status, out, "has no manifest, and others have" in err), (2, "", True))
    path.write_text(whole)
    manifest.study_of.cache_clear()
    checks.same("blocks", manifest.study_of(tuple(names)).blocks, [0, 0, 1, 1])


def check_run_words(checks: Checks, folder: Path) -> None:
    """A run file stands in for manifests that aren't there."""
    reports = [folder / f"{seed}.txt" for seed in (1, 2)]
    for seed, report in enumerate(reports, 1):
        report.write_text(glass_report(4, seed)[0])
        (folder / f"{seed}.toml").write_text(RUN_FILE.replace("seed = 7", f"seed = {seed}"))
    for name, text in (("rules.csv", "1\n"), ("swaps.csv", ""), ("a b.couplings", "J")):
        (folder / name).write_text(text)
    # The stand-in has two slots, and so have these.
    for report in reports:
        lines = [line for line in report.read_text().splitlines() if not line.startswith("row,")]
        report.write_text("\n".join(lines).replace("slots=3", "slots=2") + "\n")
    kept, os.environ["GLASS"] = os.environ.get("GLASS"), str(STAND_IN)
    given = tuple(map(str, reports))
    try:
        for files, wanted in (((1, 2), [0, 0]), ((1,), [0, 0])):
            manifest.study_of.cache_clear()
            checks.same(f"run files {files}", manifest.study_of(given, tuple(str(folder / f"{n}.toml") for n in files)).blocks, wanted)
        (folder / "2.toml").write_text(RUN_FILE.replace("sweeps = 1", "sweeps = 3"))
        manifest.study_of.cache_clear()
        told = refusal_of(lambda: manifest.study_of(given, (str(folder / "1.toml"), str(folder / "2.toml"))))
        checks.same("another number of sweeps", told, f"sweeps is 3 in {folder / '2.toml'}, and 1 in {folder / '1.toml'}")
        told = refusal_of(lambda: manifest.study_of(given, ("a", "b", "c")))
        checks.same("three run files", told, "3 run files for 2 reports: one for all, or one for each is wanted")
    finally:
        os.environ.pop("GLASS")
        if kept is not None:
            os.environ["GLASS"] = kept


def write_heat_run(folder: Path, *betas: float, size: int = 4) -> str:
    """The name of a run file with one sample, whose table has these inverse temperatures."""
    rows = [",".join(str(round(threshold)) for threshold in thresholds_at("heat", beta)) for beta in betas]
    (folder / "rules.csv").write_text("".join(f"{row}\n" for row in rows))
    (folder / "swaps.csv").write_text("")
    changed = RUN_FILE.replace("metropolis", "heat").replace("file:a b.couplings", "random").replace("samples = 5", "samples = 1")
    (folder / "run.toml").write_text(changed.replace("size = 4", f"size = {size}"))
    return str(folder / "run.toml")


SMALL_REPORT = "glass 1 size=4 slots=2 samples=1 rule=heat from=0 to=1\nrow,0,0,0,0,0,2,0,0\nrow,0,0,1,4,0,2,1,1\nend,1\n"
SMALL_SUMS = "average 1 size=4 slots=2 samples=1 blocks=1 rows=2\n" + "".join(
    f"sum,{slot},1,4,4,16\nwithout,{slot},0,0,0,0,0\n" for slot in range(2)) + "end\n"
SMALL_LINES = "lines 1 size=4 slots=2 samples=1 epoch=1\n" + "".join(
    f"link,0,{slot},0\n" + "".join(f"line,0,{slot},{d},{r},0\n" for d in range(3) for r in (1, 2)) for slot in range(2)) + "end\n"


def check_temperatures(checks: Checks, folder: Path) -> None:
    """A run file tells the temperatures of a report with a manifest and without, and of sums and lines."""
    cases = (("report", SMALL_REPORT, jackknife.main, ["--blocks", "1"]), ("known", SMALL_REPORT, analyse.main, []),
             ("sums", SMALL_SUMS, jackknife.main, []), ("lines", SMALL_LINES, analyse.main, []))
    kept, os.environ["GLASS"] = os.environ.get("GLASS"), str(STAND_IN)

    def told(betas: Sequence[float], size: int = 4) -> Tuple[int, List[str], int]:
        """Status, the names of both slots, and how many lines a refusal has."""
        manifest.study_of.cache_clear()
        run = write_heat_run(folder, *betas, size=size)
        status, out, err = outcome([str(folder / name), *words, "--run", run], main)
        return status, [line.split()[1] for line in out.splitlines()[2:4]], err.count("\n")

    try:
        for name, text, main, words in cases:
            (folder / name).write_text(text)
            if name == "known":
                checks.same("a manifest", outcome([write_heat_run(folder, 0.25, 0), str(folder / name)], manifest.main)[0], 0)
            checks.same(f"{name}: temperatures", told([0.25, 0]), (0, ["4", "inf"], 0))
            other = told([0.2, 0]) if name == "known" else told([0.25, 0], 6)
            checks.same(f"{name}: of another run", other, (2, [], 1))
            checks.same(f"{name}: of other slots", told([0.25, 0.2, 0]), (2, [], 1))
            typed = outcome([str(folder / name), "--run", "run.toml", "--betas", "1", "2"], main)
            checks.same(f"{name}: typed ones too", (typed[0], typed[1], typed[2].count("\n")), (2, "", 1))
    finally:
        os.environ.pop("GLASS")
        if kept is not None:
            os.environ["GLASS"] = kept


# ---------------------------------------------------------------- errors with a known answer


def sums_of(energy: int) -> jackknife.Averages:
    one = jackknife.Sums(1, 2 * energy, 4, 16)
    return jackknife.Averages(8, 1, 1, 1, 1, [one], [[jackknife.Sums(0, 0, 0, 0)]], None)


def errors_of(energies: Sequence[Sequence[int]], are_files: bool) -> Tuple[float, float]:
    """The error of the mean energy over the blocks, and that over the seeds, per lattice."""
    parts = [sums_of(energy) for of_file in energies for energy in of_file]
    numbers = [number for number, of_file in enumerate(energies) for _ in of_file] if are_files else None
    found = jackknife.joined([str(n) for n in range(len(parts))], distinct(parts), numbers)
    over_blocks = jackknife.jackknife_error([jackknife.values_of(part, 1)[0] for part in found.without[0]])
    if not are_files:
        return over_blocks, math.nan
    values = [[jackknife.values_of(part, 1)[0] for part in of_file] for of_file in found.seeds[0]]
    return over_blocks, jackknife.seeds_error(values)


def distinct(parts: List[jackknife.Averages]) -> List[jackknife.Averages]:
    """Runs that have the same energy by chance differ in their overlaps."""
    return [part._replace(totals=[part.totals[0]._replace(squares=4 * n + 4)]) for n, part in enumerate(parts)]


def check_errors(checks: Checks) -> None:
    """Four couplings files with ten seeds each: the mean's error is sqrt(D^2 / 4 + M^2 / 40), and the seeds' part of it
    sqrt(M^2 / 40). With a report a block its square is expected to be (30 D^2 / 39 + M^2) / 40: it comes out 3.48 times
    too small."""
    source = random.Random(20240611)
    studies = [simulated(source) for _ in range(300)]
    truth = math.sqrt(OF_FILES ** 2 / FILES + OF_SEEDS ** 2 / (FILES * SEEDS))
    of_seeds = OF_SEEDS / math.sqrt(FILES * SEEDS)
    means = [sum(map(sum, study)) / (FILES * SEEDS) for study in studies]
    deviation = math.sqrt(sum(mean ** 2 for mean in means) / len(means))
    checks.same("the simulation is what it is said to be", abs(deviation / truth - 1) < 0.1, True)
    found = [errors_of(study, True) for study in studies]
    root = [math.sqrt(sum(errors[n] ** 2 for errors in found) / len(found)) for n in range(2)]
    checks.same("the error over the files", abs(root[0] / truth - 1) < 0.1, True)
    checks.same("the error over the seeds", abs(root[1] / of_seeds - 1) < 0.05, True)
    apart = [errors_of(study, False)[0] for study in studies]
    too_small = truth / math.sqrt(sum(error ** 2 for error in apart) / len(apart))
    checks.same("each report a block", 3.1 < too_small < 3.7, True)


def check_printed(checks: Checks, folder: Path) -> None:
    """The tools print both errors, of files that have other numbers of seeds too."""
    energies = [[0, 8, 40], [100, 108, 116, 120], [48, 60]]
    names = write_study(folder, energies)
    means = [sum(own) / len(own) for own in energies]
    mean = sum(means) / 3
    error = math.sqrt(sum((own - mean) ** 2 for own in means) / 6)
    squares = [sum((x - m) ** 2 for x in own) / (len(own) - 1) / len(own) for own, m in zip(energies, means)]
    wanted = [f"{value / 512:.6f}" for value in (mean, error, math.sqrt(sum(squares)) / 3)]
    manifest.study_of.cache_clear()
    lines = outcome(names, jackknife.main)[1].splitlines()
    checks.same("jackknife", [*lines[2].split()[1:3], lines[5].split()[1]], wanted)
    checks.same("its numbers", (lines[0], "of 3 4 2 reports" in lines[3]), ("size 8, slots 1, samples 3, blocks 3, rows 9", True))
    line, blocks = outcome(names, analyse.main)[1].splitlines()[-2:]
    checks.same("analyse", (line.split()[1:4], blocks.split(" blocks")[0]), (wanted, "errors are over 3"))
    one = outcome(names[:3], jackknife.main)[1].splitlines()
    checks.same("one file has no error over the disorder", (one[2].split()[2], one[5].split()[1]), ("-", f"{math.sqrt(squares[0]) / 512:.6f}"))
    write_study(folder, energies, "random")
    manifest.study_of.cache_clear()
    checks.same("random couplings", "blocks 9" in outcome(names, jackknife.main)[1], True)


def self_test() -> int:
    checks = Checks("manifest")
    for check in (check_writing, check_same_study, check_run_words, check_temperatures, check_printed):
        with tempfile.TemporaryDirectory() as name:
            check(checks, Path(name))
    check_errors(checks)
    return checks.end()
