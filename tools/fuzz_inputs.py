#!/usr/bin/env python3
"""Gives the program wrong run files, tables, couplings files, checkpoints and reports, and holds each run to what the
documents say of those bytes.

    python3 tools/fuzz_inputs.py                          20000 inputs and 2000 reports, some minutes
    python3 tools/fuzz_inputs.py --count 500 --seed 2     fewer, and others
    python3 tools/fuzz_inputs.py --only 17                the input of this number alone, whose files are kept
    python3 tools/fuzz_inputs.py --self-test              without the program

Inputs are grown from lawful ones by cuts, repeats, flipped bits, numbers at their bounds, pieces of other inputs and
sealed changes, whose digest is made anew. Each goes through `glass check`, `glass run --until` or both, some through
`glass measure` or, with a second checkpoint, `glass cross`, a report through `glass average`. expected_runs.py, and of
the other two commands reference/measure.py and reference/cross.py, tell independently of the program the status, the line
and the text, and what a saved checkpoint holds: so a changed byte never gives status 0 with another digest or report than
its own. No run ends by a signal, and each line is one of docs/specification/messages.md. The same count and seed give the
same inputs.

GLASS names the program; else it is that of tests/program.sh. Status 0 where every run was held to, 1 where one was not,
2 where nothing could be run."""
import argparse
import hashlib
import os
import random
import re
import shutil
import subprocess
import sys
import tempfile
from collections import Counter
from pathlib import Path

import couplings
import expected_runs
import input_growth
import input_judge
from make_tables import OneLineParser, Refusal
from reference.answers import NOT_TOLD
from reference.cross import ended as crossed
from reference.measure import ended as measured

TOP = Path(__file__).resolve().parent.parent
SECONDS = 60
SEED, OTHER_SEED = 20240611, 20240612
# The words that may stand in the place of the second seed, and in that of a file's name.
SEED_WORDS = ["0", "7", "9223372036854775807", "9223372036854775808", "-1", "007", "0x7", "", "seed"]
NAME_WORDS = ["absent", ".", "--until", "", "n" * 256, "run.toml"]
RUN = """size = {size}
rule = "{rule}"
rules = "rules.csv"
swaps = "swaps.csv"
couplings = "{source}"
sweeps = 1
seed = {seed}
samples = {samples}
epochs = 3
every = {every}
start = "{start}"
spins = true
"""
HEAT = ["4294967296,4294967296,4294967296,0,0,0,0", "0,0,0,0,0,0,4294967296", "4000000000, 3000000000, 2147483648, 99, 7,1,0"]
METROPOLIS = ["858993459, 171798691, 34359738", "1171354717,319460377,87125557", "1431655765,477218588,159072862"]
# size, rule, slots, couplings, samples, every, start
STUDIES = [(4, "heat", 2, "plus", 1, 1, "up"), (4, "metropolis", 3, "random", 2, 2, "random"),
           (4, "heat", 1, "file:j.bin", 1, 1, "random"), (6, "metropolis", 2, "file:j.bin", 1, 1, "random"),
           (4, "heat", 1, "file:j.bin", 65, 1, "up"), (4, "metropolis", 2, "random", 66, 2, "random")]


# ---------------------------------------------------------------- lawful files


def lawful_files(study):
    """The files of a study by name, and its size and slots; checkpoints are made by running it."""
    size, rule, slots, source, samples, every, start = study
    rows = HEAT if rule == "heat" else METROPOLIS
    swaps = ["3149642683, 2309737966, 1693807842", "4294967296"][:slots - 1]
    of_file = 65 if size == 6 or samples > 64 else 1
    bonds = [couplings.random_sample(size, 5, b, couplings.probability("1/2")) for b in range(of_file)]
    run = RUN.format(size=size, rule=rule, source=source, seed=SEED, samples=samples, every=every, start=start)
    return {"run.toml": run.encode(), "rules.csv": ("\n".join(rows[:slots]) + "\n").encode(),
            "swaps.csv": "".join(line + "\n" for line in swaps).encode(), "j.bin": couplings.file_bytes(size, bonds)}


class Study:
    """A folder with the lawful files of a study, in which one or two of them are changed for each input."""

    def __init__(self, folder, program, study, rng):
        self.folder, self.program, self.size, self.slots = folder, program, study[0], study[2]
        self.samples, self.every = study[4], study[5]
        folder.mkdir()
        self.files = lawful_files(study)
        run = self.files["run.toml"]
        # States of equal couplings and another seed, but where couplings are those of the seed.
        self.write({**self.files, "run.toml": run.replace(f"seed = {SEED}".encode(), f"seed = {OTHER_SEED}".encode())})
        self.seconds = [self.saved(epoch) for epoch in (0, 2)]
        self.write(self.files)
        self.bases = [self.saved(epoch) for epoch in range(4)]
        self.reports = [self.call("run", "run.toml", "--until", until).stdout for until in ("0", "1", "3")]
        if self.samples > 64:
            # Two banks at different epochs, and one bank alone.
            places = [12 + g * input_growth.bank_length(self.size, self.slots) for g in range(3)]
            for first, second in ((0, 1), (2, 1)):
                self.bases.append(input_growth.sealed(self.bases[first][:places[1]] + self.bases[second][places[1]:]))
            self.bases.append(self.bases[1][places[0]:places[1]])
        else:
            self.bases += [input_growth.uneven(rng, self.bases[epoch], self.size, self.slots, self.samples, self.every)
                           for epoch in (0, 1, 1, 2, 2)]

    def saved(self, epoch):
        """The checkpoint of the lawful run at an epoch."""
        ended = self.call("run", "run.toml", "--until", str(epoch), "--save", "base")
        if ended.returncode != 0:
            raise Refusal(f"a lawful run ended with status {ended.returncode}: {ended.stderr.decode()}")
        return (self.folder / "base").read_bytes()

    def write(self, files):
        for name, stored in files.items():
            (self.folder / name).write_bytes(stored)

    def call(self, *words):
        return subprocess.run([self.program, *words], cwd=self.folder, stdin=subprocess.DEVNULL,
                              stdout=subprocess.PIPE, stderr=subprocess.PIPE, timeout=SECONDS, check=False)


# ---------------------------------------------------------------- what a run is held to


def manual_lines():
    """The lines of the manual as (statuses, pattern)."""
    words = {"FILE": "(run file|rule table|swap table|couplings file|(second )?checkpoint|report)", "TABLE": "(rule|swap) table",
             "CHECKPOINT": "(second )?checkpoint",
             "DIGEST": "[0-9a-f]{64}", "TEXT": "[ -~]*", "V": "-?[0-9]+", "K": "([a-z]+|[0-9]+)"}
    rows = re.findall(r"^\| ([0-9, ]+) \| `(glass: .*)` \|$", (TOP / "docs/specification/messages.md").read_text(), re.M)
    return [({int(status) for status in statuses.split(",")},
             re.sub(r"\b([A-Z]+)\b", lambda m: words.get(m[0], "[0-9]+" if len(m[0]) == 1 else m[0]), line))
            for statuses, line in rows]


LINES = manual_lines()


def line_of(status, told):
    """The line of the manual that was told, None where it is none."""
    for statuses, pattern in LINES:
        if status in statuses and re.fullmatch(pattern + "\n", told.decode("latin-1")):
            return pattern
    return None


def shown(stored):
    return f"{len(stored)} bytes, {hashlib.sha256(stored).hexdigest()[:12]}, {stored[:200]!r}"


def wrong_in_answer(ended, verdict):
    """What is wrong in how a run ended; None where nothing is."""
    if ended.returncode < 0:
        return f"signal {-ended.returncode}"
    if ended.returncode != 0 and line_of(ended.returncode, ended.stderr) is None:
        return f"status {ended.returncode} with {ended.stderr!r}, which is not in the manual"
    if verdict.status is not None and (ended.returncode, ended.stderr) != (verdict.status, verdict.line):
        return f"status {ended.returncode} with {ended.stderr!r}, not {verdict.status} with {verdict.line!r}"
    if ended.returncode != 0 and ended.stdout:
        return f"status {ended.returncode} and on the output {shown(ended.stdout)}"
    if verdict.text is not None and ended.stdout != verdict.text:
        return f"on the output {shown(ended.stdout)}, not {shown(verdict.text)}"
    if not ended.stdout.startswith(verdict.head):
        return f"on the output {shown(ended.stdout)}, which begins not with {verdict.head!r}"
    return None


class Fuzzer:
    def __init__(self, studies, kept):
        self.studies, self.kept = studies, kept
        self.kinds, self.lines, self.runs, self.whole, self.failed = Counter(), Counter(), 0, 0, 0

    def input(self, number, seed):
        """One input, by its number, and what becomes of it."""
        rng = random.Random(f"{seed} {number}")
        study = rng.choice(self.studies)
        kind = rng.choices(("run.toml", "rules.csv", "swaps.csv", "j.bin", "base", "second"), (5, 3, 2, 4, 6, 1))[0]
        if kind == "j.bin" and b"file:" not in study.files["run.toml"]:
            study = rng.choice([it for it in self.studies if b"file:" in it.files["run.toml"]])
        changed = {"base": rng.choice(study.bases), "second": rng.choice(study.bases + 2 * study.seconds)}
        for name in [kind] + ([rng.choice(sorted(study.files))] if rng.random() < 0.1 else []):
            is_state = name in ("base", "second")
            others = study.bases + study.seconds if is_state else [it.files[name] for it in self.studies]
            stored = changed.get(name) or study.files.get(name, b"")
            changed[name] = input_growth.grown(rng, "base" if is_state else name, stored, others, study.size, study.slots)
        study.write(changed)
        os.chdir(study.folder)
        before = self.failed
        if kind not in ("base", "second"):
            self.hold(number, study, ["check", "run.toml"], expected_runs.checked("run.toml"))
        if rng.random() < 0.1:
            words = ["run", "run.toml", "--stop-after", "0", "--save", "stopped"]
            self.hold(number, study, words, expected_runs.stopped("run.toml"))
        if kind != "second":
            self.hold_run(number, study, rng, changed["base"] if kind == "base" or rng.random() < 0.2 else None)
        if kind == "second" or rng.random() < 0.04:
            self.hold_copies(number, study, rng)
        if self.failed > before or self.kept is not None:
            self.keep(number, study)
        study.write({name: study.files[name] for name in changed if name in study.files})
        self.kinds[kind] += 1

    def report(self, number, seed):
        """One report, by its number, and what becomes of it."""
        rng = random.Random(f"{seed} report {number}")
        study = rng.choice(self.studies)
        others = [it for other in self.studies for it in other.reports]
        stored = input_growth.grown(rng, "report", rng.choice(study.reports), others, study.size, study.slots)
        study.write({"report": stored})
        os.chdir(study.folder)
        before, blocks = self.failed, rng.choice((1, 1, 1, 2, 2, 3, 256))
        self.hold(number, study, ["average", "report", str(blocks)], expected_runs.averaged("report", blocks))
        if self.failed > before:
            self.keep(number, study)
        self.kinds["report"] += 1

    def hold_run(self, number, study, rng, base):
        """Runs to an epoch that lets the run end soon."""
        nearest = input_growth.epochs_of(base) if base is not None else [0, 0, 1]
        untils = rng.sample(nearest, len(nearest))
        if rng.random() < 0.1:
            untils.insert(0, 10 ** 9)
        for until in [*untils, 0]:
            verdict = expected_runs.ran("run.toml", None if base is None else "base", until)
            if verdict.work is not None and verdict.work <= 1000000:
                break
        if rng.random() < 0.04 and verdict.text is not None and verdict.status != 3:
            self.hold_sums(number, study, base, until)
        words = ["run", "run.toml", "--until", str(until), "--workers", str(rng.choice((1, 1, 1, 2, 5)))]
        words += ["--from", "base"] if base is not None else []
        saves = rng.random() < 0.5
        (study.folder / "saved").unlink(missing_ok=True)
        ended = self.hold(number, study, words + (["--save", "saved"] if saves else []), verdict)
        if ended is None or not saves:
            return
        saved = study.folder / "saved"
        if saved.exists() != (ended.returncode == 0):
            self.complain(number, words, f"status {ended.returncode} and the checkpoint stands: {saved.exists()}")
        elif ended.returncode == 0 and verdict.text is not None:
            seen = (0, rng.randrange(input_judge.BANK * len(verdict.run.bases)))
            wrong = expected_runs.wrong_in_saved(saved.read_bytes(), verdict.run, seen)
            if wrong is not None:
                self.complain(number, words, f"the saved checkpoint: {wrong}")

    def hold_sums(self, number, study, base, until):
        """The sums of a run that is short, whose amount is no matter."""
        words = ["measure", "run.toml", "--until", str(until)] + (["--from", "base"] if base is not None else [])
        wanted = measured([word.encode() for word in words])
        if wanted.status != NOT_TOLD:
            text = wanted.text.encode()
            self.hold(number, study, words, expected_runs.Verdict(wanted.status, wanted.line.encode(), b"", text, None, 0))

    def hold_copies(self, number, study, rng):
        """The copies of two states; one word in ten is another."""
        words = ["cross", "run.toml", "base", rng.choice((str(SEED), str(OTHER_SEED), str(OTHER_SEED))), "second"]
        if rng.random() < 0.1:
            at = rng.randrange(1, 5)
            words[at] = rng.choice(SEED_WORDS if at == 3 else NAME_WORDS)
        wanted = crossed([word.encode() for word in words])
        if wanted.status != NOT_TOLD:
            self.hold(number, study, words, expected_runs.Verdict(wanted.status, wanted.line.encode(), b"", wanted.text.encode(), None, 0))

    def hold(self, number, study, words, verdict):
        self.runs += 1
        try:
            ended = study.call(*words)
        except subprocess.TimeoutExpired:
            self.complain(number, words, f"it had not ended after {SECONDS} s")
            return None
        self.whole += verdict.status is not None and verdict.text is not None
        self.lines[(ended.returncode, line_of(ended.returncode, ended.stderr))] += 1
        wrong = wrong_in_answer(ended, verdict)
        if wrong is not None:
            self.complain(number, words, wrong)
        return ended

    def complain(self, number, words, wrong):
        self.failed += 1
        print(f"fuzz_inputs: input {number}: {' '.join(words)}: {wrong}", file=sys.stderr, flush=True)

    def keep(self, number, study):
        folder = Path(self.kept or tempfile.gettempdir()) / f"fuzz_inputs_{number}"
        shutil.rmtree(folder, ignore_errors=True)
        shutil.copytree(study.folder, folder)
        print(f"fuzz_inputs: the files of input {number} are in {folder}", file=sys.stderr, flush=True)

    def tell(self):
        for kind, count in sorted(self.kinds.items()):
            print(f"{count:7} inputs with another {kind}")
        for (status, line), count in sorted(self.lines.items(), key=str):
            print(f"{count:7} runs with status {status}{'' if line is None else ': ' + line}")
        print(f"{sum(self.kinds.values())} inputs, {self.runs} runs, {self.whole} of them held to every byte, "
              f"{self.failed} not as they must be")


# ---------------------------------------------------------------- the program


def program_path():
    found = subprocess.run([TOP / "tests/program.sh"], stdout=subprocess.PIPE, text=True, check=False)
    if found.returncode != 0:
        raise Refusal("there is no program")
    return found.stdout.strip()


def fuzz(options):
    program = os.path.realpath(program_path())
    with tempfile.TemporaryDirectory() as room:
        rng = random.Random(options.seed)
        studies = [Study(Path(room) / str(k), program, study, rng) for k, study in enumerate(STUDIES)]
        start = os.getcwd()
        fuzzer = Fuzzer(studies, None if options.only is None else start)
        for number in range(options.count) if options.only is None else [options.only]:
            fuzzer.input(number, options.seed)
        for number in range(options.reports) if options.only is None else ():
            fuzzer.report(number, options.seed)
        os.chdir(start)
        fuzzer.tell()
    return 1 if fuzzer.failed else 0


def main(words=None):
    parser = OneLineParser(prog="fuzz_inputs", description=__doc__, allow_abbrev=False,
                           formatter_class=argparse.RawDescriptionHelpFormatter)
    parser.add_argument("--count", type=int, default=20000, metavar="N")
    parser.add_argument("--reports", type=int, default=2000, metavar="N")
    parser.add_argument("--seed", type=int, default=1, metavar="S")
    parser.add_argument("--only", type=int, metavar="NUMBER")
    parser.add_argument("--self-test", action="store_true")
    try:
        options = parser.parse_args(words)
        if options.self_test:
            from fuzz_inputs_test import self_test
            return self_test()
        return fuzz(options)
    except Refusal as refusal:
        print(f"fuzz_inputs: {refusal}", file=sys.stderr)
        return 2


if __name__ == "__main__":
    sys.exit(main())
