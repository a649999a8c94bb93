#!/usr/bin/env python3
"""Runs the built program and holds every byte of it to the definitions: text, digest, report, checkpoints of all kinds,
sums over a run, correlation lines, two-time overlaps and overlaps of two states.

    python3 tools/reference/against_program.py ./glass

Each case is a run file with its tables, in a folder of its own; all samples of its banks of 64 are followed one spin at a
time, so that a checkpoint is compared whole. Some seconds. Status 1 at the first difference, which is told."""
import copy
import random as rng
import subprocess
import sys
import tempfile
from pathlib import Path

sys.path.insert(0, str(Path(__file__).resolve().parents[1]))
sys.dont_write_bytecode = True
import couplings as couplings_files  # noqa: E402
import reference.definitions as rule  # noqa: E402
from reference.measured import followed_text  # noqa: E402
from reference.crossed import CrossHeading, copies_fields, cross_text  # noqa: E402
from reference.overlaps import age_text, lines_text  # noqa: E402

DONE = []
# A file has the couplings of so many samples; those behind them are J = +1.
IN_FILE = 131


def same(name, found, wanted):
    if found != wanted:
        place = next((i for i, (a, b) in enumerate(zip(found, wanted)) if a != b), min(len(found), len(wanted)))
        sys.exit(f"against_program: {name}: byte {place} of {len(found)} and {len(wanted)}: "
                 f"{found[place:place + 40]!r} and not {wanted[place:place + 40]!r}")
    DONE.append(name)


class Case:
    """A plan and orders, as the definitions have them and as files."""

    def __init__(self, name, size, kind, slots, couplings, samples, epochs, every, start, sweeps=1):
        source = rng.Random(name)
        width = 7 if kind == "heat" else 3
        rows = tuple(tuple(source.choice((0, 2 ** 32, source.randrange(2 ** 32 + 1))) for _ in range(width)) for _ in range(slots))
        swaps = tuple(tuple(source.randrange(2 ** 32 + 1) for _ in range(40)) for _ in range(slots - 1))
        self.seed, self.size, self.couplings = source.randrange(2 ** 63), size, couplings
        self.name, self.samples, self.every, self.epochs, self.start = name, samples, every, epochs, start
        self.of_file = [bytes(source.randrange(2) for _ in range(3 * size ** 3)) for _ in range(IN_FILE * couplings.startswith("file:"))]
        self.plans = [rule.Plan(size, kind, rows, swaps, rule.couplings_view(size, rule.of_bank(self.signs, bank)), sweeps, self.seed)
                      for bank in range((samples + 63) // 64)]
        self.plan, self.states = self.plans[0], {}

    def signs(self, sample):
        if self.couplings == "random":
            return rule.random(self.seed, sample)
        return self.of_file[sample].__getitem__ if sample < len(self.of_file) else rule.plus(sample)

    def write(self, folder):
        lines = [f"size = {self.plan.size}", f'rule = "{self.plan.rule}"', 'rules = "rules.csv"', 'swaps = "swaps.csv"',
                 f'couplings = "{self.couplings}"', f"sweeps = {self.plan.sweeps}", f"seed = {self.plan.seed}",
                 f"samples = {self.samples}", f"epochs = {self.epochs}", f"every = {self.every}", f'start = "{self.start}"',
                 "spins = true"]
        (folder / "run.toml").write_text("\n".join(lines) + "\n")
        for name, table in (("rules.csv", self.plan.rows), ("swaps.csv", self.plan.swaps)):
            (folder / name).write_text("".join(",".join(map(str, row)) + "\n" for row in table))
        if self.of_file:
            (folder / self.couplings[5:]).write_bytes(couplings_files.file_bytes(self.size, self.of_file))

    def opening(self, b):
        return self.at(b, 0)

    def at(self, b, e, bank=0):
        """Bit b of a bank at epoch e of the serial dynamics, made once."""
        if (b, e, bank) not in self.states:
            self.states[b, e, bank] = (rule.opening(self.plans[bank], self.start, bank, b) if e == 0
                                       else rule.epoch(self.plans[bank], self.at(b, e - 1, bank)))
        return self.states[b, e, bank]

    def banks_at(self, e):
        return [rule.Bank(plan, lambda b, bank=bank: self.at(b, e, bank)) for bank, plan in enumerate(self.plans)]

    def report(self, first, last):
        """That of the run from an epoch to another."""
        if len(self.plans) > 1:
            return rule.banks_report(self.banks_at(first), self.samples, self.every, True, last)
        return rule.report(self.plan, lambda b: self.at(b, first), self.samples, self.every, True, last)

    def checkpoint(self, e):
        if len(self.plans) > 1:
            return rule.banks_encoding(self.plans, [bank.start for bank in self.banks_at(e)])
        return rule.encoding(self.plan, lambda b: self.at(b, e))


def ran(program, folder, *words):
    done = subprocess.run([program, *words], cwd=folder, stdout=subprocess.PIPE, stderr=subprocess.PIPE, check=False)
    if done.returncode or done.stderr:
        sys.exit(f"against_program: {' '.join(words)}: status {done.returncode}, {done.stderr.decode()}")
    return done.stdout


def whole_run(program, folder, case):
    plan = case.plan
    line = (f"plan 1 size={plan.size} slots={len(plan.rows)} samples={case.samples} rule={plan.rule} sweeps={plan.sweeps} "
            f"digest={rule.banks_digest(case.plans).hex()}\n")
    same(f"{case.name}: check", ran(program, folder, "check", "run.toml"), line.encode())
    same(f"{case.name}: length", len(rule.canonical(plan)).to_bytes(8, "big"), rule.canonical_length(plan).to_bytes(8, "big"))
    same(f"{case.name}: report", ran(program, folder, "run", "run.toml", "--save", "end", "--workers", "2"),
         case.report(0, case.epochs).encode())
    same(f"{case.name}: checkpoint", (folder / "end").read_bytes(), case.checkpoint(case.epochs))


def resumed_run(program, folder, case, epoch):
    """A run to an epoch, and from there on."""
    ran(program, folder, "run", "run.toml", "--until", str(epoch), "--save", "half")
    half = case.checkpoint(epoch)
    same(f"{case.name}: checkpoint at {epoch}", (folder / "half").read_bytes(), half)
    same(f"{case.name}: its length", len(half).to_bytes(8, "big"), rule.banks_len(case.plans).to_bytes(8, "big"))
    same(f"{case.name}: report from {epoch}", ran(program, folder, "run", "run.toml", "--from", "half", "--save", "end"),
         case.report(epoch, case.epochs).encode())
    same(f"{case.name}: checkpoint from {epoch}", (folder / "end").read_bytes(), case.checkpoint(case.epochs))


def stopped_run(program, folder, case, takes):
    """A run that stops anywhere: its own positions, and all else by the rule from the opening."""
    plan, n = case.plan, len(case.plan.rows)
    found = ran(program, folder, "run", "run.toml", "--save", "stopped", "--stop-after", str(takes))
    stored = (folder / "stopped").read_bytes()
    places = tuple(rule.Position(int.from_bytes(stored[64 + 9 * t:72 + 9 * t], "big"), stored[72 + 9 * t] == 2) for t in range(n))
    level = [rule.UnevenState(b, (rule.Position(0, False),) * n, case.opening(b).slots, case.opening(b).pairs) for b in range(64)]
    states = [rule.UnevenState(b, places,
                               tuple(rule.content(plan, level[b], t, places[t].epoch, places[t].waits) for t in range(n)),
                               tuple(rule.generators(plan, level[b], k, places[k].epoch) for k in range(n - 1)))
              for b in range(64)]
    floor, deepest = rule.floor_of(places), rule.deepest_of(places)
    pending = [rule.record_of(plan, b, rule.arrived(plan, level[b], f, t)) for f in range(floor, deepest)
               if rule.is_recorded(case.every, f) for b in range(case.samples) for t in range(n) if f < rule.done(places[t])]
    same(f"{case.name}: records kept ahead", len(pending).to_bytes(4, "big"),
         rule.pending_count(case.samples, case.every, places).to_bytes(4, "big"))
    same(f"{case.name}: stopped checkpoint", stored, rule.uneven_encoding(plan, case.samples, case.every, states.__getitem__, pending))
    text = rule.uneven_report(plan, level.__getitem__, [], case.samples, case.every, True, case.epochs, places)
    same(f"{case.name}: stopped report", found, text.encode())
    text = rule.uneven_report(plan, states.__getitem__, pending, case.samples, case.every, True, case.epochs,
                              (rule.Position(case.epochs, False),) * n)
    same(f"{case.name}: resumed report", ran(program, folder, "run", "run.toml", "--from", "stopped", "--save", "end"), text.encode())
    same(f"{case.name}: resumed checkpoint", (folder / "end").read_bytes(), rule.encoding(plan, lambda b: case.at(b, case.epochs)))


def measured_run(program, folder, case, epoch):
    """The sums of a run, in one and in two parts, and what it saves."""
    digest = rule.banks_digest(case.plans).hex()

    def text(first, last):
        return followed_text(case.plans, lambda b: case.at(b % 64, first, b // 64), case.samples, case.every, last,
                             case.plan.rule, digest)[0].encode()

    same(f"{case.name}: sums", ran(program, folder, "measure", "run.toml", "--workers", "2", "--save", "end"),
         text(0, case.epochs))
    same(f"{case.name}: checkpoint of sums", (folder / "end").read_bytes(), case.checkpoint(case.epochs))
    same(f"{case.name}: sums to {epoch}", ran(program, folder, "measure", "run.toml", "--until", str(epoch), "--save", "half"),
         text(0, epoch))
    same(f"{case.name}: checkpoint of sums to {epoch}", (folder / "half").read_bytes(), case.checkpoint(epoch))
    same(f"{case.name}: sums from {epoch}", ran(program, folder, "measure", "run.toml", "--from", "half", "--pieces", "3"),
         text(epoch, case.epochs))


def overlaps(program, folder, case, wait, times):
    """The lines of the state that a whole run saved, and the overlaps of an aging run."""
    text = lines_text(case.plan, lambda b: case.at(b, case.epochs), case.samples, case.epochs)
    same(f"{case.name}: lines", ran(program, folder, "lines", "run.toml", "end"), text.encode())
    words = [str(it) for it in (wait, len(times), *times)]
    text = age_text(case.plan, case.start, case.samples, wait, times)
    same(f"{case.name}: age", ran(program, folder, "age", "run.toml", *words), text.encode())


def crossed(program, folder, case, first, second):
    """The overlaps of the states of one run at two epochs."""
    for epoch in (first, second):
        ran(program, folder, "run", "run.toml", "--until", str(epoch), "--save", f"at_{epoch}")
    sample = lambda epoch: lambda b: case.at(b % 64, epoch, b // 64)  # noqa: E731
    heading = CrossHeading(case.size, len(case.plan.rows), case.samples, case.plan.rule, case.seed, case.seed, first, second)
    text = cross_text(heading, lambda *place: copies_fields(sample(first), sample(second), *place))
    same(f"{case.name}: cross", ran(program, folder, "cross", "run.toml", f"at_{first}", str(case.seed), f"at_{second}"), text.encode())


def crossed_seeds(program, folder, case, seed):
    """The overlaps of the states of two runs of equal couplings and different seeds."""
    other = copy.copy(case)
    other.seed, other.states, other.plans = seed, {}, [plan._replace(seed=seed) for plan in case.plans]
    other.plan = other.plans[0]
    ran(program, folder, "run", "run.toml", "--save", "own")
    other.write(folder)
    ran(program, folder, "run", "run.toml", "--until", "1", "--save", "other")
    case.write(folder)
    heading = CrossHeading(case.size, len(case.plan.rows), case.samples, case.plan.rule, case.seed, seed, case.epochs, 1)
    text = cross_text(heading, lambda *place: copies_fields(lambda b: case.at(b % 64, case.epochs, b // 64),
                                                            lambda b: other.at(b % 64, 1, b // 64), *place))
    same(f"{case.name}: cross of two seeds", ran(program, folder, "cross", "run.toml", "own", str(seed), "other"), text.encode())


def plain(program, folder):
    for words in (["4", "3", "7", "0", "100000000", "900000000", "2147483648", "3300000000", "4200000000", "4294967296"],
                  ["6", "2", "9223372036854775807", "1", "2", "3", "2147483648", "4294967293", "4294967294", "4294967295"]):
        text = rule.plain_text(rule.command_of([b"plain"] + [it.encode() for it in words]))
        same("plain " + " ".join(words[:3]), ran(program, folder, "plain", *words), text.encode())


def main(words):
    if words == ["--help"]:
        print(__doc__)
        return
    if len(words) != 1:
        sys.exit("against_program: one word is wanted, the path of the program")
    program = str(Path(words[0]).resolve())
    cases = [Case("heat bath", 4, "heat", 2, "random", 64, 2, 1, "random"),
             Case("Metropolis", 4, "metropolis", 3, "random", 3, 2, 2, "random"),
             Case("ferromagnet", 4, "metropolis", 1, "plus", 2, 3, 1, "up"),
             Case("size 6 by heat bath", 6, "heat", 2, "random", 2, 2, 1, "random", 2),
             Case("size 6 by Metropolis", 6, "metropolis", 3, "random", 3, 2, 1, "random"),
             Case("two banks", 4, "metropolis", 2, "random", 70, 2, 1, "random"),
             Case("three banks of a file", 4, "heat", 1, "file:j.bin", 130, 1, 1, "up")]
    with tempfile.TemporaryDirectory() as name:
        plain(program, Path(name))
        for case in cases:
            folder = Path(name) / case.name
            folder.mkdir()
            case.write(folder)
            whole_run(program, folder, case)
        for takes in (1, 2, 4, 5):
            stopped_run(program, Path(name) / "Metropolis", cases[1], takes)
        resumed_run(program, Path(name) / "two banks", cases[5], 1)
        for case in cases:
            measured_run(program, Path(name) / case.name, case, 1)
        for case in cases[3:5]:
            overlaps(program, Path(name) / case.name, case, 2, (0, 3))
        for case in (cases[1], cases[3], cases[5]):
            crossed(program, Path(name) / case.name, case, 0, 1)
        for case in (cases[2], cases[6]):
            crossed_seeds(program, Path(name) / case.name, case, 2 ** 63 - 1)
    print(f"against_program: {len(DONE)} comparisons, each of every byte, agree")


if __name__ == "__main__":
    main(sys.argv[1:])
