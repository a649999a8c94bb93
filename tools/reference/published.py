#!/usr/bin/env python3
"""Makes digests and words that tests, examples and pages publish, by the definitions alone, and looks for each of them in
the files that publish it.

    python3 tools/reference/published.py            the short ones, some seconds
    python3 tools/reference/published.py sixteen    one by its name; README.md says how long each takes

Status 1 where a file has another value."""
import re
import sys
from functools import lru_cache
from hashlib import sha256
from pathlib import Path

ROOT = Path(__file__).resolve().parents[2]
sys.path.insert(0, str(ROOT / "tools"))
sys.dont_write_bytecode = True
import reference.definitions as rule  # noqa: E402
from reference.grid import Tempering  # noqa: E402
from reference.samples import digest_of_rows, glass_sample, sixteen_temperatures  # noqa: E402

FULL = 2 ** 32
UP, DOWN, BOARD = (0,) * 6 + (FULL,), (0,) * 7, (FULL,) * 3 + (0,) * 4


def ferromagnet(rows, swaps, seed=7):
    return rule.Plan(4, "heat", tuple(rows), tuple(map(tuple, swaps)), rule.couplings_view(4, {}), 1, seed)


def glass(size, slots, sweeps, seed):
    rows, swaps = rule.demo_rows(slots)
    signs = {b: rule.random(seed, b) for b in range(64)}
    return rule.Plan(size, "metropolis", tuple(rows), tuple(swaps), rule.couplings_view(size, signs), sweeps, seed)


def long_glass_8():
    """The plan of examples/glass_8: its records go on to the greatest gap of size 8, or to their last entry above 0."""
    plan, swaps = glass(8, 16, 2, 20240611), []
    for record in plan.swaps:
        entries = list(record)
        while len(entries) < 3 * 8 ** 3 // 2 and entries[-1] * record[0] // FULL > 0:
            entries.append(entries[-1] * record[0] // FULL)
        swaps.append(tuple(entries))
    return plan._replace(swaps=tuple(swaps))


def plan_digest(plan):
    return sha256(rule.canonical(plan)).hexdigest()


def level_bytes(epoch):
    """The checkpoint of two slots whose only swap is at epoch 0."""
    plan = ferromagnet([BOARD, UP], [[FULL]])
    states = [rule.serial(plan, rule.opening(plan, "up", 0, b), epoch) for b in range(64)]
    return rule.encoding(plan, states.__getitem__)


def level_digest(epoch):
    return level_bytes(epoch)[-32:].hex()


def damaged_digest():
    """What the one at epoch 1 should end with once the lowest bit of its first generator word is changed."""
    body = bytearray(level_bytes(1)[:-32])
    body[123] ^= 1
    return sha256(body).hexdigest()


def last_bytes_of_65(negative=()):
    """Those of the checkpoint of 65 samples of one slot after an epoch; all bonds of some samples are negative."""
    banks = []
    for g in range(2):
        signs = rule.of_bank(lambda b: lambda n: b in negative, g)
        plan = rule.Plan(4, "heat", (UP,), (), rule.couplings_view(4, signs), 1, 7)
        banks.append(rule.Bank(plan, lambda b, plan=plan, g=g: rule.opening(plan, "up", g, b)))
    return rule.banks_checkpoint(banks, 1)[-32:].hex()


@lru_cache(maxsize=None)
def random_banks():
    """130 samples of three slots with random couplings and a random start, over two epochs: report and checkpoint."""
    rows, seed = tuple(rule.demo_rows(3)[0]), 611
    swaps = ((3149642683, 2309737966, 1693807841), (3435973836, 2748779069))
    banks = []
    for g in range(3):
        signs = rule.of_bank(lambda b: rule.random(seed, b), g)
        plan = rule.Plan(4, "metropolis", rows, swaps, rule.couplings_view(4, signs), 1, seed)
        banks.append(rule.Bank(plan, [rule.opening(plan, "random", g, b) for b in range(64)].__getitem__))
    return rule.banks_report(banks, 130, 1, False, 2), rule.banks_checkpoint(banks, 2)


def damaged_in_a_spin_word():
    """What the same should end with once the last sample of one of its spin words is changed."""
    body = bytearray(level_bytes(1)[:-32])
    body[400] ^= 1
    return sha256(body).hexdigest()


def greatest_plan_digest():
    """That of the smallest plan with the greatest size in place of its own."""
    return plan_digest(rule.Plan(64, "heat", (DOWN,), (), rule.couplings_view(64, {}), 1, 7))


def digest_of_text(text):
    return sha256(text.encode()).hexdigest()


def sixteen_text(first, last, *epochs):
    """The SHA-256 of a report of the sixteen temperatures from an epoch to another with the rows of some epochs."""
    rows = "".join(sixteen_temperatures().rows[epoch] for epoch in epochs)
    return digest_of_text(f"glass 1 size=8 slots=16 samples=64 rule=metropolis from={first} to={last}\n{rows}end,{last}\n")


def sixteen_checkpoint(epoch):
    return rule.encoding(glass(8, 16, 2, 20240611), sixteen_temperatures().states[epoch].__getitem__)[-32:].hex()


def rows_alone(size, kind, seed):
    """The digest of the rows of four samples of a run, each by itself."""
    samples = (0, 31, 32, 63)
    return digest_of_rows([glass_sample(size, kind, 2, seed, b) for b in samples], samples, 4, 2)


def rows_of_banks(sweeps, samples):
    """The digest of the rows of the samples below one, over three epochs."""
    below = range(samples)
    return digest_of_rows([glass_sample(4, "metropolis", sweeps, 611, b) for b in below], below, 3, 1)


def rows_of_second_bank():
    """The digest of the rows of samples 64 and 127 at sixteen temperatures."""
    rows, swaps = rule.demo_rows(16)
    own = [Tempering(8, "metropolis", rows, swaps, 2, 20240611, b, "random", b % 64, 1) for b in (64, 127)]
    return digest_of_rows(own, (64, 127), 20, 10)


CASES = "tests/cases/"
BANKS, ALONE, RESUMING = CASES + "banks.toml", CASES + "banks_alone.toml", CASES + "resuming.toml"
SIXTEEN, READING = CASES + "sixteen_temperatures.toml", CASES + "reading_checkpoints.toml"
SHORT = {
    "smallest_plan": (lambda: plan_digest(ferromagnet([DOWN], [])),
                      [CASES + "check.toml", CASES + "couplings.toml", CASES + "reading_run_files.toml"]),
    "two_slots_plan": (lambda: plan_digest(ferromagnet([BOARD, UP], [[FULL]])),
                       [READING, RESUMING]),
    "other_seed_plan": (lambda: plan_digest(ferromagnet([BOARD, UP], [[FULL]], 8)), [RESUMING]),
    "level_at_1": (lambda: level_digest(1), [RESUMING, CASES + "damage.toml", READING]),
    "damaged_at_1": (damaged_digest, [RESUMING]),
    "damaged_spins_at_1": (damaged_in_a_spin_word, [CASES + "damage.toml"]),
    "greatest_plan": (greatest_plan_digest, [CASES + "check.toml"]),
    "level_at_2": (lambda: level_digest(2), [RESUMING]),
    "glass_8_plan": (lambda: plan_digest(glass(8, 16, 2, 20240611)),
                     [SIXTEEN]),
    "long_glass_8_plan": (lambda: plan_digest(long_glass_8()), ["examples/glass_8/README.md"]),
    "one_slot_plan": (lambda: plan_digest(ferromagnet([UP], [])), [READING]),
    "many_entries_plan": (lambda: plan_digest(ferromagnet([BOARD, UP], [[FULL] * 96])), ["tools/reference/compare_sums.py"]),
    "one_slot_glass_plan": (lambda: plan_digest(glass(4, 1, 1, 7)), ["tools/reference/compare_sums.py"]),
    "two_banks_plan": (lambda: rule.banks_digest([ferromagnet([UP], [])] * 2).hex(), [BANKS]),
    "two_banks_at_1": (last_bytes_of_65, [BANKS, READING]),
    "two_banks_of_a_file_at_1": (lambda: last_bytes_of_65((64,)), [BANKS]),
    "three_banks_report": (lambda: sha256(random_banks()[0].encode()).hexdigest(), [ALONE]),
    "three_banks_at_2": (lambda: random_banks()[1][-32:].hex(), [ALONE]),
}
LONG = {
    "sixteen": (lambda: sixteen_text(0, 20, 9, 19), [SIXTEEN, "examples/glass_8/README.md"]),
    "sixteen_to_10": (lambda: sixteen_text(0, 10, 9), [SIXTEEN]),
    "sixteen_from_10": (lambda: sixteen_text(10, 20, 19), [SIXTEEN]),
    "sixteen_at_10": (lambda: sixteen_checkpoint(10), [SIXTEEN]),
    "sixteen_at_20": (lambda: sixteen_checkpoint(20), [SIXTEEN]),
    "second_bank": (rows_of_second_bank, [ALONE]),
    "four_banks": (lambda: rows_of_banks(2, 256), [ALONE]),
    "first_64": (lambda: rows_of_banks(1, 64), [ALONE]),
    **{f"alone_{size}_{kind}_{seed}": (lambda how=(size, kind, seed): rows_alone(*how), [CASES + "samples_alone.toml"])
       for size in (4, 6, 8, 16) for kind in ("heat", "metropolis") for seed in range(611, 616)},
}


def stands_in(value, text):
    """Whether a file has a digest, in one piece or byte by byte."""
    return value in text or value in "".join(re.findall(r"0x([0-9a-f]{2})\b", text))


def main(words):
    if words == ["--help"]:
        print(__doc__)
        return 0
    known = {**SHORT, **LONG}
    if set(words) - set(known):
        sys.exit(f"published: the names are {', '.join(known)}")
    wrong = 0
    for name in words or SHORT:
        make, files = known[name]
        value = make()
        print(f"{name} {value}", flush=True)
        for file in files:
            if not stands_in(value, (ROOT / file).read_text(encoding="utf-8")):
                print(f"published: {file} has another value", file=sys.stderr)
                wrong = 1
    return wrong


if __name__ == "__main__":
    sys.exit(main(sys.argv[1:]))
