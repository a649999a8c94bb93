"""The self-test of make_tables.py."""
import math
import tempfile
from fractions import Fraction
from pathlib import Path

from make_tables import (SCALE, Checks, boltzmann_threshold, outcome, rule_record, swap_entry, swap_record, text_of)


def bounds(exponent):
    """Two fractions with exp(-exponent) between them, by Taylor's series of exp(-y) for y below 1.

    The terms fall and alternate in sign, so two neighbouring partial sums enclose the value, and so
    do their powers.
    """
    powers = int(exponent) + 1
    y = exponent / powers
    term, total, sums = Fraction(1), Fraction(1), []
    for n in range(1, 42):
        term *= -y / n
        total += term
        sums.append(total)
    grid = 2 ** 200
    low, high = sorted(sums[-2:])
    low, high = Fraction(int(low * grid), grid), Fraction(int(high * grid) + 1, grid)
    return low ** powers, high ** powers


def rounded(value):
    return int(value + Fraction(1, 2))


def enclosed(exponent, probability):
    """The nearest whole number to 2^32 probability(exp(-exponent)), known where both bounds agree."""
    ends = {rounded(SCALE * probability(end)) for end in bounds(exponent)}
    return ends.pop() if len(ends) == 1 else None


def self_test():
    checks = Checks("make_tables")
    # exp(-1), exp(-2), exp(-3) and exp(-4) to 20 places, from tables of mathematical functions.
    known = ("0.36787944117144232160", "0.13533528323661269189", "0.04978706836786394298", "0.01831563888873418029")
    powers = [rounded(SCALE * Fraction(text)) for text in known]
    checks.same("Metropolis at 1/4", rule_record("metropolis", Fraction(1, 4)), powers[:3])
    checks.same("swap entries at 1/4", [swap_entry(Fraction(1, 4), j) for j in range(4)], powers)
    betas = [Fraction(text) for text in ("0.3", "0.22165463", "0.2", "0.1", "3", "1e-3", "0.000031", "1.4426950408889634")]
    for beta in betas:
        wanted = [enclosed(beta * energy, lambda e: e) for energy in (4, 8, 12)]
        checks.same(f"Metropolis at {beta}", rule_record("metropolis", beta), wanted)
        down = [enclosed(2 * beta * field, lambda e: e / (1 + e)) for field in (6, 4, 2)]
        up = [enclosed(2 * beta * field, lambda e: 1 / (1 + e)) for field in (2, 4, 6)]
        checks.same(f"heat bath at {beta}", rule_record("heat", beta), down + [SCALE // 2] + up)
        for j in (j for j in (0, 1, 2, 17, 56, 57, 263, 264, 4095) if beta * (j + 1) < 8):
            checks.same(f"entry {j} at {beta}", swap_entry(beta, j), enclosed(4 * beta * (j + 1), lambda e: e))
    # 2^32 exp(-x) passes 1/2 at x = 33 ln 2 = 22.8738..: before it an entry is 1, after it 0.
    checks.same("last entry", [boltzmann_threshold(Fraction(text)) for text in ("22.8738", "22.8739", "23", "23.1")],
                [1, 0, 0, 0])
    checks.same("no matter how cold", rule_record("heat", Fraction(10) ** 99), [0, 0, 0, SCALE // 2] + [SCALE] * 3)
    checks.same("no matter how hot", rule_record("metropolis", Fraction(1, 10 ** 99)), [SCALE] * 3)
    checks.same("a record ends before its first 0", len(swap_record(Fraction(1, 10), None)[0]), 57)
    checks.same("a record has an entry", swap_record(Fraction(100), None), ([0], False))
    checks.same("entries of size 4", len(swap_record(Fraction("0.001"), 4)[0]), 96)
    for text, cut in (("0.00139577", False), ("0.00139576", True)):
        entries, was_cut = swap_record(Fraction(text), None)
        checks.same(f"4096 entries at {text}", (len(entries), entries[-1], was_cut), (4096, 1, cut))
    with tempfile.TemporaryDirectory() as folder:
        test_calls(checks, Path(folder))
    example = Path(__file__).resolve().parent.parent / "examples" / "ising_4"
    if example.is_dir():
        betas = [Fraction(text) for text in ("0.3", "0.22165463", "0.2", "0.1")]
        checks.same("rules.csv of ising_4", (example / "rules.csv").read_bytes().decode(),
                    text_of(rule_record("heat", beta) for beta in betas))
        checks.same("swaps.csv of ising_4", (example / "swaps.csv").read_bytes().decode(),
                    text_of(swap_record(betas[k] - betas[k + 1], None)[0] for k in range(3)))
    return checks.end()


def test_calls(checks, folder):
    rules, swaps = folder / "rules.csv", folder / "swaps.csv"
    files = ["--rules", str(rules), "--swaps", str(swaps)]
    refused = [(["heat", "--betas", *words.split()]) for words in
               ("0", "-1", "nan", "inf", "1e999", "0x1", "1_0", "", "0.1 0.2", "0.2 0.20", "1 0.5 0", "0.3 ,0.2", "-inf")]
    refused += [["heat", "--temperatures", *words.split()] for words in
                ("2 1", "1 1.0", "0", "1 nan", " ".join(map(str, range(1, 34))))]
    refused += [[], ["heat"], ["glauber", "--betas", "1"], ["heat", "--betas", "1", "--temperatures", "1"],
                ["heat", "--betas", "1", "--size", "5"], ["heat", "--betas", "1", "--size", "66"], ["heat", "--betas", ""],
                ["heat", "--betas", "1\n"], ["heat", "--betas", "9" * 41]]
    refused += [["heat", "--range", *words.split()] for words in
                ("1 2", "2 1 --slots 4", "0 1 --slots 4", "1 x --slots 4", "1 2 --slots 1", "1 2 --slots 33", "1 nan --slots 2",
                 "1 2 --slots 4 --acceptance", "0.1 2 --slots 4 --size 8 --acceptance", "1 2 --slots 3 --size 7 --acceptance",
                 "1 2 --slots 4 --size 8 --acceptance none/such", "1 2 --slots 4 --size 8 --acceptance /dev/zero",
                 "1 2 --slots 3 --betas 1", "1 1.00001 --slots 9")]
    refused += [["--range", "1", "2", "--slots", "3"], ["--range", "1", "2", "--slots", "3", "--size", "8", "--acceptance"]]
    refused += [["heat", "--betas", "1", "--slots", "1"], ["heat", "--betas", "1", "--acceptance"]]
    for words in refused:
        status, out, err = outcome(words + files)
        checks.same(f"{words} is refused in a line", (status, out, err[:13], err.count("\n"), err[-1:]),
                    (2, "", "make_tables: ", 1, "\n"))
    checks.same("nothing was written", list(folder.iterdir()), [])
    status, out, err = outcome(["heat", "--betas", "0.1", *files])
    checks.same("one slot", (status, err, swaps.read_bytes(), rules.read_bytes().count(b"\n")), (0, "", b"", 1))
    test_exact(checks, rules, swaps, files)
    checks.same("inverse temperatures and temperatures",
                [outcome(["metropolis", *words, *files])[0] or (rules.read_bytes(), swaps.read_bytes())
                 for words in (["--betas", "2", "0.5"], ["--temperatures", ".5", "2e0"])],
                [(text_of([rule_record("metropolis", Fraction(2)), rule_record("metropolis", Fraction(1, 2))]).encode(),
                  text_of([swap_record(Fraction(3, 2), None)[0]]).encode())] * 2)
    test_ranges(checks, folder, files)
    status, out, err = outcome(["heat", "--betas", "0.101", "0.1", *files])
    checks.same("a warning", (status, err.count("\n"), "pair 0 is cut at 4096 entries" in err), (0, 1, True))
    checks.same("no warning at size 4", outcome(["heat", "--betas", "0.101", "0.1", "--size", "4", *files])[2], "")
    test_one_file(checks, folder, rules, swaps)


def test_one_file(checks, folder, rules, swaps):
    """Both tables in one file, by two names of it, and a folder that isn't there."""
    once = rules.read_bytes()
    twice = ["--rules", str(rules), "--swaps", f"{folder}/./rules.csv"]
    checks.same("both tables in one file", outcome(["heat", "--betas", "1", "0.5", *twice]),
                (2, "", f"make_tables: both tables would go to one file: {rules}\n"))
    checks.same("which is as it was", rules.read_bytes(), once)
    for words in (["--betas", "1"], ["--range", "1", "2", "--slots", "3"]):
        status, out, err = outcome(["heat", *words, "--rules", str(folder / "none" / "rules.csv")])
        checks.same("a folder that isn't there", (status, out, err.count("\n")), (2, "", 1))


def test_ranges(checks, folder, files):
    out = outcome(["heat", "--range", "1", "16", "--slots", "5", *files])[1]
    checks.same("geometric steps", out.splitlines()[0], "temperatures: 1 2 4 8 16")
    # With e = -beta the exchange of neighbours is equally probable where they are even in beta.
    (folder / "energies.csv").write_text("".join(f"{t / 10},{-10 / t}\n" for t in range(5, 60)))
    words = ["heat", "--range", "1", "4", "--slots", "4", "--size", "4", "--acceptance", str(folder / "energies.csv")]
    out = outcome(words + files)[1].splitlines()
    # dbeta = 1/4 and V = 64: erfc(sqrt(4) / 2).
    checks.same("even acceptance", out[:2], ["temperatures: 1 1.33333 2 4", "acceptance of exchanges, estimated: 0.16 to 0.16"])
    # dbeta = 1/4 and V = 512: erfc(sqrt(32) / 2).
    words[words.index("--size") + 1] = "8"
    checks.same("acceptance below a hundredth", outcome(words + files)[1].splitlines()[1],
                "acceptance of exchanges, estimated: 6e-05 to 6e-05")
    out = outcome(["metropolis", "--range", "1.1", "3", "--slots", "12", "--size", "8", "--acceptance", *files])[1]
    checks.same("of the glass", (out.count("\n"), out[:18]), (4, "temperatures: 1.1 "))


def test_exact(checks, rules, swaps, files):
    """Thresholds and entries as fractions of whole numbers, beside the exponentials at the temperatures that are told."""
    status, out, err = outcome(["metropolis", "--temperatures", "0.7", "1.1", "2", "9", "--exact", *files])
    lines = out.splitlines()
    checks.same("the ratios", (status, err, lines[1]), (0, "", "exp(-4 / T) in parts of 1024: 3 27 139 657"))
    temperatures = [float(text) for text in lines[0].split(": ")[1].split()]
    for temperature, ratio, line in zip(temperatures, (3, 27, 139, 657), rules.read_text().splitlines()):
        record = [int(field) for field in line.split(",")]
        checks.same(f"whole thresholds of {ratio}", record, [Fraction(SCALE * ratio ** k, 1024 ** k) for k in (1, 2, 3)])
        wanted = [SCALE * math.exp(-4 * k / temperature) for k in (1, 2, 3)]
        checks.same(f"those of T = {temperature}", [abs(a / b - 1) < 1e-3 for a, b in zip(record, wanted)], [True] * 3)
    for colder, hotter, line in zip((3, 27, 139), (27, 139, 657), swaps.read_text().splitlines()):
        record = [int(field) for field in line.split(",")]
        checks.same(f"entries of {colder} and {hotter}", record,
                    [rounded(SCALE * Fraction(colder, hotter) ** (m + 1)) for m in range(len(record))])
        checks.same("their end", rounded(SCALE * Fraction(colder, hotter) ** (len(record) + 1)), 0)
    for words in (["heat", "--temperatures", "1"], ["metropolis", "--temperatures", "0.5", "1"],
                  ["metropolis", "--temperatures", "1.1", "1.101"]):
        status, out, err = outcome([*words, "--exact", *files])
        checks.same(f"{words} has no exact table", (status, out, err.count("\n")), (2, "", 1))
    # 2^32 exp(-12 / T) is 8.8527 at T = 0.6 and far below 1/2 at 0.3; of the heat bath nearly the same.
    for words, told in ((["metropolis", "--temperatures", "0.6", "1.1"], "slot 0 are rounded by up to 0.017 of"),
                        (["heat", "--temperatures", "0.6", "1.1"], "slot 0 are rounded by up to 0.017 of"),
                        (["metropolis", "--temperatures", "0.3", "0.6"], "slots 0, 1 are rounded by up to 1 of"),
                        (["metropolis", "--temperatures", "0.7", "2"], "")):
        status, out, err = outcome([*words, *files])
        checks.same(f"rounding of {words}", (status, told in err, err.count("\n")), (0, True, 1 if told else 0))
