"""The self-test of jackknife.py, over reports of the independent program in tools/reference."""
import io
import math
import re
import statistics
import sys
import tempfile
from pathlib import Path

from analyse_test import HOTTER_FIRST, SIZE, SLOTS, Caller
from lines_report_test import text_of_lines
from make_tables import Checks, outcome
from reference.demo import demo_rows
from reference.grid import Tempering

VOLUME = SIZE ** 3
SAMPLES = 5
# The sums of HOTTER_FIRST, worked out by hand.
SUMS_BY_HAND = """average 1 size=4 slots=2 samples=1 blocks=1 rows=4
sum,0,2,768,8192,33554432
without,0,0,0,0,0,0
sum,1,2,-768,8192,33554432
without,1,0,0,0,0,0
end
"""


def glass_report(epochs, seed=20240611):
    """A report of a small glass, and its rows as (epoch, sample, slot, E0, E1, q)."""
    tables, swaps = demo_rows(SLOTS)
    samples = [Tempering(SIZE, "metropolis", tables, swaps, 1, seed, b, "random", b) for b in range(SAMPLES)]
    lines = [f"glass 1 size={SIZE} slots={SLOTS} samples={SAMPLES} rule=metropolis from=0 to={epochs}"]
    rows = []
    for epoch in range(epochs):
        for b, taken in enumerate([sample.step() for sample in samples]):
            for t in range(SLOTS):
                lines.append(f"row,{epoch},{b},{t}," + ",".join(map(str, taken[t])))
                rows.append((epoch, b, t, *taken[t][:3]))
    return text_of_lines(lines + [f"end,{epochs}"]), rows


def sums_text(rows, blocks):
    """The sums as their format describes them, each taken over the list of rows."""
    def sums(chosen):
        return f"{len(chosen)},{sum(r[3] + r[4] for r in chosen)},{sum(r[5] ** 2 for r in chosen)},{sum(r[5] ** 4 for r in chosen)}"

    lines = [f"average 1 size={SIZE} slots={SLOTS} samples={SAMPLES} blocks={blocks} rows={len(rows)}"]
    for t in range(SLOTS):
        own = [r for r in rows if r[2] == t]
        lines.append(f"sum,{t},{sums(own)}")
        lines += [f"without,{t},{k},{sums([r for r in own if r[1] * blocks // SAMPLES != k])}" for k in range(blocks)]
    return text_of_lines(lines + ["end"])


def check_agreement(checks, caller, report, rows):
    """From the sums and from the report come the same bytes."""
    for skip in (0, 4):
        for blocks in range(1, SAMPLES + 1):
            sums = caller.call([sums_text([r for r in rows if r[0] >= skip], blocks)])
            whole = caller.call([report], "--blocks", str(blocks), "--skip", str(skip))
            checks.same(f"{blocks} blocks from epoch {skip} on", sums, whole)
            checks.same("status", (sums[0], sums[2]), (0, ""))


def check_values(checks, caller, report, rows):
    """With a block a sample the error of a mean is the standard error of the samples' means."""
    out = caller.call([report], "--blocks", str(SAMPLES))[1].splitlines()
    checks.same("five blocks are few", out[-1],
                "errors are over 5 blocks, and are themselves uncertain by 35%: take 16 or more for a result")
    for t in range(SLOTS):
        printed = [float(text) for text in out[2 + t].split()[1:]]
        own = [r for r in rows if r[2] == t]
        overlaps = [r[5] / VOLUME for r in own]
        square, fourth = (statistics.mean(q ** power for q in overlaps) for power in (2, 4))
        means = [[statistics.mean(taken(r) for r in own if r[1] == b) for b in range(SAMPLES)] for taken in
                 (lambda r: (r[3] + r[4]) / 2 / VOLUME, lambda r: (r[5] / VOLUME) ** 2, lambda r: (r[5] / VOLUME) ** 4)]
        wanted = [value for list_of in means for value in
                  (statistics.mean(list_of), statistics.stdev(list_of) / math.sqrt(SAMPLES))]
        left_out = [[(r[5] / VOLUME) ** 2 for r in own if r[1] != b] for b in range(SAMPLES)]
        binders = [(3 - statistics.mean(x * x for x in part) / statistics.mean(part) ** 2) / 2 for part in left_out]
        error = math.sqrt((SAMPLES - 1) * statistics.pvariance(binders))
        wanted += [(3 - fourth / square ** 2) / 2, error]
        for value, got in zip(wanted, printed):
            checks.same(f"slot {t}, {got}", abs(value - got) < 0.6e-6, True)
        checks.same(f"slot {t}: values", len(printed), len(wanted))


def check_several(checks, caller):
    """Of several files the error of the energy is the standard error of the files' means."""
    reports = [glass_report(8, seed) for seed in (1, 2, 3)]
    texts = [text for text, _ in reports]
    out = caller.call(texts)[1].splitlines()
    checks.same("first line", out[0], f"size {SIZE}, slots {SLOTS}, samples {3 * SAMPLES}, blocks 3, rows {3 * len(reports[0][1])}")
    for t in range(SLOTS):
        means = [statistics.mean((r[3] + r[4]) / 2 / VOLUME for r in rows if r[2] == t) for _, rows in reports]
        printed = [float(text) for text in out[2 + t].split()[1:3]]
        for value, got in zip((statistics.mean(means), statistics.stdev(means) / math.sqrt(3)), printed):
            checks.same(f"slot {t}, {got} of three", abs(value - got) < 0.6e-6, True)
    sums = [sums_text(rows, blocks) for (_, rows), blocks in zip(reports, (1, 2, 5))]
    checks.same("three sums", caller.call(sums), caller.call(texts))
    checks.same("sums and reports", caller.call(sums[:1] + texts[1:]), caller.call(texts))
    # As many rows, but by the other rule, or of the same epoch where each second one is recorded.
    heat = texts[1].replace("metropolis", "heat")
    sparse = text_of_lines(line for line in texts[1].splitlines() if not re.match("row,[0246],", line))
    for several, words in ((texts[:2] + texts[:1], []), (texts, ["--blocks", "3"]), ([texts[0], glass_report(7, 4)[0]], []),
                           ([texts[0], heat], []), ([sums[0], heat, texts[2]], []), ([texts[0], sparse], ["--skip", "7"])):
        status, out, err = caller.call(several, *words)
        checks.same(f"{words} of several is refused", (status, out, err.count("\n"), err[:11]), (2, "", 1, "jackknife: "))


def check_refusals(checks, caller, report, sums):
    lines = sums.splitlines()
    for n in range(len(lines)):
        for damaged in (lines[:n] + lines[n + 1:], lines[:n + 1] + lines[n:], lines[:n] + [" " + lines[n]] + lines[n + 1:],
                        lines[:n]):
            status, out, err = caller.call([text_of_lines(damaged)])
            checks.same(f"damage at line {n + 1}", (status, out, err.count("\n"), err[:11]), (2, "", 1, "jackknife: "))
    row = lines[2].split(",")
    for field in range(3, 7):
        other = ",".join(row[:field] + [str(int(row[field]) + 1)] + row[field + 1:])
        status, out, err = caller.call([text_of_lines(lines[:2] + [other] + lines[3:])])
        checks.same(f"field {field} changed", (status, out, "don't make up" in err), (2, "", True))
    for text, words in ((report, []), (report, ["--blocks", "0"]), (report, ["--blocks", "6"]), (report, ["--blocks", "257"]),
                        (report, ["--blocks", "x"]), (report, ["--blocks", "2", "--skip", "99"]), (sums, ["--blocks", "2"]),
                        (sums, ["--skip", "1"]), (sums, ["--betas", "1"]), (sums, ["none/such.txt"]), ("", [])):
        status, out, err = caller.call([text], *words)
        checks.same(f"{words} is refused in a line", (status, out, err.count("\n"), err[:11]), (2, "", 1, "jackknife: "))


def self_test(main):
    checks = Checks("jackknife")
    with tempfile.TemporaryDirectory() as folder:
        caller = Caller(main, Path(folder))
        wanted = [["0", "3.000000", "-", "1.000000", "-", "1.000000", "-", "1.000000", "-"],
                  ["1", "-3.000000", "-", "1.000000", "-", "1.000000", "-", "1.000000", "-"]]
        for text, words in ((SUMS_BY_HAND, []), (HOTTER_FIRST, ["--blocks", "1"])):
            out = caller.call([text], *words)[1].splitlines()
            checks.same("two slots", [line.split() for line in out[2:]], wanted)
        report, rows = glass_report(8)
        check_agreement(checks, caller, report, rows)
        check_values(checks, caller, report, rows)
        check_several(checks, caller)
        check_refusals(checks, caller, report, sums_text(rows, 2))
        stdin, sys.stdin = sys.stdin, io.TextIOWrapper(io.BufferedReader(io.BytesIO(SUMS_BY_HAND.encode())))
        piped = outcome([], main)
        sys.stdin = stdin
        checks.same("a pipe", piped, caller.call([SUMS_BY_HAND]))
    return checks.end()
