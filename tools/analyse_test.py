"""The self-test of analyse.py, over reports of the independent program in tools/reference, and of lines_report.py."""
import io
import math
import statistics
import sys
import tempfile
import xml.etree.ElementTree as ElementTree
from pathlib import Path

from lines_report_test import check_lines, text_of_lines
from make_tables import Checks, outcome
from reference.demo import demo_rows
from reference.grid import Tempering, hex_of

SIZE, SLOTS, SAMPLES = 4, 3, 2
HOTTER_FIRST = """glass 1 size=4 slots=2 samples=1 rule=heat from=0 to=2
row,0,0,0,192,192,64,0,0
row,0,0,1,-192,-192,64,1,1
row,1,0,0,192,192,64,1,1
row,1,0,1,-192,-192,64,0,0
end,2
"""


def true_report(seed, epochs, every, spins):
    """A report of a small glass, and its records by epoch, sample and slot."""
    rows, swaps = demo_rows(SLOTS)
    samples = [Tempering(SIZE, "metropolis", rows, swaps, 1, seed, b, "random", b) for b in range(SAMPLES)]
    lines = [f"glass 1 size={SIZE} slots={SLOTS} samples={SAMPLES} rule=metropolis from=0 to={epochs}"]
    records = {}
    for epoch in range(epochs):
        taken = [sample.step() for sample in samples]
        if epoch % every == every - 1:
            records[epoch] = taken
            lines += [f"row,{epoch},{b},{t}," + ",".join(map(str, taken[b][t])) for b in range(SAMPLES) for t in range(SLOTS)]
    lines.append(f"end,{epochs}")
    if spins:
        lines += [f"spin,{b},{t},{c},{hex_of(samples[b].slots[t][c], SIZE)}"
                  for b in range(SAMPLES) for t in range(SLOTS) for c in range(2)]
    return lines, records


class Caller:
    """Calls analyse on texts, which it writes into a folder."""

    def __init__(self, main, folder):
        self.main, self.folder = main, folder

    def call(self, texts, *words):
        names = []
        for n, text in enumerate(texts):
            name = self.folder / f"report_{n}.txt"
            name.write_bytes(text.encode("latin-1"))
            names.append(str(name))
        return outcome([*names, *words], self.main)

    def refused_line(self, text, *words):
        """The line number of the refusal, or the whole outcome where it is none."""
        status, out, err = self.call([text], *words)
        parts = err.split(":")[1].split("line ") if err.count("\n") == 1 else []
        return int(parts[1]) if (status, out, len(parts)) == (2, "", 2) else (status, out, err)


def check_means(checks, call, records, reports, skip, words):
    """The printed means against those of the records, taken one by one."""
    status, out, err = call(reports, "--skip", str(skip), *words)
    checks.same("status", (status, err), (0, ""))
    volume = SIZE ** 3
    taken = [(e, table) for record in records for e, table in record.items() if e >= skip]
    for slot in range(SLOTS):
        printed = out.splitlines()[2 + slot].split()[-8:]
        wanted = []
        for replica in range(2):
            means = [statistics.mean(table[b][slot][replica] / volume for e, table in record.items() if e >= skip)
                     for record in records for b in range(SAMPLES)]
            wanted += [statistics.mean(means), statistics.stdev(means)]
        overlaps = [table[b][slot][2] / volume for _, table in taken for b in range(SAMPLES)]
        square, fourth = (statistics.mean(q ** power for q in overlaps) for power in (2, 4))
        wanted += [square, fourth, (3 - fourth / square ** 2) / 2]
        for value, text in zip(wanted, printed):
            checks.same(f"slot {slot}, {text}", abs(value - float(text)) < 0.6 * 10.0 ** -len(text.split(".")[1]), True)
        checks.same(f"slot {slot}, exchanges", printed[7], acceptance(records, slot, skip))
    return out


def acceptance(records, slot, skip):
    tried = made = 0
    for record in records:
        for e in record:
            if e >= skip and e + 1 in record and slot % 2 == e % 2 and slot + 1 < SLOTS:
                for b in range(SAMPLES):
                    for replica in (3, 4):
                        tried += 1
                        made += record[e + 1][b][slot][replica] != record[e][b][slot][replica]
    return f"{made / tried:.4f}" if tried else "-"


def check_damage(checks, caller, lines):
    end = lines.index("end,8")
    checks.same("the whole report", caller.call([text_of_lines(lines)])[0], 0)
    for n in range(len(lines)):
        checks.same(f"line {n + 1} left out", caller.refused_line(text_of_lines(lines[:n] + lines[n + 1:])), n + 1)
        checks.same(f"line {n + 1} twice", caller.refused_line(text_of_lines(lines[:n + 1] + lines[n:])), n + 2)
        blank = lines[:n] + [" " + lines[n]] + lines[n + 1:]
        checks.same(f"a blank before line {n + 1}", caller.refused_line(text_of_lines(blank)), n + 1)
        cut = lines[n][:len(lines[n]) // 2]
        checks.same(f"cut in line {n + 1}", caller.refused_line(text_of_lines(lines[:n]) + cut), n + 1)
        if n != end + 1:
            checks.same(f"ends after line {n}", caller.refused_line(text_of_lines(lines[:n])), n + 1)
    first = lines[1].split(",")
    for field, value in enumerate(("rows", "8", "1", "1", "193", "-194", "65", "3", "00")):
        changed = ",".join(first[:field] + [value] + first[field + 1:])
        checks.same(f"{changed} in line 2", caller.refused_line(text_of_lines([lines[0], changed] + lines[2:])), 2)
    later = 1 + 3 * SAMPLES * SLOTS
    row = lines[later].split(",")
    for field, value in ((4, str(int(row[4]) + 2)), (5, str(int(row[5]) - 2))):
        changed = ",".join(row[:field] + [value] + row[field + 1:])
        checks.same("an energy of the other parity",
                    caller.refused_line(text_of_lines(lines[:later] + [changed] + lines[later + 1:])), later + 1)
    # In the second epoch slot 0 has the label of slot 2, which no single exchange brings there.
    block = 1 + SAMPLES * SLOTS
    jumped = [",".join(lines[block + t].split(",")[:7] + [str((t + 2) % 3), lines[block + t].split(",")[8]])
              for t in range(3)]
    got = caller.refused_line(text_of_lines(lines[:block] + jumped + lines[block + 3:]))
    checks.same("a label that jumped", got, block + 1)
    for header in ("", "glass 2" + lines[0][7:], lines[0] + " ", lines[0].replace("size=4", "size=5"),
                   lines[0].replace("slots=3", "slots=33"), lines[0].replace("samples=2", "samples=0"),
                   lines[0].replace("samples=2", "samples=257"),
                   lines[0].replace("from=0", "from=9"), lines[0].replace("metropolis", "glauber")):
        checks.same(f"header {header}", caller.refused_line(text_of_lines([header] + lines[1:])), 1)
    for change in (("spin,", "spins,"), (lines[-1][-16:], lines[-1][-16:].upper() + "0"), (lines[-1][-16:], lines[-1][-15:])):
        changed = lines[-1].replace(*change)
        checks.same(f"last line {changed}", caller.refused_line(text_of_lines(lines[:-1] + [changed])), len(lines))
    checks.same("an empty report", caller.refused_line(""), 1)
    checks.same("Windows line ends", caller.refused_line("\r\n".join(lines)), 1)


def check_sparse(checks, caller, lines):
    """Of the epochs 1, 3, 5 and 7, a whole epoch's rows are left out."""
    block = SAMPLES * SLOTS
    for k, wanted in ((0, 2 + block), (1, 2 + block), (2, 2 + 2 * block), (3, 2 + 3 * block)):
        damaged = lines[:1 + k * block] + lines[1 + (k + 1) * block:]
        checks.same(f"epoch {2 * k + 1} left out", caller.refused_line(text_of_lines(damaged)), wanted)
    checks.same("no epoch", caller.call([text_of_lines([lines[0], "end,8"])])[2].count("has no row"), 1)


def check_several(checks, caller, reports, records):
    exact = ["-1.5", "-1.2", "-1"]
    out = check_means(checks, caller.call, records, reports, 0, ["--exact", *exact])
    for slot in range(SLOTS):
        printed = [float(text) for text in out.splitlines()[3 + SLOTS + slot].split()[1:]]
        means = [statistics.mean(value for table in record.values() for b in range(SAMPLES) for value in table[b][slot][:2])
                 / SIZE ** 3 for record in records]
        mean, error = statistics.mean(means), statistics.stdev(means) / math.sqrt(len(means))
        wanted = [mean, error, float(exact[slot]), mean - float(exact[slot]), (mean - float(exact[slot])) / error]
        checks.same(f"comparison of slot {slot}", [abs(a - b) < 0.006 for a, b in zip(printed, wanted)], [True] * 5)
    checks.same("how many blocks an error has", out.splitlines()[-1].split(" blocks")[0], f"errors are over {len(reports)}")
    refused = {"the same rows": [reports[0], reports[1], reports[0]], "of another run": [reports[0], HOTTER_FIRST]}
    for text, given in refused.items():
        status, out, err = caller.call(given)
        checks.same(text, (status, out, err.count("\n"), text in err), (2, "", 1, True))


def check_words(checks, caller, report):
    for words in (["--betas", "1"], ["--betas", "1", "2", "3"], ["--exact", "1"], ["--exact", "1", "2", "x"],
                  ["--exact", "1", "2", "nan"], ["--skip", "8"], ["--skip"], ["--what"], ["none/such.txt"],
                  ["--plot", str(caller.folder)]):
        status, out, err = caller.call([report], *words)
        checks.same(f"{words} is refused in a line", (status, err.count("\n"), err[:9]), (2, 1, "analyse: "))
    checks.same("a word that is no number", caller.call([report], "--exact", "1", "2", "nan")[2],
                "analyse: an exact energy is no number\n")
    picture = caller.folder / "report.svg"
    status, out, err = caller.call([report], "--plot", str(picture), "--temperatures", "1", "1.5", "2",
                                   "--exact", "-1", "-1", "-1")
    tree = ElementTree.parse(picture).getroot()
    marks = [sum(item.tag.endswith(tag) for item in tree) for tag in ("circle", "polyline")]
    # Circles: two replicas and an exact value a slot. Lines: two curves, a standard deviation each, a walk a label.
    checks.same("the picture", (status, err, tree.tag.endswith("svg"), marks), (0, "", True, [9, 2 + 6 + 3]))
    stdin, sys.stdin = sys.stdin, io.TextIOWrapper(io.BufferedReader(io.BytesIO(report.encode())))
    piped = outcome([], caller.main)
    sys.stdin = stdin
    from_file = caller.call([report])
    checks.same("a pipe", piped[1].splitlines()[1:], from_file[1].splitlines()[1:])
    checks.same("a pipe's name", piped[1].split(":")[0], "standard input")


def self_test(main):
    checks = Checks("analyse")
    with tempfile.TemporaryDirectory() as folder:
        caller = Caller(main, Path(folder))
        status, out, err = caller.call([HOTTER_FIRST])
        checks.same("the hotter slot first", [line.split() for line in out.splitlines()[2:4]],
                    ["0 3.000000 - 3.000000 - 1.000000 1.000000 1.0000 1.0000".split(),
                     "1 -3.000000 - -3.000000 - 1.000000 1.000000 1.0000 -".split()])
        checks.same("the note on samples", "share each random number" in out, True)
        lines, records = true_report(20240611, 8, 1, True)
        for skip in (0, 3, 7):
            check_means(checks, caller.call, [records], [text_of_lines(lines)], skip, [])
        check_damage(checks, caller, lines)
        sparse, taken = true_report(20240611, 8, 2, False)
        check_means(checks, caller.call, [taken], [text_of_lines(sparse)], 2, [])
        check_sparse(checks, caller, sparse)
        runs = [true_report(seed, 8, 1, False) for seed in (1, 2, 3)]
        check_several(checks, caller, [text_of_lines(given) for given, _ in runs], [taken for _, taken in runs])
        check_words(checks, caller, text_of_lines(lines))
        check_lines(checks, caller, text_of_lines(lines))
    return checks.end()
