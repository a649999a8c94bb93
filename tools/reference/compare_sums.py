#!/usr/bin/env python3
"""The sums of `measure`: known values, sums that the program on a grid makes in another way, and the laws that tie the
text to itself, to the rows and to the checkpoints of runs.

    python3 tools/reference/compare_sums.py     six seconds

Status 1 at the first difference, which is told."""
import os
import random as rng
import sys
import tempfile
import time
from collections import Counter
from pathlib import Path

sys.path.insert(0, str(Path(__file__).resolve().parents[1]))
sys.dont_write_bytecode = True
from reference.compare import DONE, same  # noqa: E402
from reference.demo import demo_rows  # noqa: E402
from reference.grid import Tempering  # noqa: E402
from reference.lattice import volume, x_of, y_of, z_of  # noqa: E402
from reference.measure import MeasureOrder, ended, measure_order  # noqa: E402
from reference.bonds import couplings_view  # noqa: E402
from reference.epoch import epoch, serial  # noqa: E402
from reference.measured import (Followed, Heading, Quantity, axis_distances, behind_epoch, bin_of, class_of, face_distances,  # noqa: E402
                                moments, no_sums, observed, run_sums, sums_below, sums_text)
from reference.opening import Plan, opening  # noqa: E402
from reference.planes import Family, axes, axis_correlation, face_correlation, face_diagonals, link_overlap, plane_of, total_overlap  # noqa: E402

FULL = 2 ** 32
ZEROS = "0," * 31
FERROMAGNET = "measure 1 size=4 slots=2 samples=1 rule=heat every={every} from={c} to={e} digest={digest}\n"
# The digest of its plan with one swap entry, and with 96.
ONE_ENTRY = "d9aa15c363f754a61bc0ea79f1bbe78112219581fbe4f49adbdb771408c853e7"
MANY_ENTRIES = "6098f616acddfef6b1312c416fffdeda9a40a18bd930ed4c1af45378f8550250"
# The lines of one bin of the two slots: all spins of a replica point the same way, against every bond or with it.
FOUR_LINES = """sum,0,{slot},{bin},1,{sign}384,73728,36864,192,36864,64,64,4096,16777216,{sign}1572864,{sign}6442450944
hist,0,{slot},{bin},{zeros}1
axis,0,{slot},{bin},3072,3072,3072
face,0,{slot},{bin},6144,6144,6144
"""
GLASS = """measure 1 size=4 slots=1 samples=1 rule=metropolis every=1 from=0 to=4 digest=2c0909e19514a457bcd649ad446ed5d5ca200d286aa6e0b10617bc22b1c8dae3
sum,0,0,0,1,-120,7272,3564,28,784,-10,10,100,10000,-12000,-1200000
hist,0,0,0,0,0,0,0,0,1,0,0,0,0,0,0,0,0,0,0,0,0,0,0,0,0,0,0,0,0,0,0,0,0,0,0
axis,0,0,0,340,40,-120
face,0,0,0,576,-80,184
sum,0,0,1,1,-156,12168,6084,28,784,-14,14,196,38416,-30576,-5992896
hist,0,0,1,0,0,0,0,0,0,0,1,0,0,0,0,0,0,0,0,0,0,0,0,0,0,0,0,0,0,0,0,0,0,0,0
axis,0,0,1,436,112,-72
face,0,0,1,456,256,208
sum,0,0,2,2,-284,21136,9792,40,1600,-20,20,232,39712,-30704,-5119424
hist,0,0,2,0,0,0,1,0,0,0,1,0,0,0,0,0,0,0,0,0,0,0,0,0,0,0,0,0,0,0,0,0,0,0,0
axis,0,0,2,704,96,-200
face,0,0,2,872,208,104
end,4
"""
RUN = """size = {size}
rule = "{rule}"
rules = "rules.csv"
swaps = "swaps.csv"
couplings = "{couplings}"
sweeps = {sweeps}
seed = {seed}
samples = {samples}
epochs = {epochs}
every = {every}
start = "{start}"
spins = false
"""


# ---------------------------------------------------------------- fields


def known_fields():
    """Sums of fields at side 4 that were worked out by hand: the axes, the face diagonals, the links."""
    shapes = {
        "all +1": (lambda x, y, z: False, (3072, 3072, 3072), (6144, 6144, 6144), 192),
        "all -1": (lambda x, y, z: True, (3072, 3072, 3072), (6144, 6144, 6144), 192),
        "-1 where x = 0": (lambda x, y, z: x == 0, (1536, 512, 512), (1536, 1536, 1536), 128),
        "-1 at site 0": (lambda x, y, z: x == y == z == 0, (2892, 2880, 2880), (5784, 5760, 5760), 180),
        "-1 where x is odd": (lambda x, y, z: x % 2 == 1, (1024, -1024, 1024), (0, 0, 0), 64),
        "-1 where x + y is odd": (lambda x, y, z: (x + y) % 2 == 1, (0, 0, 0), (2048, -2048, 2048), -64),
        "-1 where x + y is 0 or 1": (lambda x, y, z: (x + y) % 4 < 2, (0, 0, 0), (1024, 0, -1024), 64),
        "checkerboard": (lambda x, y, z: (x + y + z) % 2 == 1, (0, 0, 0), (0, 0, 0), -192),
    }
    for name, (is_down, axis, face, links) in shapes.items():
        def q(i, is_down=is_down):
            return -1 if is_down(x_of(4, i), y_of(4, i), z_of(4, i)) else 1
        same(f"axes, {name}", tuple(axis_correlation(4, q, r) for r in range(3)), axis)
        same(f"face diagonals, {name}", tuple(face_correlation(4, q, r) for r in range(3)), face)
        same(f"links, {name}", link_overlap(4, q), links)
    same("bins", [bin_of(f) for f in (0, 1, 2, 3, 4, 7, 8, 1023, 1024, 999999999)], [0, 1, 2, 2, 3, 3, 4, 10, 11, 30])
    same("bins of all short epochs", [bin_of(f) for f in range(2000)], [f.bit_length() for f in range(2000)])
    same("classes at side 4", [class_of(4, q) for q in (0, 1, 2, -2, 61, 62, 63, -64)], [0, 0, 1, 1, 30, 31, 31, 31])
    same("classes at side 6", [class_of(6, q) for q in (6, 7, 13, 14, -216)], [0, 1, 1, 2, 31])


def by_pairs(l, values):
    """The same sums over all pairs of sites, each by the distances of its coordinates; and over all bonds."""
    axis, face = [0] * l, [0] * l
    for i, q in enumerate(values):
        x, y, z = i % l, i // l % l, i // l // l
        for k, other in enumerate(values):
            dx, dy, dz, product = k % l - x, k // l % l - y, k // l // l - z, q * other
            for step in (dx, dy, dz):
                axis[step % l] += product
            for step in (dx + dy, dx - dy, dx + dz, dx - dz, dy + dz, dy - dz):
                face[step % l] += product
    links = sum(values[i] * values[(x + 1) % l + l * y + l * l * z] + values[i] * values[x + l * ((y + 1) % l) + l * l * z]
                + values[i] * values[x + l * y + l * l * ((z + 1) % l)]
                for i, (x, y, z) in enumerate((i % l, i // l % l, i // l // l) for i in range(len(values))))
    return axis, face, links


def random_fields():
    source = rng.Random(5)
    for l in (4, 6, 8):
        for family in Family:
            counts = Counter(plane_of(l, family, i) for i in range(volume(l)))
            same(f"planes at side {l}", counts, Counter({m: l * l for m in range(l)}))
        values = [source.choice((1, 1, -1)) for _ in range(volume(l))]
        axis, face, links = by_pairs(l, values)
        q = values.__getitem__
        same(f"axes by pairs at side {l}", [axis_correlation(l, q, r) for r in range(l)], axis)
        same(f"face diagonals by pairs at side {l}", [face_correlation(l, q, r) for r in range(l)], face)
        same(f"links by pairs at side {l}", link_overlap(l, q), links)
        same(f"axes add up at side {l}", sum(axis), len(axes) * total_overlap(l, q) ** 2)
        same(f"face diagonals add up at side {l}", sum(face), len(face_diagonals) * total_overlap(l, q) ** 2)


# ---------------------------------------------------------------- words


def words():
    def read(line):
        return measure_order([b"measure", *line.encode().split()])
    alone = MeasureOrder(b"b", 1, 1, None, None, None)
    same("the run file alone", read("b"), alone)
    same("all options", read("--save=s --until 0 b --from --until --workers=64 --pieces 16"), MeasureOrder(b"b", 64, 16, 0, b"--until", b"s"))
    same("the first equals sign divides", read("b --save=a=b"), alone._replace(save=b"a=b"))
    same("leading zeros", read("b --until 00000001000000000"), alone._replace(until=10 ** 9))
    bad = ["", "b c", "b --stop-after 1", "b --stop-after 1 --save s", "b --each 2", "b --", "b --save", "b --save= ", "b --until",
           "b --until 1000000001", "b --until x", "b --workers 0", "b --workers 65", "b --pieces 17", "b --workers 1 --workers 1",
           "b --from a --from=a", "--until 1", "b --blocks 2", "x" * 256]
    same("bad words", [line for line in bad if read(line) is not None], [])
    same("another command", measure_order([b"measures", b"b"]), None)
    same("no UTF-8", ended([b"measure", b"\xff"])[:3], (2, "", "glass: the command line is not understood\n"))


# ---------------------------------------------------------------- runs


def write_run(rows, swaps, **how):
    orders = dict(size=4, rule="heat", couplings="plus", sweeps=1, seed=7, samples=1, epochs=2, every=1, start="up")
    orders.update(how)
    Path("b").write_text(RUN.format(**orders))
    for name, table in (("rules.csv", rows), ("swaps.csv", swaps)):
        Path(name).write_text("".join(",".join(map(str, row)) + "\n" for row in table))


def measure(line):
    """The text of a call that ends well."""
    done = ended([b"measure", *line.encode().split()])
    same(f"measure {line}: status", (done.status, done.line), (0, ""))
    return done.text


def ferromagnet(bins, c, e, every=1, digest=ONE_ENTRY):
    lines = "".join(FOUR_LINES.format(slot=slot, bin=k, sign=sign, zeros=ZEROS) for slot, sign in ((0, ""), (1, "-")) for k in bins)
    return FERROMAGNET.format(every=every, c=c, e=e, digest=digest) + lines + f"end,{e}\n"


def known_texts():
    """The ferromagnet whose only swap is at epoch 0, whole, in two parts, and measured each other epoch; a glass."""
    up, board, swaps = (0,) * 6 + (FULL,), (FULL,) * 3 + (0,) * 4, ((FULL,),)
    write_run((board, up), swaps)
    same("two slots", measure("b"), ferromagnet((0, 1), 0, 2))
    same("workers and pieces", measure("b --workers 7 --pieces 16"), measure("b"))
    first = measure("b --until 1 --save c")
    same("the first part", first, ferromagnet((0,), 0, 1))
    same("the last bytes of its checkpoint", Path("c").read_bytes()[-32:].hex(),
         "f5061320742401e61d10bc117909495b597fa50026b573897d9c4c900297dbd3")
    same("the second part", measure("b --from c"), ferromagnet((1,), 1, 2))
    same("no epoch", measure("b --from c --until 1"), ferromagnet((), 1, 1))
    for line, wanted in (("b --from c --until 0", (6, "glass: the checkpoint is at epoch 1, past 0\n")),
                         ("b --from d", (7, "glass: the checkpoint is not held\n")),
                         ("d", (7, "glass: the run file is not held\n"))):
        done = ended([b"measure", *line.encode().split()])
        same(f"measure {line}", (done.status, done.line, done.text), (*wanted, ""))
    Path("c").write_bytes(b"GLASSCK2" + bytes(80))
    same("slots at their own epochs", ended([b"measure", b"b", b"--from", b"c"])[:3], (6, "", "glass: the checkpoint is of another kind\n"))
    write_run((board, up), swaps, every=2)
    same("each other epoch", measure("b"), ferromagnet((1,), 0, 2, every=2))
    write_run((board, up), ((FULL,) * 96,))
    same("two slots with 96 entries", measure("b"), ferromagnet((0, 1), 0, 2, digest=MANY_ENTRIES))
    write_run(((858993459, 171798691, 34359738),), (), rule="metropolis", couplings="random", epochs=4, start="random")
    same("a glass", measure("b"), GLASS)


def each_sum_from_the_start():
    """The same text where each sum follows its run anew from the start, as the definition has it."""
    rows, swaps = ((FULL,) * 3 + (0,) * 4, (0,) * 6 + (FULL,)), ((FULL,),)
    plan = Plan(4, "heat", rows, swaps, couplings_view(4, {}), 1, 7)
    start = opening(plan, "up", 0, 0)
    text = sums_text(Heading(4, 2, 1, "heat", 1, 0, 2, ONE_ENTRY), lambda *place: run_sums(lambda b: plan, lambda b: start, 1, 2, *place))
    same("each sum from the start", text, ferromagnet((0, 1), 0, 2))


def epoch_by_epoch():
    """A slot's sums, which each epoch adds to: those of the runs to each epoch, from an early start and from a later one."""
    rows, swaps = (tuple(map(tuple, it)) for it in demo_rows(2))
    plan = Plan(4, "metropolis", rows, swaps, couplings_view(4, {}), 1, 7)
    quantities = (*moments, Quantity("InClass", 0), Quantity("InClass", 31), *axis_distances(4), *face_distances(4))
    for begin, every, t in ((0, 1, 0), (0, 3, 1), (3, 2, 1)):
        s = start = serial(plan, opening(plan, "random", 0, 0), begin)
        sums = no_sums
        for f in range(begin, begin + 6):
            sums = behind_epoch(every, 4, f, observed(plan, s, t), sums)
            s = epoch(plan, s)
            run = Followed(plan, start, every, f + 1)
            same(f"sums behind epoch {f} of slot {t}, each {every} measured",
                 [sums(k, it) for k in range(5) for it in quantities], [run.sum(t, k, it) for k in range(5) for it in quantities])
        last = sums_below(plan, start, every, t, begin + 6)
        same(f"sums of the whole run, each {every} measured", [sums(k, it) for k in range(5) for it in moments[:4]],
             [last(k, it) for k in range(5) for it in moments[:4]])


# ---------------------------------------------------------------- laws


def lines_of(text):
    """The numbers of a text by kind, sample, slot and bin."""
    fields = (line.split(",") for line in text.splitlines()[1:-1])
    return {(f[0], *map(int, f[1:4])): [int(n) for n in f[4:]] for f in fields}


def joined(first, second):
    """Two parts, added line by line."""
    found = dict(first)
    for place, numbers in second.items():
        found[place] = [a + b for a, b in zip(found.get(place, [0] * len(numbers)), numbers)]
    return found


def lines_hold(name, text, size):
    """What holds of the lines of each bin, whatever the run."""
    lines, counts = lines_of(text), {}
    for (kind, *place), numbers in lines.items():
        if kind != "sum":
            continue
        n, _, e2, e01, a, a2, q, m, q2 = numbers[:9]
        axis, face = lines["axis", *place], lines["face", *place]
        same(f"{name}: all distances", [it[0] + 2 * sum(it[1:-1]) + it[-1] for it in (axis, face)], [3 * q2, 6 * q2])
        same(f"{name}: lengths", (len(axis), len(face), len(lines["hist", *place])), (size // 2 + 1, size // 2 + 1, 32))
        same(f"{name}: histogram", sum(lines["hist", *place]), n)
        same(f"{name}: inequalities", (abs(q) <= m, 2 * abs(e01) <= e2, a * a <= n * a2, q * q <= n * q2), (True,) * 4)
        counts.setdefault(place[2], set()).add(n)
    same(f"{name}: epochs are those of every sample and slot", {len(it) for it in counts.values()}, {1})


def grid_sums(rows, swaps, samples, epochs, every, **how):
    """The sums of a run by the program on a grid: epochs by hand, fields as dictionaries of coordinates, pairs of sites."""
    found = {}
    for b in range(samples):
        own = Tempering(how["size"], how["rule"], rows, swaps, how["sweeps"], how["seed"], b, how["start"], b % 64, b // 64)
        for e in range(epochs):
            for t in range(len(rows)):
                own.work(t)
                if (e + 1) % every == 0:
                    add_grid(found, (b, t, len(f"{e:b}") if e else 0), own, t)
            for k in range(e % 2, len(rows) - 1, 2):
                own.exchange(k)
            own.epoch += 1
    return found


def add_grid(found, place, own, t):
    l, (first, second) = own.l, own.slots[t]
    values = [first.grid[x, y, z] * second.grid[x, y, z] for z in range(l) for y in range(l) for x in range(l)]
    axis, face, a = by_pairs(l, values)
    e0, e1, q, _, _ = own.record(t)
    numbers = {"sum": [1, e0 + e1, e0 ** 2 + e1 ** 2, e0 * e1, a, a * a, q, abs(q), q ** 2, q ** 4, (e0 + e1) * q ** 2, (e0 + e1) * q ** 4],
               "hist": [int(min(31, abs(q) * 32 // l ** 3) == c) for c in range(32)],
               "axis": axis[:l // 2 + 1], "face": face[:l // 2 + 1]}
    for kind, more in numbers.items():
        found[(kind, *place)] = [x + y for x, y in zip(found.get((kind, *place), [0] * len(more)), more)]


def rows_of(rows, swaps, epochs, every, **how):
    """Of sample 0 and each slot what a report's rows give over all bins: n, E, q2 and q4."""
    own = Tempering(how["size"], how["rule"], rows, swaps, how["sweeps"], how["seed"], 0, how["start"], 0)
    records = [(e, own.step()) for e in range(epochs)]
    kept = [it for e, it in records if (e + 1) % every == 0]
    return [[len(kept)] + [sum(f(*it[t][:3]) for it in kept) for f in (lambda a, b, q: a + b, lambda a, b, q: q ** 2, lambda a, b, q: q ** 4)]
            for t in range(len(rows))]


def small_run(name, table, swaps, samples, cut, **how):
    """A run whole, by the grid, and with another sample; with an epoch to be cut at, in two parts with their checkpoints too."""
    write_run(table, swaps, couplings="random", samples=samples, **how)
    whole = measure("b" if cut is None else "b --save end")
    lines_hold(name, whole, how["size"])
    same(f"{name}: by the grid", lines_of(whole), grid_sums(table, swaps, samples, **how))
    for t, wanted in enumerate(rows_of(table, swaps, **how)):
        sums = [numbers for place, numbers in lines_of(whole).items() if place[:3] == ("sum", 0, t)]
        same(f"{name}: by the rows", [sum(it[k] for it in sums) for k in (0, 1, 8, 9)], wanted)
    if cut is not None:
        ended_at = Path("end").read_bytes()
        first, second = measure(f"b --until {cut} --save half"), measure("b --from half --save end")
        same(f"{name}: parts add up", joined(lines_of(first), lines_of(second)), lines_of(whole))
        same(f"{name}: both checkpoints", Path("end").read_bytes() == ended_at, True)
    write_run(table, swaps, couplings="random", samples=samples + 1, **how)
    more = lines_of(measure("b"))
    same(f"{name}: with another sample", {k: v for k, v in more.items() if k[1] < samples}, lines_of(whole))


def small_runs():
    rows, swaps = demo_rows(3)
    small_run("side 4", rows[:2], swaps[:1], 2, 3, size=4, rule="metropolis", sweeps=1, seed=611, start="random", epochs=5, every=2)
    small_run("three slots", rows, swaps, 1, None, size=4, rule="metropolis", sweeps=2, seed=7, start="up", epochs=9, every=1)
    heat = [(4000000000, 3500000000, 3000000000, 2147483648, 1300000000, 800000000, 300000000 + t) for t in range(2)]
    small_run("side 6", heat, swaps[:1], 1, None, size=6, rule="heat", sweeps=1, seed=611, start="random", epochs=3, every=1)


def last_state():
    """With one slot and its last epoch alone measured, A is the link overlap of the state that is saved."""
    write_run([(858993459, 171798691, 34359738)], (), rule="metropolis", couplings="random", epochs=3, every=3, start="random")
    saved, found = measure("b --save c"), Path("c").read_bytes()
    own = Tempering(4, "metropolis", [(858993459, 171798691, 34359738)], (), 1, 7, 0, "random", 0)
    for _ in range(3):
        own.step()
    spins = [spins_in(found, 120 + copy * (64 + 8 * (244 + 64))) for copy in range(2)]
    same("the saved spins", spins, [[replica.grid[i % 4, i // 4 % 4, i // 16] for i in range(64)] for replica in own.slots[0]])
    links = by_pairs(4, [a * b for a, b in zip(*spins)])[2]
    same("links of the state that is saved", lines_of(saved)["sum", 0, 0, 2][4], links)


def spins_in(stored, at):
    """Sample 0's spins of a replica at side 4, whose planes follow its labels from a place on, in order of the sites."""
    spins = {}
    for k in range(8):
        plane = at + k * (244 + 64) + 244
        places = ((x, y) for y in range(4) for x in range(4) if (x + y + k % 4) % 2 == k // 4)
        for j, (x, y) in enumerate(places):
            spins[x + 4 * y + 16 * (k % 4)] = 1 if stored[plane + 8 * j + 7] & 1 else -1
    return [spins[i] for i in range(64)]


def main():
    if sys.argv[1:] == ["--help"]:
        print(__doc__)
        return
    with tempfile.TemporaryDirectory() as folder:
        os.chdir(folder)
        for part in (known_fields, random_fields, words, known_texts, each_sum_from_the_start, epoch_by_epoch, small_runs, last_state):
            begun, before = time.time(), len(DONE)
            part()
            print(f"{part.__name__}: {len(DONE) - before} comparisons agree, {time.time() - begun:.1f} s", flush=True)
        os.chdir("/")
    print(f"{len(DONE)} comparisons agree")


if __name__ == "__main__":
    main()
