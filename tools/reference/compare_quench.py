#!/usr/bin/env python3
"""The texts of `quench` and `cross` and the bytes of kept states: known values, the same states by the program on a grid, and the
laws that tie both to themselves, to each other and to runs, `lines` and `age`.

    python3 tools/reference/compare_quench.py          ten seconds
    python3 tools/reference/compare_quench.py --long   also the Nishimori line, on which nothing ages, twenty seconds

Status 1 at the first difference, which is told."""
import math
import os
import random as rng
import sys
import tempfile
import time
from pathlib import Path
from statistics import mean, stdev

sys.path.insert(0, str(Path(__file__).resolve().parents[1]))
sys.dont_write_bytecode = True
from reference.bonds import couplings_view  # noqa: E402
from reference.copies import turned, two_time_field  # noqa: E402
from reference.compare import DONE, same  # noqa: E402
from reference.compare_sums import FULL, by_pairs, write_run  # noqa: E402
from reference.demo import demo_rows  # noqa: E402
from reference.grid import Tempering  # noqa: E402
from reference.kept import kept_encoding  # noqa: E402
from reference.made_up_quench import made_up_quench  # noqa: E402
from reference.measured import observed_in  # noqa: E402
from reference.opening import Plan, opening  # noqa: E402
from reference.overlaps import age_text, lines_text  # noqa: E402
from reference.planes import total_overlap  # noqa: E402
from reference.quench_cases import GLASS_ROWS, KNOWN, UP_ROWS, body, numbers_by, of_cross, of_quench, text_of  # noqa: E402
from reference.quenched import QuenchHeading, kept_state, quench_text, still  # noqa: E402

# ---------------------------------------------------------------- the grid


def product(one, other):
    return {p: s * other[p] for p, s in one.items()}


def at_steps(l, field, r):
    """The sum of the field's products at sites r steps apart along an axis."""
    return sum(s * (field[(x + r) % l, y, z] + field[x, (y + r) % l, z] + field[x, y, (z + r) % l]) for (x, y, z), s in field.items())


def by_grid(rows, swaps, samples, times, **how):
    """The numbers of a quench by the program on a grid, whose slots are swept and never exchanged."""
    found, l = {}, how["size"]
    for b in range(samples):
        own = Tempering(l, how["rule"], rows, swaps, how["sweeps"], how["seed"], b, how["start"], b % 64, b // 64)
        kept = []
        for j, time_ in enumerate(times):
            for _ in range(time_ - (times[j - 1] if j else 0)):
                for t in range(len(rows)):
                    own.work(t)
            kept.append([[dict(replica.grid) for replica in slot] for slot in own.slots])
            for t in range(len(rows)):
                fields = product(*kept[j][t])
                found["state", time_, b, t] = [*own.record(t)[:3], *(at_steps(l, fields, r) for r in range(1, l // 2 + 1))]
                for i in range(j):
                    two = [product(kept[i][t][a], kept[j][t][a]) for a in range(2)]
                    found["pair", times[i], time_, b, t] = [*(sum(it.values()) for it in two), *(at_steps(l, it, 1) for it in two)]
    return found


def lines_hold(name, text, size):
    """Ranges and parities of each line."""
    v = size ** 3
    for place, numbers in of_quench(text).items():
        links = numbers[3:] if place[0] == "state" else numbers[2:]
        sums = numbers[2:3] if place[0] == "state" else numbers[:2]
        same(f"{name}: {place}", all(n % 4 == 0 and abs(n) <= 3 * v for n in links) and all(n % 2 == 0 and abs(n) <= v for n in sums), True)


def small_quench(name, table, swaps, samples, times, cut, **how):
    """A quench by the grid, whole and in two parts, from kept states and where one state is kept from its checkpoint."""
    write_run(table, swaps, couplings="random", samples=samples, epochs=times[-1], every=1, **how)
    line = f"quench b {len(times)} {' '.join(map(str, times))}"
    whole = text_of(f"{line} --save all")
    lines_hold(name, whole, how["size"])
    same(f"{name}: by the grid", of_quench(whole), by_grid(table, swaps, samples, times, **how))
    first = text_of(f"quench b {cut} {' '.join(map(str, times[:cut]))} --save half")
    second = text_of(f"{line} --from half --save end")
    same(f"{name}: parts add up", body(first) + body(second), body(whole))
    same(f"{name}: the same kept states", Path("end").read_bytes() == Path("all").read_bytes(), True)
    return line, whole


def small_quenches():
    rows, swaps = demo_rows(3)
    small_quench("three slots", rows, swaps, 2, (0, 1, 3), 2, size=4, rule="metropolis", sweeps=1, seed=611, start="random")
    heat = [(4000000000, 3500000000, 3000000000, 2147483648, 1300000000, 800000000, 300000000 + t) for t in range(2)]
    write_run(heat, swaps[:1], rule="heat", couplings="random", size=6, seed=611, sweeps=2, start="up")
    same("side 6: by the grid", of_quench(text_of("quench b 2 1 2")),
         by_grid(heat, swaps[:1], 1, (1, 2), size=6, rule="heat", sweeps=2, seed=611, start="up"))
    equal = ((FULL,), (FULL,))
    write_run(UP_ROWS * 3, equal, couplings="random", start="random")
    same("equal energies aren't exchanged", of_quench(text_of("quench b 2 1 2")),
         by_grid(UP_ROWS * 3, equal, 1, (1, 2), size=4, rule="heat", sweeps=1, seed=7, start="random"))


def two_banks():
    """Sample 64 of 65 is that of the second bank, and the states of both banks are kept."""
    write_run(GLASS_ROWS, (), rule="metropolis", couplings="random", samples=65, start="up")
    first, whole = text_of("quench b 1 0 --save k"), text_of("quench b 2 0 1 --save all")
    second = text_of("quench b 2 0 1 --from k --save end")
    same("both banks: parts add up", body(first) + body(second), body(whole))
    same("both banks: kept", Path("end").read_bytes() == Path("all").read_bytes(), True)
    own = Tempering(4, "metropolis", GLASS_ROWS, (), 1, 7, 64, "up", 0, 1)
    own.work(0)
    same("the second bank's first sample", of_quench(whole)["state", 1, 64, 0][:3], list(own.record(0)[:3]))


# ---------------------------------------------------------------- laws


def against_runs():
    """With one slot a kept state is the state of the run, and its line has the numbers of the row before."""
    write_run(GLASS_ROWS, (), rule="metropolis", couplings="random", epochs=4, start="random")
    numbers, stored = of_quench(text_of("quench b 3 0 1 4 --save k")), Path("k").read_bytes()
    levels = []
    for e in (0, 1, 4):
        text_of(f"measure b --until {e} --save c")
        levels.append(Path("c").read_bytes())
    same("kept states are those of runs", stored == kept_encoding(levels), True)
    own = Tempering(4, "metropolis", GLASS_ROWS, (), 1, 7, 0, "random", 0)
    rows = [own.step() for _ in range(4)]
    same("rows", [numbers["state", e, 0, 0][:3] for e in (1, 4)], [list(rows[e - 1][0][:3]) for e in (1, 4)])
    Path("c").write_bytes(levels[1])
    Path("x").write_bytes(kept_encoding(levels[1:2]))
    same("a checkpoint is one kept state", text_of("quench b 2 1 4 --from c"), text_of("quench b 2 1 4 --from x"))


def against_age_and_lines():
    """C is what `age` prints, and B what `lines` prints, summed over the directions."""
    rows, swaps = demo_rows(2)
    signs = {0: rng.Random(3).choices((True, False), k=192).__getitem__}
    plan = Plan(4, "metropolis", tuple(map(tuple, rows)), tuple(map(tuple, swaps)), couplings_view(4, signs), 1, 7)
    start, times = opening(plan, "random", 0, 0), (0, 2, 3)
    kept = [kept_state(plan, start, times, j) for j in range(3)]
    same("still goes on", still(plan, kept[1], 3), kept[2])
    for i, j in ((0, 1), (0, 2), (1, 2)):
        printed = [int(line.split(",")[5]) for line in body(age_text(plan, "random", 1, times[i], [times[j] - times[i]]))]
        same(f"age from {times[i]} to {times[j]}", printed,
             [total_overlap(4, two_time_field(kept[i].slots[t], kept[j].slots[t], a)) for t in range(2) for a in range(2)])
    lines = numbers_by(lines_text(plan, lambda b: kept[2], 1, 3), {"link": 2, "line": 4})
    for t in range(2):
        line = quench_text(QuenchHeading(4, 2, 1, "heat", 1, (3,), 0), lambda j, b, t_: observed_in(plan, 0, kept[2].slots[t_]), None)
        same(f"lines of slot {t}", of_quench(line)["state", 3, 0, t][3:], [sum(lines["line", 0, t, d, r][0] for d in range(3)) for r in (1, 2)])
        same(f"links of slot {t}", of_quench(line)["state", 3, 0, t][3], lines["link", 0, t][0])


def states_of(stored, count):
    return [stored[12 + 5144 * j:12 + 5144 * (j + 1)] for j in range(count)]


def against_each_other():
    """`cross` over two kept states; and over the states of two seeds, either way around."""
    write_run(GLASS_ROWS, (), rule="metropolis", couplings="random", start="random", samples=2)
    numbers = of_quench(text_of("quench b 2 1 4 --save k"))
    for name, state in zip("fs", states_of(Path("k").read_bytes(), 2)):
        Path(name).write_bytes(state)
    copies = of_cross(text_of("cross b f 7 s"))
    for b in range(2):
        two = [copies["pair", b, 0, a, a + 2] for a in range(2)]
        same(f"two times of sample {b}", numbers["pair", 1, 4, b, 0], [two[0][0], two[1][0], two[0][1], two[1][1]])
        same(f"the first state's links, sample {b}", copies["pair", b, 0, 0, 1][1], numbers["state", 1, b, 0][3])
    for (kind, b, t, one, other), found in copies.items():
        if kind == "pair":
            sums = [it[0] + 2 * sum(it[1:-1]) + it[-1] for it in (copies["axis", b, t, one, other], copies["face", b, t, one, other])]
            same(f"all distances of copies {one} and {other}", sums, [3 * found[0] ** 2, 6 * found[0] ** 2])
    q = {(b, one, other): found[0] for (kind, b, _, one, other), found in copies.items() if kind == "pair"}
    triangles = [(a, b, c) for a in range(4) for b in range(a + 1, 4) for c in range(b + 1, 4)]
    same("triangles", all(q[s, a, b] + q[s, b, c] + q[s, a, c] >= -64 for s in range(2) for a, b, c in triangles), True)


def other_way_around():
    """Two seeds with equal couplings: the copies turned by two, the lines are the same."""
    write_run(GLASS_ROWS, (), rule="metropolis", start="random", seed=8)
    Path("b8").write_bytes(Path("b").read_bytes())
    write_run(GLASS_ROWS, (), rule="metropolis", start="random")
    text_of("measure b --until 1 --save f")
    text_of("measure b8 --until 2 --save s")
    one, other = of_cross(text_of("cross b f 8 s")), of_cross(text_of("cross b8 s 7 f"))
    same("turned by two", {(kind, b, t, *sorted((turned(x), turned(y)))): n for (kind, b, t, x, y), n in other.items()}, one)
    fields = {}
    slots = [own_slots(seed, steps) for seed, steps in ((7, 1), (8, 2))]
    replicas = [replica for slot in slots for replica in slot]
    for a in range(4):
        for b in range(a + 1, 4):
            values = [replicas[a].grid[i % 4, i // 4 % 4, i // 16] * replicas[b].grid[i % 4, i // 4 % 4, i // 16] for i in range(64)]
            axis, face, links = by_pairs(4, values)
            fields.update({("pair", 0, 0, a, b): [sum(values), links], ("axis", 0, 0, a, b): axis[:3], ("face", 0, 0, a, b): face[:3]})
    same("four copies by the grid", one, fields)


def own_slots(seed, steps):
    own = Tempering(4, "metropolis", GLASS_ROWS, (), 1, seed, lambda n: False, "random", 0)
    for _ in range(steps):
        own.step()
    return own.slots[0]


# ---------------------------------------------------------------- the Nishimori line


def heat_row(beta):
    return tuple(int(2 ** 32 / (1 + math.exp(-2 * beta * h))) for h in range(-6, 7, 2))


def nothing_ages():
    """Bonds negative with p = 1 / (1 + exp(2 beta)), from all spins up: with respect to bonds and motion every time is in
    equilibrium, so neither energies nor two-time overlaps know the waiting time."""
    beta, seeds, times = 0.6, range(201, 213), (0, 1, 2, 4)
    means = {}
    for seed in seeds:
        source = rng.Random(seed)
        signs = {b: [source.random() < 1 / (1 + math.exp(2 * beta)) for _ in range(192)].__getitem__ for b in range(64)}
        plan = Plan(4, "heat", (heat_row(beta),), (), couplings_view(4, signs), 1, seed)
        found = {}
        for b in range(64):
            kept = [opening(plan, "up", 0, b)]
            for e in times[1:]:
                kept.append(still(plan, kept[-1], e))
            for j, e in enumerate(times):
                found.setdefault(("E", e), []).append(observed_in(plan, b, kept[j].slots[0]).first_energy)
                for i in range(j):
                    found.setdefault(("C", times[i], e), []).append(total_overlap(4, two_time_field(kept[i].slots[0], kept[j].slots[0], 0)))
        for key, values in found.items():
            means.setdefault(key, []).append(mean(values))

    def near(name, values, wanted):
        error = stdev(values) / math.sqrt(len(values))
        same(f"{name}: {mean(values):.2f} +- {error:.2f}, {wanted:.2f} wanted", abs(mean(values) - wanted) <= 4 * error, True)
    for e in times[1:]:
        near(f"energy at {e}", means["E", e], -192 * math.tanh(beta))
    for one, other in (((0, 1), (1, 2)), ((0, 2), (2, 4))):
        near(f"C{one} less C{other}", [a - b for a, b in zip(means["C", *one], means["C", *other])], 0)
    for pair, wanted in (((0, 1), 49.78), ((0, 2), 45.63), ((0, 4), 41.44)):
        near(f"C{pair}", means["C", *pair], wanted)


PARTS = KNOWN + (made_up_quench, small_quenches, two_banks, against_runs, against_age_and_lines, against_each_other, other_way_around)


def main():
    if sys.argv[1:] not in ([], ["--long"]):
        print(__doc__)
        return
    with tempfile.TemporaryDirectory() as folder:
        os.chdir(folder)
        for part in PARTS + ((nothing_ages,) if sys.argv[1:] else ()):
            begun, before = time.time(), len(DONE)
            part()
            print(f"{part.__name__}: {len(DONE) - before} comparisons agree, {time.time() - begun:.1f} s", flush=True)
        os.chdir("/")
    print(f"{len(DONE)} comparisons agree")


if __name__ == "__main__":
    main()
