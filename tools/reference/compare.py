#!/usr/bin/env python3
"""The definitions as a program against the program on a grid, state by state, and both against known values.

    python3 tools/reference/compare.py          the short comparison, about half a minute
    python3 tools/reference/compare.py --long   also the run of sixteen temperatures at size 8
    python3 tools/reference/compare.py --opening 4 2 7 101
                                                what sample 101 of seed 7 begins with at size 4 and two slots
"""
import argparse
import hashlib
import random as rng
import sys
import time
from pathlib import Path

sys.path.insert(0, str(Path(__file__).resolve().parents[1]))
sys.dont_write_bytecode = True
from reference.stream import advanced, draw  # noqa: E402
from reference.seeding import block_message, exchange_words, sweep_words  # noqa: E402
from reference.lattice import backward, bond_count, colour, compact, forward, from_compact, volume, x_of, y_of, z_of  # noqa: E402
from reference.banks import Bank, bank_len, banks_encoding, banks_len, banks_report, of_sample  # noqa: E402
from reference.bonds import couplings_view, of_bank, plus, random  # noqa: E402
from reference.sums import neighbours  # noqa: E402
from reference.sweep import Configuration, half_sweep  # noqa: E402
from reference.opening import Plan, dynamics_of, opening, slots_of  # noqa: E402
from reference.epoch import epoch, epoch_records, is_recorded, serial, swept_slots  # noqa: E402
from reference.uneven import Position, UnevenState, arrived, generators, position_at, ready  # noqa: E402
from reference.plain import command_of, plain_text, spin_digits  # noqa: E402
from reference.plan_bytes import plan_digest  # noqa: E402
from reference.grid import Register, Tempering, hex_of  # noqa: E402
from reference.demo import FULL, demo_rows  # noqa: E402

DONE = []


def same(name, got, wanted):
    if got != wanted:
        sys.exit(f"DIFFERS: {name}\n got    {got!r}\n wanted {wanted!r}")
    DONE.append(name)


def both(l, rule, rows, swaps, sweeps_, seed, signs, start, sample):
    """The plan and the opening of both programs. signs: None for random J, else bond -> J is -1."""
    bank, b = divmod(sample, 64)
    bonds = random(seed, sample) if signs is None else signs
    plan = Plan(l, rule, tuple(map(tuple, rows)), tuple(map(tuple, swaps)), couplings_view(l, {b: bonds}), sweeps_, seed)
    coupling = sample if signs is None else signs
    return plan, opening(plan, start, bank, b), Tempering(l, rule, rows, swaps, sweeps_, seed, coupling, start, b, bank)


def run_both(name, epochs, every=1, whole=True, **how):
    """Runs both to the end and compares records and states; answers the rows, and the spins."""
    plan, s, own = both(**how)
    same(f"{name}: opening", own.state(), s)
    sample, rows = how["sample"], []
    for e in range(epochs):
        records = epoch_records(plan, s)
        s = epoch(plan, s)
        others = own.step()
        same(f"{name}: records {e}", [tuple(r) for r in records], others)
        if whole or e + 1 == epochs:
            same(f"{name}: state {e + 1}", s, own.state())
        if is_recorded(every, e):
            rows += [f"row,{e},{sample},{t}," + ",".join(map(str, r)) for t, r in enumerate(records)]
    spins = [[spin_digits(plan.size, c.spins) for c in slot] for slot in s.slots]
    same(f"{name}: digits", spins, [[hex_of(r, plan.size) for r in slot] for slot in own.slots])
    return rows, spins


def known_values():
    counting = tuple(range(61))
    same("draws of the words 0 to 60", [draw(counting, n) for n in (0, 1, 2, 23, 24)], [43, 44, 45, 78, 81])
    reg = Register(counting)
    same("the same, turned", [reg.number() for _ in range(25)], [draw(counting, n) for n in range(25)])
    same("the window, turned", reg.window(), advanced(counting, 25))
    same("first draw of full words", draw((FULL - 1,) * 61, 0), 1)
    same("last seed block", block_message(1, 1, 2, 3, 5, 7).hex(),
         "00000000000000010000000100000002000000030000000500000007")
    same("neighbours", (forward(4, 3, 0), backward(4, 0, 2), forward(4, 63, 1)), (0, 48, 51))
    same("compact places", [compact(4, i) for i in (1, 17, 63)], [32, 8, 63])
    for l in (4, 6, 8, 10):
        places = [compact(l, i) for i in range(volume(l))]
        same(f"compact order is one to one at {l}", sorted(places), list(range(volume(l))))
        same(f"its inverse at {l}", [from_compact(l, p) for p in places], list(range(volume(l))))
        order = sorted(range(volume(l)), key=lambda i: (colour(l, i), z_of(l, i), y_of(l, i), x_of(l, i)))
        same(f"its order at {l}", [compact(l, i) for i in order], list(range(volume(l))))
        same(f"colours of neighbours at {l}",
             all(colour(l, n) != colour(l, i) for i in range(volume(l)) for n, _ in neighbours(l, i)), True)
        pairs = {tuple(sorted((i, n))) + (bd,) for i in range(volume(l)) for n, bd in neighbours(l, i)}
        same(f"each bond has two ends at {l}", sorted(p[2] for p in pairs), list(range(bond_count(l))))
    c, z = "5a5aa5a55a5aa5a5", "0" * 16
    plain = lambda *w: command_of([b"plain"] + [str(x).encode() for x in w])
    head = "plain 1 size=4 sweeps=%d seed=7\nenergy,%d\nspin,%s\n"
    same("plain, all down", plain_text(plain(4, 1, 7, *[0] * 7)), head % (1, -192, z))
    same("plain, checkerboard", plain_text(plain(4, 1, 7, FULL, FULL, FULL, 0, 0, 0, 0)), head % (1, 192, c))
    same("plain, no sweep", plain_text(plain(4, 0, 7, *[0] * 7)), head % (0, -192, "f" * 16))
    refused = [(5, 1, 7) + (0,) * 7, (4, 1000001, 7) + (0,) * 7, (4, 1, 2 ** 63) + (0,) * 7,
               (4, 1, 7, FULL + 1) + (0,) * 6, (66, 1, 7) + (0,) * 7, (2, 1, 7) + (0,) * 7, (4, 1, 7) + (0,) * 6,
               (4, 1, 7) + (0,) * 8, ("", 1, 7) + (0,) * 7, ("+4", 1, 7) + (0,) * 7, ("0" * 20 + "4", 1, 7) + (0,) * 7]
    same("plain, refused words", [plain(*w) for w in refused], [None] * len(refused))
    same("plain, lawful words", None in [plain("0" * 19 + "4", 0, 2 ** 63 - 1, *[FULL] * 7), plain(64, 1000000, 0, *[0] * 7)], False)


def small_runs():
    ones, c, z = "f" * 16, "5a5aa5a55a5aa5a5", "0" * 16
    up, down, board = (0,) * 6 + (FULL,), (0,) * 7, (FULL,) * 3 + (0,) * 4
    base = dict(l=4, rule="heat", swaps=[], sweeps_=1, seed=7, signs=plus(0), start="up", sample=0)

    def run(name, rows, epochs, wanted, spins, **how):
        same(name, run_both(name, epochs, rows=rows, **dict(base, **how)), (wanted, spins))

    run("all down", [down], 1, ["row,0,0,0,-192,-192,64,0,0"], [[z, z]])
    run("all up", [up], 1, ["row,0,0,0,-192,-192,64,0,0"], [[ones, ones]])
    run("checkerboard", [board], 1, ["row,0,0,0,192,192,64,0,0"], [[c, c]])
    run("metropolis keeps", [(0, 0, 0)], 1, ["row,0,0,0,-192,-192,64,0,0"], [[ones, ones]], rule="metropolis")
    run("metropolis flips", [(0, 0, FULL)], 1, ["row,0,0,0,-192,-192,64,0,0"], [[z, z]], rule="metropolis")
    stay = ["row,0,0,0,-192,-192,64,0,0", "row,0,0,1,192,192,64,1,1",
            "row,1,0,0,-192,-192,64,0,0", "row,1,0,1,192,192,64,1,1"]
    swap = stay[:2] + ["row,1,0,0,-192,-192,64,1,1", "row,1,0,1,192,192,64,0,0"]
    run("one entry: no swap", [up, board], 2, stay, [[ones] * 2, [c] * 2], swaps=[[FULL]])
    run("95 entries: no swap", [up, board], 2, stay, [[ones] * 2, [c] * 2], swaps=[[FULL] * 95])
    run("96 entries: swap", [up, board], 2, swap, [[ones] * 2, [c] * 2], swaps=[[FULL] * 96])
    run("hotter first slot", [board, up], 2,
        ["row,0,0,0,192,192,64,0,0", "row,0,0,1,-192,-192,64,1,1",
         "row,1,0,0,192,192,64,1,1", "row,1,0,1,-192,-192,64,0,0"], [[c] * 2, [ones] * 2], swaps=[[FULL]])
    run("equal energies", [up] * 3, 3,
        [f"row,{e},0,{t},-192,-192,64,{r},{r}" for e, rs in enumerate(("012", "102", "120")) for t, r in enumerate(rs)],
        [[ones] * 2] * 3, swaps=[[0], [0]])
    run("antiferromagnet", [up], 1, ["row,0,0,0,-192,-192,64,0,0"], [[c, c]], signs=lambda n: True)
    run("one negative bond", [(0, 0, 0)], 1, ["row,0,0,0,-190,-190,64,0,0"], [[ones, ones]],
        rule="metropolis", signs=lambda n: n == 0)


def exact_thresholds():
    """A draw that meets its threshold exactly is not below it; one more, and it is."""
    up, board = (0,) * 6 + (FULL,), (FULL,) * 3 + (0,) * 4
    u = draw(sweep_words(7, 0, 0, 0, 0), 0)  # the first draw of the first site, which all six neighbours pull up
    how = dict(l=4, swaps=[], sweeps_=1, seed=7, signs=plus(0), start="up", sample=0)
    for more in (0, 1):
        for rule, row, moved in (("heat", (0,) * 6 + (u + more,), 0), ("metropolis", (0, 0, u + more), 1)):
            plan, s, _ = both(rule=rule, rows=[row], **how)
            seen = half_sweep(dynamics_of(plan, 0, 0), 0, Configuration(s.slots[0].first.spins, s.slots[0].first.wheels))
            same(f"{rule}: draw less threshold {-more}", seen.spins[0], more == (1 - moved))
            run_both(f"{rule}: draw less threshold {-more}", 2, rule=rule, rows=[row], **how)
    for sample in (0, 17, 63, 64, 255):
        v = draw(exchange_words(7, 0, 0, sample // 64), sample % 64)
        for more in (0, 1):
            entries = [0] * 95 + [v + more]
            got, _ = run_both(f"swap: sample {sample}, draw less entry {-more}", 2, rule="heat", rows=[up, board],
                              **dict(how, swaps=[entries], sample=sample))
            same(f"swap: sample {sample}, labels with {more}", got[2].split(",")[7], str(more))
    entries = [0] * 95 + [draw(exchange_words(7, 0, 0, 0), 5) + 1]
    got, _ = run_both("swap: the other samples' draws", 2, rule="heat", rows=[up, board], **dict(how, swaps=[entries], sample=6))
    same("swap: by one's own draw alone", got[2].split(",")[7],
         str(int(draw(exchange_words(7, 0, 0, 0), 6) <= draw(exchange_words(7, 0, 0, 0), 5))))


def chosen_runs():
    """Sizes with L/2 even and odd, both rules, several samples and banks, tables without order."""
    source = rng.Random(20240611)
    for l, rule, slots, sample, start in ((4, "heat", 3, 5, "random"), (6, "metropolis", 3, 33, "random"),
                                          (6, "heat", 2, 127, "random"), (10, "metropolis", 2, 31, "up"),
                                          (4, "metropolis", 5, 224, "random"), (4, "heat", 3, 64, "up"),
                                          (4, "metropolis", 2, 255, "random")):
        width = 7 if rule == "heat" else 3
        rows = [tuple(source.choice((0, FULL, source.randrange(FULL + 1))) for _ in range(width)) for _ in range(slots)]
        swaps = [tuple(source.randrange(FULL + 1) for _ in range(source.choice((1, 4, 40)))) for _ in range(slots - 1)]
        run_both(f"size {l}, {rule}, sample {sample}", 4, l=l, rule=rule, rows=rows, swaps=swaps, sweeps_=2,
                 seed=source.randrange(2 ** 63), signs=None, start=start, sample=sample)


def uneven_agrees(name, plan, base, states, after):
    """Holds what the definitions say from a base to the states of the run at one epoch, and to their slots after a sweep."""
    until, n = len(states) - 1, slots_of(plan)
    for t in range(n):
        first = position_at(base, t)
        for e in range(first.epoch, until + 1):
            if e > first.epoch or not first.waits:
                same(f"{name}: rest {e} {t}", ready(plan, base, e, t), states[e].slots[t])
            if e < until:
                same(f"{name}: waits {e} {t}", arrived(plan, base, e, t), after[e][t])
    for k in range(n - 1):
        for e in range(position_at(base, k).epoch, until + 1):
            same(f"{name}: generators {e} {k}", generators(plan, base, k, e), states[e].pairs[k])


def work_on(own, at, t):
    """Sweeps slot t, and exchanges it where its partner waits for it; `at` has the positions of all slots."""
    e = at[t].epoch
    own.work(t)
    k = t if t % 2 == e % 2 else t - 1
    partner = k + 1 if t == k else k
    if k < 0 or k + 1 >= len(at):
        at[t] = Position(e + 1, False)
    elif at[partner] == Position(e, True):
        own.exchange(k)
        at[t] = at[partner] = Position(e + 1, False)
    else:
        at[t] = Position(e, True)


def uneven_runs():
    """States reached by events in any order, and what the definitions say from them."""
    source = rng.Random(7)
    rows, swaps = demo_rows(5)
    plan, s0, _ = both(4, "metropolis", rows, swaps, 1, 99, None, "random", 9)
    until = 6
    states = [s0]
    for _ in range(until):
        states.append(epoch(plan, states[-1]))
    after = [swept_slots(plan, s) for s in states]
    n = slots_of(plan)
    for c in (0, 2):
        base = UnevenState(9, (Position(c, False),) * n, states[c].slots, states[c].pairs)
        uneven_agrees(f"level at {c}", plan, base, states, after)
    for trial in range(12):
        own = Tempering(4, "metropolis", rows, swaps, 1, 99, 9, "random", 9)
        at = [Position(0, False)] * n
        stops = source.sample(range(1, 26), 2)
        for event in range(26):
            if event in stops:
                base = UnevenState(9, tuple(at), tuple(own.slot_state(t) for t in range(n)),
                                   tuple(own.pair_state(k) for k in range(n - 1)))
                spread = sorted(p.epoch + (1 if p.waits else 0) for p in at)
                uneven_agrees(f"after {event} events {at} {spread}", plan, base, states, after)
            free = [t for t in range(n) if not at[t].waits and at[t].epoch < until]
            if not free:
                break
            t = source.choice(free) if trial % 2 else (min if trial % 4 else max)(free, key=lambda t: (-at[t].epoch, t))
            work_on(own, at, t)


def grid_report(own, samples, every, epochs):
    """The report of a run to its end from samples on the grid, and these at its end."""
    l, slots = own[0].l, range(len(own[0].rows))
    lines = [f"glass 1 size={l} slots={len(slots)} samples={samples} rule={own[0].rule} from=0 to={epochs}"]
    for e in range(epochs):
        found = [it.step() for it in own]
        if (e + 1) % every == 0:
            lines += [f"row,{e},{b},{t}," + ",".join(map(str, found[b][t])) for b in range(samples) for t in slots]
    lines.append(f"end,{epochs}")
    lines += [f"spin,{b},{t},{c},{hex_of(own[b].slots[t][c], l)}" for b in range(samples) for t in slots for c in range(2)]
    return "\n".join(lines) + "\n"


def grid_checkpoint(own, digest):
    """The checkpoint of one bank's 64 samples on the grid, beside the digest of its plan."""
    l, first = own[0].l, own[0]
    stored = b"GLASSCK1" + digest + b"".join(n.to_bytes(w, "big") for n, w in ((first.epoch, 8), (l, 4), (len(first.slots), 4)))
    for t, slot in enumerate(first.slots):
        for c in range(2):
            stored += bytes(it.slots[t][c].label for it in own)
            for colour_, z in ((k // l, k % l) for k in range(2 * l)):
                stored += b"".join(word.to_bytes(4, "big") for word in slot[c].registers[colour_, z].window())
                for y, x in ((y, x) for y in range(l) for x in range(l) if (x + y + z) % 2 == colour_):
                    word = sum(1 << b for b, it in enumerate(own) if it.slots[t][c].grid[x, y, z] > 0)
                    stored += word.to_bytes(8, "big")
    for pair in first.pairs:
        stored += b"".join(word.to_bytes(4, "big") for register in pair for word in register.window())
    return stored + hashlib.sha256(stored).digest()


def bank_runs():
    """Reports and checkpoints over two and four banks: of the definitions, and of the program on a grid."""
    same("who gives sample b", [of_sample("none", lambda bank, m: (bank, m), "abcd", b) for b in (0, 63, 64, 130, 255, 256)],
         [("a", 0), ("a", 63), ("b", 0), ("c", 2), ("d", 63), "none"])
    rows, swaps = map(tuple, demo_rows(2))
    for samples, start, epochs, every in ((70, "random", 3, 2), (256, "up", 1, 1)):
        count = (samples + 63) // 64
        plans = [Plan(4, "metropolis", rows, swaps, couplings_view(4, of_bank(lambda b: random(11, b), g)), 1, 11) for g in range(count)]
        opened = [[opening(plan, start, g, b) for b in range(64)] for g, plan in enumerate(plans)]
        banks = [Bank(plan, states.__getitem__) for plan, states in zip(plans, opened)]
        own = [Tempering(4, "metropolis", rows, swaps, 1, 11, sample, start, sample % 64, sample // 64) for sample in range(64 * count)]
        same(f"report of {samples} samples", banks_report(banks, samples, every, True, epochs), grid_report(own, samples, every, epochs))
        ended = [[serial(plan, s, epochs) for s in states] for plan, states in zip(plans, opened)]
        stored = banks_encoding(plans, [states.__getitem__ for states in ended])
        parts = [grid_checkpoint(own[64 * g:64 * g + 64], plan_digest(plan)) for g, plan in enumerate(plans)]
        whole = b"GLASSCK3" + count.to_bytes(4, "big") + b"".join(parts)
        same(f"checkpoint of {samples} samples", stored, whole + hashlib.sha256(whole).digest())
        same("its length", (len(stored), len(parts[0])), (banks_len(plans), bank_len(plans)))


def long_run():
    """Size 8, sixteen temperatures, random couplings and start, two sweeps an epoch, twenty epochs."""
    rows, swaps = demo_rows(16)
    same("rule table begins", rows[0], (858993459, 171798691, 34359738))
    same("swap table begins", swaps[0][:2], (3149642683, 2309737966))
    wanted = {0: ["row,9,0,0,-564,-604,0,0,0", "row,9,0,1,-408,-460,34,3,2"],
              63: ["row,9,63,0,-542,-618,-4,0,1", "row,19,63,15,-126,-178,22,11,3"]}
    for b in (0, 63):
        begun = time.time()
        got, _ = run_both(f"sixteen temperatures, sample {b}", 20, every=10, whole=True, l=8, rule="metropolis", rows=rows,
                          swaps=swaps, sweeps_=2, seed=20240611, signs=None, start="random", sample=b)
        same(f"rows of sample {b}", [r for r in got if r in wanted[b]], wanted[b])
        same(f"number of rows of sample {b}", len(got), 32)
        print(f"sample {b}: {time.time() - begun:.0f} s", flush=True)
        print("\n".join(got[:2] + got[-2:]), flush=True)


def print_opening(l, slots, seed, sample):
    """What both programs say that a sample begins with at random: its spins, and what its first exchanges draw."""
    rows, swaps = [(0,) * 7] * slots, [(0,)] * (slots - 1)
    plan, s, own = both(l, "heat", rows, swaps, 1, seed, None, "random", sample)
    same(f"opening of sample {sample}", own.state(), s)
    for t, slot in enumerate(s.slots):
        for c, copy in enumerate(slot):
            print(f"slot {t} replica {c} label {copy.replica} spins {spin_digits(l, copy.spins)}")
    for k, pair in enumerate(s.pairs):
        for c, words in enumerate(pair):
            print(f"pair {k} replica {c} words {words[0]} to {words[60]} draw {draw(words, sample % 64)}")


def main():
    parser = argparse.ArgumentParser(description=__doc__, formatter_class=argparse.RawDescriptionHelpFormatter)
    parser.add_argument("--long", action="store_true", help="also the run of sixteen temperatures, about a minute")
    parser.add_argument("--opening", nargs=4, type=int, metavar=("SIZE", "SLOTS", "SEED", "SAMPLE"),
                        help="prints what a sample, 0 to 255, begins with at random, and ends")
    options = parser.parse_args()
    if options.opening:
        if options.opening[3] not in range(256):
            parser.error("SAMPLE is from 0 to 255")
        print_opening(*options.opening)
        return
    for part in (known_values, small_runs, exact_thresholds, chosen_runs, bank_runs, uneven_runs):
        begun, before = time.time(), len(DONE)
        part()
        print(f"{part.__name__}: {len(DONE) - before} comparisons agree, {time.time() - begun:.1f} s", flush=True)
    if options.long:
        long_run()
    print(f"{len(DONE)} comparisons agree")


if __name__ == "__main__":
    main()
