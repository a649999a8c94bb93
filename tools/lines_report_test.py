"""The self-test of lines_report.py, over sums taken site by site from random spins."""
import math
import random
import statistics

SIZE, SLOTS, SAMPLES, EPOCH = 6, 2, 3, 5
VOLUME, HALF = SIZE ** 3, SIZE // 2
STRIDES = (1, SIZE, SIZE ** 2)


def overlaps(chance, numbers):
    """The overlaps of two replicas, +1 or -1 at each site."""
    return [1 if numbers.random() < chance else -1 for _ in range(VOLUME)]


def on(site, d, r):
    """The site r steps on in direction d, around the boundary."""
    place = site // STRIDES[d] % SIZE
    return site + ((place + r) % SIZE - place) * STRIDES[d]


def line_sum(q, d, r):
    return sum(q[site] * q[on(site, d, r)] for site in range(VOLUME))


def true_lines(seed):
    """The text of a random state, and its overlaps by slot and sample."""
    numbers = random.Random(seed)
    states = [[overlaps(0.9 - 0.1 * slot, numbers) for _ in range(SAMPLES)] for slot in range(SLOTS)]
    lines = [f"lines 1 size={SIZE} slots={SLOTS} samples={SAMPLES} epoch={EPOCH}"]
    for sample in range(SAMPLES):
        for slot in range(SLOTS):
            q = states[slot][sample]
            lines.append(f"link,{sample},{slot},{sum(line_sum(q, d, 1) for d in range(3))}")
            lines += [f"line,{sample},{slot},{d},{r},{line_sum(q, d, r)}" for d in range(3) for r in range(1, HALF + 1)]
    return lines + ["end"], states


def values(samples):
    """The link overlap and the correlation at half the side of some samples, from the overlaps at the sites."""
    return [statistics.mean(line_sum(q, d, r) / VOLUME for q in samples for d in range(3)) for r in (1, HALF)]


def with_errors(blocks):
    """Both values, each with the error of a jackknife over the blocks of samples."""
    whole = values([q for block in blocks for q in block])
    parts = [values([q for block in blocks[:k] + blocks[k + 1:] for q in block]) for k in range(len(blocks))]
    pairs = []
    for k, value in enumerate(whole):
        deviation = statistics.pstdev(part[k] for part in parts)
        pairs += [value, deviation * math.sqrt(len(parts) - 1)]
    return pairs


def text_of_lines(lines):
    return "".join(line + "\n" for line in lines)


def check_values(checks, caller, texts, blocks, first):
    """`blocks` of each slot: the samples of one file, or the files."""
    status, out, err = caller.call(texts, "--betas", "1.5", "0.75")
    checks.same("status", (status, err), (0, ""))
    checks.same("first line", out.splitlines()[0].endswith(first), True)
    checks.same("how many blocks", out.splitlines()[-1].split(" blocks")[0] == f"errors are over {len(blocks[0])}", len(blocks[0]) > 1)
    for slot in range(SLOTS):
        printed = out.splitlines()[2 + slot].split()
        checks.same("slot", printed[:2], [str(slot), ("1.5", "0.75")[slot]])
        for value, text in zip(with_errors(blocks[slot]), printed[2:]):
            checks.same(f"slot {slot}, {text}", abs(value - float(text)) < 0.6 * 10.0 ** -len(text.split(".")[1]), True)


def check_damage(checks, caller, lines):
    for n in range(len(lines)):
        checks.same(f"line {n + 1} left out", caller.refused_line(text_of_lines(lines[:n] + lines[n + 1:])), n + 1)
        checks.same(f"line {n + 1} twice", caller.refused_line(text_of_lines(lines[:n + 1] + lines[n:])), n + 2)
        checks.same(f"cut in line {n + 1}", caller.refused_line(text_of_lines(lines[:n]) + lines[n][:-1]), n + 1)
    for number, changed in ((2, "link,0,0,650"), (2, "link,0,0,1"), (3, "line,0,0,0,1,-218"), (3, "line,0,0,0,1,007")):
        checks.same(changed, caller.refused_line(text_of_lines(lines[:number - 1] + [changed] + lines[number:])), number)
    # A lawful sum that isn't that of the three lines is found behind the last of them.
    other = lines[1].rsplit(",", 1)
    changed = f"{other[0]},{int(other[1]) - 2}"
    checks.same("another link sum", caller.refused_line(text_of_lines(lines[:1] + [changed] + lines[2:])), 2 + 3 * HALF)
    for header in ("lines 2" + lines[0][7:], lines[0].replace("size=6", "size=7"), lines[0].replace("samples=3", "samples=65")):
        checks.same(header, caller.refused_line(text_of_lines([header] + lines[1:])), 1)


def check_refusals(checks, caller, text, others, report):
    for what, texts, words in (("a skip", [text], ["--skip", "1"]), ("a picture", [text], ["--plot", "no/where.svg"]),
                               ("exact energies", [text], ["--exact", "1", "2"]), ("the same twice", [text, text], []),
                               ("a report beside", [text, report], []), ("another state", [text, others], []),
                               ("three temperatures", [text], ["--betas", "3", "2", "1"])):
        status, out, err = caller.call(texts, *words)
        checks.same(what, (status, out, err.count("\n"), err[:9]), (2, "", 1, "analyse: "))


def check_one_sample(checks, caller):
    """Where neighbours are opposite in all directions the link overlap is -1; one sample has no error."""
    lines = ["lines 1 size=4 slots=1 samples=1 epoch=0", "link,0,0,-192"]
    lines += [f"line,0,0,{d},{r},{(-64, 64)[r - 1]}" for d in range(3) for r in (1, 2)]
    status, out, err = caller.call([text_of_lines(lines + ["end"])])
    checks.same("opposite neighbours", (status, out.splitlines()[2].split()), (0, ["0", "-1.000000", "-", "1.000000", "-"]))


def check_lines(checks, caller, report):
    """All checks, beside which a report stands."""
    texts, states = zip(*(true_lines(seed) for seed in (1, 2, 3)))
    check_values(checks, caller, [text_of_lines(texts[0])], [[[q] for q in states[0][slot]] for slot in range(SLOTS)],
                 "size 6, slots 2, samples 3, epoch 5")
    check_values(checks, caller, [text_of_lines(text) for text in texts],
                 [[state[slot] for state in states] for slot in range(SLOTS)],
                 "3 files: size 6, slots 2, samples 3, epoch 5")
    check_damage(checks, caller, texts[0])
    check_refusals(checks, caller, text_of_lines(texts[0]), text_of_lines(texts[1]).replace("epoch=5", "epoch=6"), report)
    check_one_sample(checks, caller)
