"""The self-test of couplings.py: files made by hand, and the program's couplings by tools/reference."""
import hashlib
import tempfile
from pathlib import Path

import couplings
import manifest
from make_tables import Checks, outcome
from reference.lattice import forward
from reference.seeding import coupling_words
from reference.stream import draw

HEAD = bytes.fromhex("474c415353434a31" "00000004" "00000001")
# bond 0 alone is negative; all are; bond 1 of sample 0 and the last bond of sample 1
BY_HAND = [
    (HEAD + bytes.fromhex("80") + bytes(23), "60650a984e1eb344230701297202dfe669f7ef0c061090e1b13be9d1496e637c", [{0}]),
    (HEAD + b"\xff" * 24, "dd5a3d2ab1a5d9264a0f11a04a9bff41ea9def8afefd907285fcfe21bcce810a", [set(range(192))]),
    (HEAD[:15] + b"\2" + bytes.fromhex("40") + bytes(46) + bytes.fromhex("01"), None, [{1}, {191}]),
]


def sealed(body):
    return body + hashlib.sha256(body).digest()


def negative(bonds):
    return {n for n, bit in enumerate(bonds) if bit}


def call(*words):
    return outcome([str(word) for word in words], couplings.main)


def files_by_hand(checks):
    for body, digest, bonds in BY_HAND:
        stored = sealed(body)
        if digest is not None:
            checks.same("digest by hand", stored[-32:].hex(), digest)
        size, samples = couplings.couplings_of("j", stored)
        checks.same("size", size, 4)
        checks.same("negative bonds", [negative(sample) for sample in samples], bonds)
        checks.same("the file again", couplings.file_bytes(size, samples), stored)


def refusals(checks, folder):
    name = folder / "j"
    good = sealed(BY_HAND[1][0])
    for stored, line in [
        (good[:47], f"{name} is too short: 47 bytes"),
        (b"h" + good[1:], f"{name} is of another kind"),
        (good[:11] + b"\5" + good[12:], f"{name} has size 5"),
        (good[:15] + b"\0" + good[16:], f"{name} has 0 samples"),
        (good[:14] + b"\1\1" + good[16:], f"{name} has 257 samples"),
        (good[:-1], f"{name} has 71 bytes, not 72"),
        (good + b"\0", f"{name} has 73 bytes, not 72"),
        (good[:16] + b"\0" + good[17:], f"{name} is damaged"),
    ]:
        name.write_bytes(stored)
        checks.same(line, call("show", name), (2, "", f"couplings: {line}\n"))
    with open(name, "wb") as stream:
        stream.truncate(couplings.LONGEST + 1)
    for words in (("show", name), ("to-text", name, folder / "t"), ("gauge", name, folder / "k", "--seed", 1)):
        checks.same("a file that is too long", call(*words), (2, "", f"couplings: {name} is too long: more than 25165872 bytes\n"))
    name.unlink()


def programs_couplings(checks, folder):
    name = folder / "own"
    checks.same("status", call("program", name, "--size", 4, "--samples", 64, "--seed", 7)[0], 0)
    stored = name.read_bytes()
    _, samples = couplings.couplings_of("own", stored)
    for b in (0, 31, 63):
        words = coupling_words(7, b)
        wanted = [draw(words, n) >> 31 for n in range(192)]
        checks.same(f"the program's sample {b}", list(samples[b]), wanted)


def gauges(checks, folder):
    before, after, back = folder / "before", folder / "after", folder / "back"
    call("random", before, "--size", 4, "--samples", 2, "--seed", 1, "--negative", "0.3")
    checks.same("gauge", call("gauge", before, after, "--seed", 5)[0], 0)
    call("gauge", after, back, "--seed", 5)
    checks.same("a gauge transform twice", back.read_bytes(), before.read_bytes())
    _, old = couplings.couplings_of("before", before.read_bytes())
    _, new = couplings.couplings_of("after", after.read_bytes())
    checks.same("couplings change", old == new, False)
    for b in range(2):
        for i in range(64):
            for d, e in ((0, 1), (0, 2), (1, 2)):
                around = [3 * i + d, 3 * forward(4, i, d) + e, 3 * forward(4, i, e) + d, 3 * i + e]
                checks.same("frustration", sum(new[b][n] for n in around) % 2, sum(old[b][n] for n in around) % 2)


def texts(checks, folder):
    name, text, back = folder / "j", folder / "t", folder / "k"
    name.write_bytes(sealed(BY_HAND[2][0]))
    checks.same("to text", call("to-text", name, text)[0], 0)
    lines = text.read_text().split("\n")
    checks.same("first lines", lines[:3], ["couplings 1 size=4 samples=2", "0 1 1 1", "0 4 -1 1"])
    # in another order, and with the two sites exchanged
    turned = [" ".join([line.split()[1], line.split()[0], *line.split()[2:]]) for line in reversed(lines[1:-1])]
    text.write_text("\n".join(lines[:1] + turned) + "\n")
    checks.same("from text", call("from-text", text, back)[0], 0)
    checks.same("the file again", back.read_bytes(), name.read_bytes())
    for changed, line in [
        (lines[:1] + lines[2:], "lacks the bond of 0 and 1"),
        (lines + ["0 1 1 1"], "line 195: the bond of 0 and 1 came before"),
        (lines + ["0 2 1 1"], "line 195: no bond joins 0 and 2"),
        (lines[:1] + ["0 1 1"], "line 2 has not 2 signs that are 1 or -1"),
        (["couplings 2"], "line 1 is not `couplings 1 size=L samples=n`"),
    ]:
        text.write_text("\n".join(changed))
        status, _, told = call("from-text", text, back)
        checks.same(line, (status, told.endswith(line + "\n")), (2, True))


def distributions(checks, folder):
    name = folder / "r"
    for chance, least, most in [("0", 0, 0), ("1", 648, 648), ("0.25", 130, 195)]:
        call("random", name, "--size", 6, "--samples", 1, "--seed", 3, "--negative", chance)
        _, samples = couplings.couplings_of("r", name.read_bytes())
        checks.same(f"negative bonds at {chance}", least <= sum(samples[0]) <= most, True)
    made = ("random", name, "--size", 4, "--samples", 1, "--seed", 1)
    halves = [(call(*made, *words)[0], name.read_bytes()) for words in ((), ("--negative", "1/2"), ("--negative", "5e-1"))]
    checks.same("one half", halves, [(0, halves[0][1])] * 3)
    for words in [("random", name, "--size", 5, "--samples", 1, "--seed", 1), ("plus", name, "--size", 4, "--samples", 257),
                  *((*made, f"--negative={text}") for text in
                    ("2", "1.0001", "-0.1", "nan", "inf", "", "1/3", "1/0", "1_0", "1e-9999999", "1e9999999", "1\n")), ()]:
        status, _, told = call(*words)
        checks.same(f"{words[2:]} is refused in a line", (status, told.count("\n")), (2, 1))


def run_beside(folder, name, seed, kind):
    """A report's manifest; of the report itself no more is read than its digest."""
    report = folder / name
    report.write_text(name)
    keys = {**{key: "t" for key in manifest.KEYS}, "size": 4, "samples": 3, "seed": seed, "couplings": kind}
    digests = dict.fromkeys(("rules", "swaps"), "0" * 64)
    manifest.write_manifest(report, manifest.Manifest("", keys, digests, "0" * 64, hashlib.sha256(name.encode()).hexdigest()))
    return report


def picks(checks, folder):
    """Samples of two seeds and of a file, each once, in the order of the list."""
    call("program", folder / "5", "--size", 4, "--samples", 3, "--seed", 5)
    call("program", folder / "6", "--size", 4, "--samples", 3, "--seed", 6)
    five, six = (couplings.couplings_of("j", (folder / name).read_bytes())[1] for name in ("5", "6"))
    one, other = run_beside(folder, "one", 5, "random"), run_beside(folder, "other", 9, "file:6")
    bare = folder / "bare"
    bare.write_text("bare")
    plus = run_beside(folder, "plus", 5, "plus")
    listed, picked = folder / "list.csv", folder / "picked"
    listed.write_text(f"report,sample,replica\n{other},1,0\n{one},2,1\n{other},1,1\n{one},0,0\n")
    checks.same("samples of a list", call("pick", listed, picked)[::2], (0, ""))
    checks.same("their couplings", couplings.couplings_of("j", picked.read_bytes()), (4, [six[1], five[2], five[0]]))
    for text in (f"report,sample\n{bare},0\n", f"report,sample\n{one},3\n", f"report,sample\n{plus},0\n", "report,sample\n",
                 f"report,place\n{one},0\n", f"report,sample\n{one},x\n"):
        listed.write_text(text)
        status, out, err = call("pick", listed, picked)
        checks.same(f"{text!r} is refused in a line", (status, out, err.count("\n")), (2, "", 1))


def without_numpy(checks):
    if couplings.numpy is None:
        return

    def made():
        drawn = couplings.random_sample(6, 1, 0, couplings.probability("0.3"))
        return couplings.program_samples(6, 7, 2), drawn, couplings.turned(6, drawn, 5, 1)

    fast, kept, couplings.numpy = made(), couplings.numpy, None
    try:
        plain = made()
    finally:
        couplings.numpy = kept
    checks.same("with numpy and without", fast, plain)


def self_test():
    checks = Checks("couplings")
    with tempfile.TemporaryDirectory() as name:
        folder = Path(name)
        files_by_hand(checks)
        refusals(checks, folder)
        programs_couplings(checks, folder)
        gauges(checks, folder)
        texts(checks, folder)
        distributions(checks, folder)
        picks(checks, folder)
        without_numpy(checks)
    return checks.end()
