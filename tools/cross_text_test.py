"""The self-test of cross_text.py: a text that was worked out by hand, whole and with each damage."""
import tempfile
from itertools import combinations
from pathlib import Path

from cross_text import APART, PAIRS, RINGS, TRIANGLES, read_crossed
from make_tables import Checks, Refusal

# The checkerboard of the ferromagnet of side 4 against all spins up: equal copies of each state, and between the states q is +1
# at half of the sites, -1 at the others, and differs at the ends of each bond.
APART_LINES = "pair,{0},{1},{2},{3},0,-192\naxis,{0},{1},{2},{3},0,0,0\nface,{0},{1},{2},{3},0,0,0\n"
EQUAL_LINES = "pair,{0},{1},{2},{3},64,192\naxis,{0},{1},{2},{3},3072,3072,3072\nface,{0},{1},{2},{3},6144,6144,6144\n"


def block(sample, slot):
    return "".join((EQUAL_LINES if pair in ((0, 1), (2, 3)) else APART_LINES).format(sample, slot, *pair) for pair in PAIRS)


CHECKERBOARD = "cross 1 size=4 slots=1 samples=1 rule=heat seeds=7,8 epochs=1,0\n" + block(0, 0) + "end\n"


def text_of(samples, slots):
    """The same of several samples and slots."""
    lines = "".join(block(sample, slot) for sample in range(samples) for slot in range(slots))
    return f"cross 1 size=4 slots={slots} samples={samples} rule=heat seeds=7,8 epochs=1,0\n{lines}end\n"


def refusal(path, text):
    """What is told of a text, behind the file's name; None where it is read."""
    path.write_text(text)
    try:
        read_crossed(str(path))
    except Refusal as refused:
        return str(refused)[len(str(path)) + 2:]
    return None


def check_shape(checks):
    """Triangles have the pairs of three copies, rings each copy twice, and the pairs apart no copy in common."""
    for three in TRIANGLES:
        checks.same(f"triangle {three}", len({copy for k in three for copy in PAIRS[k]}), 3)
    for ring in RINGS:
        copies = [copy for k in ring for copy in PAIRS[k]]
        checks.same(f"ring {ring}", [copies.count(copy) for copy in range(4)], [2] * 4)
    checks.same("pairs apart", [set(PAIRS[one]) & set(PAIRS[other]) for one, other in APART], [set()] * 3)
    checks.same("how many", (len(TRIANGLES), len(set(map(frozenset, RINGS))), len(set(map(frozenset, APART)))), (4, 3, 3))
    checks.same("each ring leaves out two pairs that are apart", sorted(sorted(set(range(6)) - set(ring)) for ring in RINGS),
                sorted(map(list, APART)))


def check_values(checks, path):
    path.write_text(CHECKERBOARD)
    found = read_crossed(str(path))
    checks.same("heading", found.heading, (4, 1, 1, "heat", (7, 8), (1, 0)))
    checks.same("q", [pair.q for pair in found.pairs[0, 0]], [64, 0, 0, 0, 0, 64])
    checks.same("links", [pair.link for pair in found.pairs[0, 0]], [192, -192, -192, -192, -192, 192])
    checks.same("last pair", found.pairs[0, 0][5], (64, 192, (3072,) * 3, (6144,) * 3))
    path.write_text(text_of(3, 2))
    checks.same("samples and slots", sorted(read_crossed(str(path)).pairs), [(b, t) for b in range(3) for t in range(2)])


def check_places(checks, path):
    lines = text_of(2, 1).splitlines(keepends=True)
    for n in range(len(lines)):
        for what, damaged, at in (("left out", lines[:n] + lines[n + 1:], n + 1), ("twice", lines[:n + 1] + lines[n:], n + 2),
                                  ("cut", [*lines[:n], lines[n][:-1]], n + 1)):
            told = refusal(path, "".join(damaged))
            checks.same(f"line {n + 1} {what}: {told}", str(told).startswith(f"line {at}: "), True)


def check_numbers(checks, path):
    """Each number that breaks a law, with the line at which it is told: of a pair that of its last line."""
    for old, new, at, told in (
            ("pair,0,0,0,1,64,", "pair,0,0,0,1,66,", 4, "q is even, and at most 64"),
            ("pair,0,0,0,1,64,", "pair,0,0,0,1,63,", 4, "q is even, and at most 64"),
            ("pair,0,0,0,1,64,", "pair,0,0,0,1,62,", 4, "the correlations don't add up to 3 times the square"),
            ("pair,0,0,0,2,0,-192", "pair,0,0,0,2,0,-196", 7, "the link sum is a multiple of 4, and at most 192"),
            ("pair,0,0,0,2,0,-192", "pair,0,0,0,2,0,-190", 7, "the link sum is a multiple of 4, and at most 192"),
            ("axis,0,0,2,3,3072,", "axis,0,0,2,3,3074,", 19, "the correlations don't add up to 3 times the square"),
            ("face,0,0,1,3,0,0,0", "face,0,0,1,3,0,-1,0", 16, "the correlations don't add up to 6 times the square"),
            ("face,0,0,1,3,0,0,0", "face,0,0,1,3,0,0", 16, "3 whole numbers are due"),
            ("pair,0,0,1,2,0,", "pair,0,0,1,2,00,", 11, "2 whole numbers are due"),
            ("pair,0,0,1,2,", "pair,0,0,2,1,", 11, "the line pair,0,0,1,2 is due"),
            ("end\n", "pair,1,0,0,1,64,192\n", 20, "the line end is due"), ("end\n", "end\nend\n", 21, "the text has ended before this line")):
        checks.same(f"{new!r}", refusal(path, CHECKERBOARD.replace(old, new, 1)), f"line {at}: {told}")
    # Copies 1, 2 and 3 all against each other, and copy 0 as it was.
    opposed = CHECKERBOARD
    for one, other in combinations((1, 2, 3), 2):
        old = (EQUAL_LINES if (one, other) == (2, 3) else APART_LINES).format(0, 0, one, other)
        opposed = opposed.replace(old, EQUAL_LINES.format(0, 0, one, other).replace(",64,192", ",-64,192"))
    checks.same("three opposite copies", refusal(path, opposed), "line 19: the q of three copies add up to -64 at least")
    for old, new in (("size=4", "size=5"), ("size=4", "size=66"), ("slots=1", "slots=33"), ("slots=1", "slots=0"), ("samples=1", "samples=257"),
                     ("epochs=1,0", "epochs=1,1000000001"), ("seeds=7,8", "seeds=7,9223372036854775808"), ("cross 1", "cross 2"),
                     ("heat", "glauber"), ("seeds=7,8", "seeds=7"), ("epochs=1,0", "epochs=01,0")):
        checks.same(new, str(refusal(path, CHECKERBOARD.replace(old, new)))[:8], "line 1: ")


def self_test():
    checks = Checks("cross_text")
    check_shape(checks)
    with tempfile.TemporaryDirectory() as folder:
        path = Path(folder) / "copies"
        check_values(checks, path)
        check_places(checks, path)
        check_numbers(checks, path)
        try:
            read_crossed(str(path) + "_none")
        except Refusal as refused:
            checks.same("no file", str(refused), f"{path}_none can't be read: No such file or directory")
    return checks.end()
