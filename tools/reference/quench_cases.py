"""Known values of `quench` and `cross`: words, texts that were worked out by hand or by another program, and each refusal."""
import sys
from hashlib import sha256
from pathlib import Path

sys.path.insert(0, str(Path(__file__).resolve().parents[1]))
from input_judge import planned as planned_by
from reference import cross, measure, quench
from reference.compare import same
from reference.compare_sums import FULL, write_run
from reference.kept import kept_length

BOARD = "quench 1 size=4 slots=1 samples=1 rule=heat sweeps=1 times={times} held={held}\n"
BOARD_LINES = ["state,0,0,0,-192,-192,64,192,192\n", "state,1,0,0,192,192,64,192,192\npair,0,1,0,0,0,0,-192,-192\n",
               "state,2,0,0,192,192,64,192,192\npair,0,2,0,0,0,0,-192,-192\npair,1,2,0,0,64,64,192,192\n"]
GLASS = """quench 1 size=4 slots=1 samples=1 rule=metropolis sweeps=1 times=3 held=0
state,0,0,0,2,6,-14,12,44
state,1,0,0,-54,-66,-10,28,36
pair,0,1,0,0,-12,-4,-12,-20
state,4,0,0,-82,-46,-14,0,12
pair,0,4,0,0,-6,-2,-8,4
pair,1,4,0,0,22,6,32,4
end
"""
GLASS_ROWS = [(858993459, 171798691, 34359738)]
UP_ROWS = [(FULL,) * 3 + (0,) * 4]
NOT_UNDERSTOOD = (2, "glass: the command line is not understood\n", "")


def answer(line):
    command = {"quench": quench, "cross": cross, "measure": measure}[line.split()[0]]
    return command.ended(line.encode().split())


def text_of(line):
    """The text of a call that ends well."""
    done = answer(line)
    same(f"{line}: status", (done.status, done.line), (0, ""))
    return done.text


def refused(line, status, told):
    done = answer(line)
    same(line, (done.status, done.line, done.text), (status, f"glass: {told}\n", ""))


def numbers_by(text, places):
    """The numbers of a text's lines by their kind and as many places behind it."""
    fields = [line.split(",") for line in text.splitlines()[1:-1]]
    return {(f[0], *map(int, f[1:1 + places[f[0]]])): [int(n) for n in f[1 + places[f[0]]:]] for f in fields}


def of_quench(text):
    return numbers_by(text, {"state": 3, "pair": 4})


def of_cross(text):
    return numbers_by(text, {"pair": 4, "axis": 4, "face": 4})


def body(text):
    return text.splitlines()[1:-1]


# ---------------------------------------------------------------- words


def words():
    def read(line):
        return quench.quench_order([b"quench", *line.encode().split()])
    alone = quench.QuenchOrder(b"b", (0, 5), 1, 1, None, None)
    same("the times alone", read("b 2 0 5"), alone)
    same("options anywhere", read("--save=s b --workers 64 2 --from --save 0 --pieces=16 5"),
         quench.QuenchOrder(b"b", (0, 5), 64, 16, b"--save", b"s"))
    same("leading zeros", read("b 0002 0 00000000001000000000"), alone._replace(times=(0, 10 ** 9)))
    same("32 times", len(read("b 32 " + " ".join(map(str, range(32)))).times), 32)
    bad = ["", "b", "b 1", "b 0", "b 2 0", "b 1 0 1", "b 2 1 1", "b 2 1 0", "b 33 " + " ".join(map(str, range(33))), "b 1 1000000001", "b 1 x",
           "b 1 0 --until 1", "b 1 0 --stop-after 1", "b 1 0 --save", "b 1 0 --save=", "b 1 0 --from a --from a", "--from a", "b 1 0 --", "x" * 256 + " 1 0"]
    same("bad words", [line for line in bad if read(line) is not None], [])
    for line in ("quench b 2 1 1", "quench b 1", "cross b f 8", "cross b f 8 s t", "cross b f -1 s", "cross b f 9223372036854775808 s",
                 "cross b --f 8 s", "cross --b f 8 s", "cross b f 8 --s", "cross " + "x" * 256 + " f 8 s"):
        done = answer(line)
        same(line, (done.status, done.line, done.text), NOT_UNDERSTOOD)
    same("words of cross", cross.cross_order(b"cross b f 9223372036854775807 s".split()), cross.CrossOrder(b"b", b"f", 2 ** 63 - 1, b"s", None))
    same("no UTF-8", quench.ended([b"quench", b"\xff", b"1", b"0"]).status, 2)


# ---------------------------------------------------------------- known texts


def known_quenches():
    """A ferromagnet whose spins end against every bond, whole and in two parts; a glass."""
    write_run(UP_ROWS, ())
    same("three times", text_of("quench b 3 0 1 2"), BOARD.format(times=3, held=0) + "".join(BOARD_LINES) + "end\n")
    same("workers and pieces", text_of("quench b 3 0 1 2 --workers 7 --pieces 16"), text_of("quench b 3 0 1 2"))
    same("the first part", text_of("quench b 2 0 1 --save k"), BOARD.format(times=2, held=0) + "".join(BOARD_LINES[:2]) + "end\n")
    same("its length", len(Path("k").read_bytes()), 10332)
    same("the second part", text_of("quench b 3 0 1 2 --from k"), BOARD.format(times=3, held=2) + BOARD_LINES[2] + "end\n")
    same("nothing to do", text_of("quench b 2 0 1 --from k"), BOARD.format(times=2, held=2) + "end\n")
    write_run(GLASS_ROWS, (), rule="metropolis", couplings="random", epochs=4, start="random")
    same("a glass", text_of("quench b 3 0 1 4"), GLASS)


def known_cross():
    """A checkerboard against all spins up, of two seeds."""
    write_run(UP_ROWS, (), seed=8)
    Path("b8").write_bytes(Path("b").read_bytes())
    write_run(UP_ROWS, ())
    text_of("measure b --until 1 --save f")
    text_of("measure b8 --until 0 --save s")
    equal, board = ("64,192", "3072,3072,3072", "6144,6144,6144"), ("0,-192", "0,0,0", "0,0,0")
    lines = "".join(f"{kind},0,0,{a},{b},{numbers}\n" for a in range(4) for b in range(a + 1, 4)
                    for kind, numbers in zip(("pair", "axis", "face"), equal if (a < 2) == (b < 2) else board))
    same("four copies", text_of("cross b f 8 s"), "cross 1 size=4 slots=1 samples=1 rule=heat seeds=7,8 epochs=1,0\n" + lines + "end\n")
    same("its lines", len(text_of("cross b f 8 s").splitlines()), 20)


# ---------------------------------------------------------------- refusals


def sealed(stored):
    return stored + sha256(stored).digest()


def refused_states():
    """Each test of kept states, in its order."""
    write_run(UP_ROWS, ())
    text_of("quench b 3 0 1 4 --save k")
    text_of("measure b --until 1 --save c")
    stored, level, other = Path("k").read_bytes(), Path("c").read_bytes(), "the checkpoint"
    refused("quench b 3 0 1 5 --from k", 6, f"{other} has state 2 at epoch 4, not 5")
    refused("quench b 1 0 --from k", 6, f"{other} has 3 states, not 1 to 1")
    refused("quench b 1 0 --from c", 6, f"{other} has state 0 at epoch 1, not 0")
    refused("quench b 2 1 2 --from d", 7, f"{other} is not held")
    second = stored[12 + 5144:12 + 2 * 5144]
    epoch_9 = sealed(second[:40] + (9).to_bytes(8, "big") + second[48:-32])
    late = sealed(second[:40] + (10 ** 9 + 1).to_bytes(8, "big") + second[48:-32])
    cases = [(stored[:43], "is too short: 43 bytes"), (stored[:8] + bytes(4) + stored[12:], "has 0 states, not 1 to 3"),
             (stored[:11] + b"\4" + stored[12:], "has 4 states, not 1 to 3"), (stored[:-1], f"has {len(stored) - 1} bytes, not 15476"),
             (stored + b"\0", "has 15477 bytes, not 15476"),
             (stored[:99] + b"\1" + stored[100:], f"is damaged: {stored[-32:].hex()} stored, "
              f"{sha256(stored[:99] + bytes([1]) + stored[100:-32]).hexdigest()} computed"),
             (sealed(stored[:12] + stored[20:28] + stored[20:-32]), "is of another kind"),
             (sealed(stored[:12] + level + epoch_9 + late), "is at epoch 1000000001, past 1000000000"),
             (sealed(stored[:12] + level + epoch_9 + level), "has state 0 at epoch 1, not 0"),
             (sealed(stored[:12 + 5144] + epoch_9 + level), "has state 1 at epoch 9, not 1"),
             (b"GLASSCK2" + bytes(80), "is of another kind"), (b"GLASSKS2" + bytes(80), "is of another kind"), (b"GLASSKS", "is too short: 7 bytes")]
    for changed, told in cases:
        Path("x").write_bytes(changed)
        refused("quench b 3 0 1 4 --from x", 6, f"{other} {told}")
    same("kept states by hand", sealed(stored[:12] + stored[12:-32]) == stored, True)


def refused_amounts():
    """At side 64 with eight slots 16 states fit, and 17 don't."""
    write_run(UP_ROWS * 8, ((0,),) * 7, size=64)
    refused("quench b 17 " + " ".join(map(str, range(17))), 3, "too many bytes of states: 578997468")
    planned = planned_by("b")
    same("a state's bytes", quench.level_length(planned), 34058672)
    same("16 states", kept_length(16, 34058672) <= 544943596 < kept_length(17, 34058672), True)
    same("32 states of one slot", 44 + 32 * quench.level_length(planned._replace(plans=[planned.plan._replace(rows=planned.plan.rows[:1])])) <= 544943596, True)
    Path("x").write_bytes(b"GLASSKS1")
    refused("quench b 17 " + " ".join(map(str, range(17))) + " --from x", 6, "the checkpoint is too short: 8 bytes")


def refused_copies():
    """The second state by its own role, under the plan with the other seed."""
    write_run(UP_ROWS, ())
    text_of("measure b --until 1 --save f")
    text_of("measure b --until 0 --save s")
    mine, others = planned_by("b").digest, cross.with_seed(planned_by("b"), 8).digest
    refused("cross b f 8 s", 6, f"the second checkpoint is of another plan: {mine} stored, {others} here")
    Path("x").write_bytes(Path("s").read_bytes()[:87])
    refused("cross b f 7 x", 6, "the second checkpoint is too short: 87 bytes")
    refused("cross b x 7 f", 6, "the checkpoint is too short: 87 bytes")
    refused("cross b f 7 d", 7, "the second checkpoint is not held")
    refused("cross b d 7 e", 7, "the checkpoint is not held")
    refused("cross d f 7 s", 7, "the run file is not held")
    text_of("quench b 1 0 --save k")
    refused("cross b k 7 s", 6, "the checkpoint is of another kind")
    write_run(UP_ROWS, (), seed=8, couplings="random")
    text_of("measure b --until 0 --save s")
    write_run(UP_ROWS, (), couplings="random")
    text_of("measure b --until 1 --save f")
    done = answer("cross b f 8 s")
    same("other couplings", (done.status, done.line.startswith("glass: the second checkpoint is of another plan: ")), (6, True))


KNOWN = (words, known_quenches, known_cross, refused_states, refused_amounts, refused_copies)
