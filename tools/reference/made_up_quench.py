"""A quench of two slots at side 2 from made-up spins and words, by the definitions and by the program on a grid: the text that
quenched_states/proofs/KnownStates.antt computes, and that of four copies of its states."""
from reference.bonds import CouplingsView, bonds_of
from reference.compare import same
from reference.compare_sums import by_pairs
from reference.copies import copy_among, copy_pairs
from reference.crossed import CrossHeading, copies_fields, cross_text
from reference.grid import Register, Replica, Tempering
from reference.opening import Plan, PlainCopy, PlainPair, PlainSlot, Sample
from reference.quenched import QuenchHeading, kept_state, quench_text, state_fields, state_seen
from reference.words import is_set, table

ROWS = ((429496729, 858993459, 1288490188, 2147483648, 3006477107, 3435973836, 3865470566),
        (1073741824, 1431655765, 1789569706, 2147483648, 2505397589, 2863311530, 3221225472))
PLAN = Plan(2, "heat", ROWS, ((3149642683,),), CouplingsView(2, table(lambda n: (11 * n * n + 5 * n) % 4, 24)), 2, 0)
TIMES = (3, 4, 5)
QUENCH = """quench 1 size=2 slots=2 samples=1 rule=heat sweeps=2 times=3 held=0
state,3,0,0,0,-8,-2,-4
state,3,0,1,8,-8,-2,-12
state,4,0,0,-16,-16,0,8
pair,3,4,0,0,0,2,-8,4
state,4,0,1,0,-8,2,4
pair,3,4,0,1,-2,2,4,-4
state,5,0,0,-16,-8,-6,12
pair,3,5,0,0,0,-4,-8,8
pair,4,5,0,0,8,-2,24,4
state,5,0,1,-8,8,4,0
pair,3,5,0,1,0,-2,-8,-12
pair,4,5,0,1,2,0,-4,0
end
"""


def words(label):
    return table(lambda n: (n + 1) * (123456789 + 1000003 * label) % 2 ** 32, 61)


def made_up_copy(t, r):
    return PlainCopy(table(lambda i: is_set(178 + 75 * t + 109 * r, i), 8), table(lambda k: words(100 * t + 10 * r + k), 4), t)


def begin():
    return Sample(1, 3, table(lambda t: PlainSlot(made_up_copy(t, 0), made_up_copy(t, 1)), 2), (PlainPair(words(1000), words(1001)),))


def by_grid():
    """The spins of each replica at each time, as +1 and -1 in order of the sites, by the program on a grid."""
    own = Tempering(2, "heat", ROWS, (), 2, 0, bonds_of(PLAN.couplings, 1), "up", 1)
    for t in range(2):
        for r in range(2):
            copy = made_up_copy(t, r)
            own.slots[t][r] = Replica({(i % 2, i // 2 % 2, i // 4): 1 if copy.spins[i] else -1 for i in range(8)},
                                      {(k // 2, k % 2): Register(copy.wheels[k]) for k in range(4)}, t)
    found = []
    for _ in TIMES:
        found.append([[[replica.grid[i % 2, i // 2 % 2, i // 4] for i in range(8)] for replica in slot] for slot in own.slots])
        for t in range(2):
            own.work(t)
    return found


def made_up_quench():
    states = [kept_state(PLAN, begin(), TIMES, j) for j in range(3)]
    spins = [[[[1 if up else -1 for up in copy.spins] for copy in slot] for slot in s.slots] for s in states]
    same("made-up spins by the grid", spins, by_grid())
    heading = QuenchHeading(2, 2, 1, "heat", 2, TIMES, 0)
    same("made-up quench", quench_text(heading, lambda *place: state_seen(lambda b: PLAN, lambda b, j: states[j], *place),
                                       lambda *place: state_fields(lambda b, j: states[j], *place)), QUENCH)
    first, second = states[0], states[2]
    text = cross_text(CrossHeading(2, 2, 1, "heat", 0, 0, 3, 5), lambda *place: copies_fields(lambda b: first, lambda b: second, *place))
    for t in range(2):
        for pair in copy_pairs:
            one, other = (copy_among(first.slots[t], second.slots[t], a).spins for a in pair)
            q = [1 if a == b else -1 for a, b in zip(one, other)]
            axis, face, links = by_pairs(2, q)
            wanted = [f"{kind},0,{t},{pair.one},{pair.other},{','.join(map(str, numbers))}"
                      for kind, numbers in (("pair", (sum(q), links)), ("axis", axis), ("face", face))]
            same(f"made-up copies {pair.one} and {pair.other} of slot {t}", [line for line in text.splitlines() if line in wanted], wanted)
    same("made-up copies: lines", len(text.splitlines()), 2 + 2 * 6 * 3)
