"""The self-test of fuzz_inputs.py: what the judge says of known files, with digests from other programs, and that a wrong
answer is seen."""
import hashlib
import os
import random
import tempfile
from collections import namedtuple

import couplings
import expected_runs
import fuzz_inputs
import input_growth
import input_judge
import reference.definitions as rule
from make_tables import Checks

RUN = fuzz_inputs.RUN.replace("{seed}", "7")
TWO_SLOTS = {"run.toml": RUN.format(size=4, rule="heat", source="plus", samples=1, every=1, start="up").encode(),
             "rules.csv": b"4294967296,4294967296,4294967296,0,0,0,0\n0,0,0,0,0,0,4294967296\n", "swaps.csv": b"4294967296\n"}
# Published values of this run: its plan's digest, and the last bytes of its checkpoints at epochs 1 and 2.
PLAN = "d9aa15c363f754a61bc0ea79f1bbe78112219581fbe4f49adbdb771408c853e7"
PLAN_OF_SEED_8 = "3f9d4ab5126fef021b27c5daf9f4bc88dd7391d73e72eaaeca8abf17e4e6add8"
SEALS = {1: "f5061320742401e61d10bc117909495b597fa50026b573897d9c4c900297dbd3",
         2: "de1f29722e9c43a589222fc234412f6559ae06b16d13e1187ec06fde2629633c"}
# One slot of 65 samples, the published digest of each bank's plan, and the length of a checkpoint of two banks.
TWO_BANKS = {"run.toml": RUN.format(size=4, rule="heat", source="plus", samples=65, every=1, start="up").encode(),
             "rules.csv": b"0,0,0,0,0,0,4294967296\n", "swaps.csv": b""}
BANK_PLAN = "347567cbd87c08235566da9a200b5e5129cf41a25bff22c0a63e399a7928c63d"
BANKS_LENGTH = 10332
ROWS = ["row,0,0,0,192,192,64,0,0", "row,0,0,1,-192,-192,64,1,1", "row,1,0,0,192,192,64,1,1", "row,1,0,1,-192,-192,64,0,0"]
HEAD = "glass 1 size=4 slots=2 samples=1 rule=heat from=%d to=%d\n"
Ended = namedtuple("Ended", "returncode stdout stderr")


def encoded(plan_digest, s, size):
    """The checkpoint of 64 samples that are all like this one."""
    words = lambda window: b"".join(word.to_bytes(4, "big") for word in window)
    body = b"GLASSCK1" + bytes.fromhex(plan_digest) + s.epoch.to_bytes(8, "big") + size.to_bytes(4, "big")
    body += len(s.slots).to_bytes(4, "big")
    places = [rule.from_compact(size, place) for place in range(size ** 3)]
    half = size * size // 2
    for slot in s.slots:
        for copy in slot:
            body += bytes([copy.replica]) * 64
            for plane, window in enumerate(copy.wheels):
                body += words(window) + b"".join((b"\xff" if copy.spins[i] else b"\0") * 8
                                                 for i in places[plane * half:(plane + 1) * half])
    body += b"".join(words(window) for pair in s.pairs for window in pair)
    return body + hashlib.sha256(body).digest()


def write(files):
    for name, stored in files.items():
        with open(name, "wb") as file:
            file.write(stored)


def known_run(checks):
    write(TWO_SLOTS)
    checks.same("plan", expected_runs.checked("run.toml").text[-65:], PLAN.encode() + b"\n")
    planned = input_judge.planned("run.toml")
    s = rule.opening(planned.plan, "up", 0, 0)
    for epoch in (1, 2):
        s = rule.epoch(planned.plan, s)
        stored = encoded(planned.digest, s, 4)
        checks.same(f"checkpoint at {epoch}", stored[-32:].hex(), SEALS[epoch])
        write({f"at{epoch}": stored})
    for base, begun in ((None, 0), ("at1", 1), ("at2", 2)):
        verdict = expected_runs.ran("run.toml", base, 2)
        rows = (HEAD % (begun, 2)).encode() + "".join(row + "\n" for row in ROWS[2 * begun:]).encode() + b"end,2\n"
        checks.same(f"rows from {begun}", verdict.text[:len(rows)], rows)
        with open("at2", "rb") as file:
            checks.same(f"saved from {begun}", expected_runs.wrong_in_saved(file.read(), verdict.run, (0, 63)), None)
        with open("at1", "rb") as file:
            checks.same("saved too early", expected_runs.wrong_in_saved(file.read(), verdict.run, (0,)), "it is at epoch 1")


def copies(checks):
    """Of two states of the run above and of a second seed: the first line, and the published digests of both plans."""
    found = fuzz_inputs.crossed([b"cross", b"run.toml", b"at1", b"7", b"at2"])
    checks.same("four copies", (found.status, found.text.splitlines()[0], len(found.text.splitlines())),
                (0, "cross 1 size=4 slots=2 samples=1 rule=heat seeds=7,7 epochs=1,2", 38))
    checks.same("a state of another seed", fuzz_inputs.crossed([b"cross", b"run.toml", b"at1", b"8", b"at2"]).line,
                f"glass: the second checkpoint is of another plan: {PLAN} stored, {PLAN_OF_SEED_8} here\n")


def changed(stored, at, byte):
    return input_growth.sealed(stored[:at] + bytes([byte]) + stored[at + 1:])


def refusals(checks):
    with open("at1", "rb") as file:
        stored = file.read()
    for bytes_, line in ((stored[:87], "the checkpoint is too short: 87 bytes"),
                         (stored[:-1], "the checkpoint has 10687 bytes, not 10688"),
                         (changed(stored, 0, 0), "the checkpoint is of another kind"),
                         (changed(stored, 51, 6), "the checkpoint has size 6 and 2 slots"),
                         (changed(stored, 5117, 1), "the checkpoint has a wrong replica at slot 1, copy 0, sample 5"),
                         (changed(stored, 47, 3), "the checkpoint is at epoch 3, past 2")):
        write({"base": bytes_})
        checks.same(line, expected_runs.ran("run.toml", "base", 2).line, f"glass: {line}\n".encode())
    for text, status, line in ((b"size = 5\n" + TWO_SLOTS["run.toml"][9:], 3, "key size is out of range: 5"),
                               (TWO_SLOTS["run.toml"] + b"beta = 1\n", 3, "unknown key beta"),
                               (TWO_SLOTS["run.toml"] + b"size = 4\n", 3, "the run file is not TOML"),
                               (TWO_SLOTS["run.toml"].replace(b"plus", b"file:no"), 7, "the couplings file is not held"),
                               (TWO_SLOTS["run.toml"].replace(b"rules.csv", b"."), 8, "reading the rule table failed")):
        write({"run.toml": text})
        verdict = expected_runs.checked("run.toml")
        checks.same(line, (verdict.status, verdict.line), (status, f"glass: {line}\n".encode()))
    write(TWO_SLOTS)
    for stored, line in ((b'"0",0,0', "the rule table is not CSV"), (b"1,2\n", "the rule table, record 0 has 2 fields, not 7"),
                         (b"1,2,3,4,5,6,4294967297", "the rule table, record 0, field 6 is too great: 4294967297"),
                         (b"0,0,0,0,0,0,0\n" * 33, "the rule table has 33 records, not 32")):
        write({"rules.csv": stored})
        checks.same(line, expected_runs.checked("run.toml").line, f"glass: {line}\n".encode())
    write(TWO_SLOTS)


def uneven(checks):
    """Whatever the order of events, what is made from them is lawful, and what is read of it is what was written."""
    rng = random.Random(3)
    with open("at1", "rb") as file:
        level = file.read()
    for k in range(20):
        stored = input_growth.uneven(rng, level, 4, 2, 1, 1)
        write({"base": stored})
        verdict = expected_runs.ran("run.toml", "base", max(input_growth.epochs_of(stored)))
        checks.same(f"uneven {k}", (verdict.status, verdict.line), (0, b""))
    write({"base": changed(stored, 72, 1)})
    checks.same("a phase that is none", expected_runs.ran("run.toml", "base", 5).line,
                b"glass: the checkpoint has a wrong place at slot 0\n")


def both(first, second):
    body = b"GLASSCK3\0\0\0\2" + first + second
    return body + hashlib.sha256(body).digest()


def banks_text(last_spins):
    """The report of 65 samples that end up, but for the last."""
    rows = [f"row,0,{b},0,-192,-192,64,0,0" for b in range(65)]
    lines = ["glass 1 size=4 slots=1 samples=65 rule=heat from=0 to=1", *rows, "end,1"]
    lines += [f"spin,{b},0,{c},{last_spins if b == 64 else 'f' * 16}" for b in range(65) for c in range(2)]
    return ("\n".join(lines) + "\n").encode()


def bank_at_1_and_2():
    """The checkpoints at epochs 1 and 2 of a bank whose samples are all alike."""
    plan = input_judge.planned("run.toml").plan
    at1 = rule.epoch(plan, rule.opening(plan, "up", 0, 0))
    return [encoded(BANK_PLAN, s, 4) for s in (at1, rule.epoch(plan, at1))]


def saved_banks(checks, first, later):
    """The report and the checkpoint of a run of two banks, and what is seen of a wrong one."""
    stored, verdict = both(first, first), expected_runs.ran("run.toml", None, 1)
    checks.same("length of two banks", len(stored), BANKS_LENGTH)
    checks.same("report of two banks", verdict.text, banks_text("f" * 16))
    checks.same("saved of two banks", expected_runs.wrong_in_saved(stored, verdict.run, (0, 63, 64, 127)), None)
    checks.same("a bank of another epoch", expected_runs.wrong_in_saved(both(first, later), verdict.run, (0,)),
                "the checkpoint is at epoch 2, past 1")
    wrong = input_growth.sealed_in_all(changed(stored, 12 + 5144 + 371, 254), 4, 1)
    checks.same("a wrong spin in bank 1", expected_runs.wrong_in_saved(wrong, verdict.run, (0, 63, 64)),
                "sample 64 is not that of the rule")


def refused_banks(checks, first, later):
    """Each refusal of a checkpoint of two banks."""
    stored, of_bank1 = both(first, first), 12 + len(first)
    for bytes_, line in ((stored[:43], "the checkpoint is too short: 43 bytes"), (first, "the checkpoint is of another kind"),
                         (stored[:11] + b"\3" + stored[12:], "the checkpoint has 3 banks, not 2"),
                         (stored[:-1], "the checkpoint has 10331 bytes, not 10332"),
                         (changed(stored, of_bank1 + 7, 50), "the checkpoint is of another kind"),
                         (changed(stored, of_bank1 + 61, 1), f"the checkpoint is damaged: {first[-32:].hex()} stored"),
                         (input_growth.sealed_in_all(changed(stored, of_bank1 + 61, 1), 4, 1),
                          "the checkpoint has a wrong replica at slot 0, copy 0, sample 5"),
                         (both(first, later), "the checkpoint has bank 1 at epoch 2, not 1"),
                         (stored[:56] + b"M" + stored[57:], "the checkpoint is damaged")):
        write({"base": bytes_})
        checks.same(line, expected_runs.ran("run.toml", "base", 2).line.decode()[:7 + len(line)], f"glass: {line}")


def changed_banks(checks, first):
    """Whatever is changed of a checkpoint of two banks, it is read or refused as a checkpoint."""
    rng, stored = random.Random(5), both(first, first)
    for k in range(200):
        write({"base": input_growth.grown_bytes(rng, "base", stored, [first, stored], 4, 1)})
        verdict = expected_runs.ran("run.toml", "base", 1)
        checks.same(f"a changed checkpoint of two banks, {k}", verdict.status, 6 if verdict.line else 0)


def other_runs_of_banks(checks, stored):
    """A stop with two banks, a run of one bank from their checkpoint, and a run with couplings of 65 samples from a file."""
    write({"base": stored})
    refused = b"glass: this command needs at most 64 samples, not 65\n"
    checks.same("a stop", expected_runs.stopped("run.toml")[:2], (3, refused))
    write({"run.toml": TWO_BANKS["run.toml"].replace(b"samples = 65", b"samples = 64")})
    checks.same("two banks for one", expected_runs.ran("run.toml", "base", 2).line, b"glass: the checkpoint is of another kind\n")
    write({"run.toml": TWO_BANKS["run.toml"].replace(b"plus", b"file:j.bin"),
           "j.bin": couplings.file_bytes(4, [bytes(192)] * 64 + [bytes([1]) * 192])})
    checks.same("bytes of 65 samples", os.path.getsize("j.bin"), 1608)
    checks.same("sample 64 of a file", expected_runs.ran("run.toml", None, 1).text, banks_text("5a5aa5a55a5aa5a5"))


def banks(checks):
    """Two banks: the plan's digest, the report, the checkpoint, and what is refused of it."""
    write(TWO_BANKS)
    message = b"GLASSPL2\0\0\0\2" + 2 * bytes.fromhex(BANK_PLAN)
    checks.same("plan of two banks", expected_runs.checked("run.toml").text[-65:-1].decode(),
                hashlib.sha256(message).hexdigest())
    first, later = bank_at_1_and_2()
    saved_banks(checks, first, later)
    refused_banks(checks, first, later)
    changed_banks(checks, first)
    other_runs_of_banks(checks, both(first, first))


def reports(checks):
    """The worked report of the run above, in one block and cut."""
    rows = (HEAD % (0, 2)).encode() + "".join(row + "\n" for row in ROWS).encode() + b"end,2\n"
    sums = b"sum,0,2,768,8192,33554432\nwithout,0,0,0,0,0,0\nsum,1,2,-768,8192,33554432\nwithout,1,0,0,0,0,0\nend\n"
    write({"report": rows})
    checks.same("averages", expected_runs.averaged("report", 1).text,
                b"average 1 size=4 slots=2 samples=1 blocks=1 rows=4\n" + sums)
    for stored, blocks, line in ((rows, 2, "the report has 1 samples, too few for 2 blocks"),
                                 (rows[:80], 1, "the report is wrong at line 2"), (rows[:81], 1, "the report is wrong at line 2"),
                                 (b"", 1, "the report is wrong at line 0"), (rows + b"\n", 1, "the report is wrong at line 6"),
                                 (rows.replace(b"row,1,0,1", b"row,1,0,0"), 1, "the report is wrong at line 4")):
        write({"report": stored})
        checks.same(line, expected_runs.averaged("report", blocks).line, f"glass: {line}\n".encode())


def wrong_answers(checks):
    """An answer that is not the verdict's is seen."""
    verdict = expected_runs.checked("run.toml")
    right = Ended(0, verdict.text, b"")
    checks.same("the right answer", fuzz_inputs.wrong_in_answer(right, verdict), None)
    for ended in (right._replace(returncode=-11), right._replace(returncode=1), right._replace(stdout=b"plan"),
                  right._replace(stdout=verdict.text.replace(b"d9", b"d8")), right._replace(stderr=b"x"),
                  Ended(3, b"", b"glass: key size is missing\n"), Ended(4, b"", b"glass: something else\n"),
                  Ended(11, b"", b"glass: no memory\n")):
        checks.same(f"a wrong answer: {ended}", fuzz_inputs.wrong_in_answer(ended, verdict) is None, False)
    write({"run.toml": b""})
    verdict = expected_runs.checked("run.toml")
    told = Ended(3, b"", b"glass: key size is missing\n")
    checks.same("a refusal", fuzz_inputs.wrong_in_answer(told, verdict), None)
    checks.same("a refusal with a text", fuzz_inputs.wrong_in_answer(told._replace(stdout=b"p"), verdict) is None, False)


def self_test():
    checks = Checks("fuzz_inputs")
    if input_judge.tomllib is None:
        print("fuzz_inputs: the self-test is skipped: Python 3.11 or later has the reader of TOML that it needs")
        return 0
    start = os.getcwd()
    with tempfile.TemporaryDirectory() as folder:
        os.chdir(folder)
        try:
            known_run(checks)
            copies(checks)
            refusals(checks)
            uneven(checks)
            reports(checks)
            wrong_answers(checks)
            banks(checks)
        finally:
            os.chdir(start)
    checks.same("lines of the manual", len(fuzz_inputs.LINES) >= 39, True)
    return checks.end()
