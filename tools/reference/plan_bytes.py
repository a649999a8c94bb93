"""The canonical bytes of a plan: run_plan/specs/CanonicalPlan.antt."""
import hashlib

from reference.lattice import bond_count
from reference.bonds import bond_word
from reference.opening import slots_of
from reference.words import big_bytes, table, words_64


def kind_number(rule):
    return 1 if rule == "heat" else 2


def header_bytes(plan):
    return (b"GLASSPL1" + big_bytes(4, plan.size) + big_bytes(4, slots_of(plan)) + big_bytes(4, kind_number(plan.rule))
            + big_bytes(4, plan.sweeps) + big_bytes(8, plan.seed))


def entry_bytes(entries):
    """`pair_bytes` of CanonicalPlan.antt."""
    return big_bytes(4, len(entries)) + words_64(entries)


def bond_words(couplings):
    return table(lambda n: bond_word(couplings, n // 3, n % 3), bond_count(couplings.size))


def canonical(plan):
    return (header_bytes(plan) + b"".join(map(words_64, plan.rows)) + b"".join(map(entry_bytes, plan.swaps))
            + words_64(bond_words(plan.couplings)))


def canonical_length(plan):
    cases = 7 if plan.rule == "heat" else 3
    return 32 + 8 * (cases * slots_of(plan)) + sum(4 + 8 * len(entries) for entries in plan.swaps) + 24 * plan.size ** 3


def plan_digest(plan):
    return hashlib.sha256(canonical(plan)).digest()


def banks_message(plans):
    return b"GLASSPL2" + big_bytes(4, len(plans)) + b"".join(map(plan_digest, plans))


def banks_digest(plans):
    """The digest of a run's plans, one for each bank of 64 samples."""
    return plan_digest(plans[0]) if len(plans) == 1 else hashlib.sha256(banks_message(plans)).digest()
