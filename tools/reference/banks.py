"""Runs of several banks of 64 samples: glass_engine/specs/Banks.antt, and run_checkpoint/specs/BankEncoding.antt for the
bytes of their checkpoint. Sample b of the whole is bit b mod 64 of bank b div 64."""
from collections import namedtuple
from functools import lru_cache

from reference.words import big_bytes, monus
from reference.opening import slots_of
from reference.epoch import measured_from, serial
from reference.checkpoint import encoding, encoding_len, sealed
from reference.report import all_spins, end_line, header_line, rows_in_order

# A plan, and a function from a bit's number to the state that the sample starts with.
Bank = namedtuple("Bank", "plan start")


def of_sample(none, give, banks, b):
    if not banks:
        return none
    return give(banks[0], b) if b < 64 else of_sample(none, give, banks[1:], monus(b, 64))


def banks_measured(banks, b, f):
    return of_sample((), lambda bank, m: measured_from(bank.plan, bank.start, m, f), banks, b)


def banks_slots(banks, e, b):
    return of_sample((), lambda bank, m: serial(bank.plan, bank.start(m), e).slots, banks, b)


def banks_report(banks, samples, every, spins, e):
    plan, first = banks[0].plan, banks[0].start(0).epoch
    text = (header_line(plan, samples, first, e)
            + rows_in_order(lambda b, f: banks_measured(banks, b, f), samples, every, first, e) + end_line(e))
    if spins:
        text += all_spins(plan, samples, lambda b: banks_slots(banks, e, b))
    return text


def banks_states(banks, e):
    """The states of each bank at epoch e, each made once."""
    return [lru_cache(maxsize=None)(lambda b, bank=bank: serial(bank.plan, bank.start(b), e)) for bank in banks]


def banks_checkpoint(banks, e):
    return banks_encoding([bank.plan for bank in banks], banks_states(banks, e))


banks_kind = b"GLASSCK3"


def banks_header(count):
    return banks_kind + big_bytes(4, count)


def banks_bytes(plans, states):
    return b"".join(map(encoding, plans, states))


def banks_encoding(plans, states):
    return sealed(banks_header(len(plans)) + banks_bytes(plans, states))


def bank_len(plans):
    return encoding_len(plans[0].size, slots_of(plans[0])) if plans else 0


def banks_len(plans):
    return 44 + bank_len(plans) * len(plans)
