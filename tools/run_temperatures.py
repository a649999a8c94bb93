"""The temperatures of a run's slots, from the thresholds of its rule table.

A threshold M stands for the probability M / 2^32 (docs/specification/tables.md). Metropolis flips a spin with four
satisfied bonds with exp(-4 beta), so beta = -ln(M4 / 2^32) / 4. The heat bath turns a spin up with four aligned
neighbours with 1 / (1 + exp(-4 beta)), so beta = ln(M4 / (2^32 - M4)) / 4. These are the largest of each rule that tell
beta, so that their rounding shows least.
"""
from __future__ import annotations

import argparse
import math
from pathlib import Path
from typing import Dict, List, Sequence

from long_run_folder import Fault, Value, read_keys
from make_tables import GREATEST_SLOTS, SCALE, Refusal

WIDTHS = {"metropolis": 3, "heat": 7}
LONGEST_TABLE = 2 ** 20
# By so much of itself, and two units, a threshold may differ from that of the temperature which another one tells.
CLOSE = 1e-3


def add_run(group: argparse._ActionsContainer) -> None:
    group.add_argument("--run", metavar="FILE", help="the run file, whose rule table tells the temperatures")


def rule_thresholds(name: Path, rule: str) -> List[List[int]]:
    """The thresholds of each slot, of a rule table as tools/make_tables.py writes it."""
    try:
        with open(name, encoding="ascii") as stream:
            lines = stream.read(LONGEST_TABLE).split("\n")
        rows = [[int(field) for field in line.split(",")] for line in lines if line.strip()]
    except OSError as fault:
        raise Refusal(f"{name} can't be read: {fault.strerror}") from None
    except ValueError:
        raise Refusal(f"{name} is no table of thresholds") from None
    lawful = all(len(row) == WIDTHS[rule] and 0 <= min(row) and max(row) <= SCALE for row in rows)
    if not 1 <= len(rows) <= GREATEST_SLOTS or not lawful:
        raise Refusal(f"{name} is no rule table of {rule}")
    return rows


def thresholds_at(rule: str, beta: float) -> List[float]:
    """What the fields stand for at an inverse temperature, times 2^32."""
    if rule == "metropolis":
        return [SCALE * math.exp(-beta * energy) for energy in (4, 8, 12)]
    return [SCALE / (1 + math.exp(min(-2 * beta * (2 * aligned - 6), 700))) for aligned in range(7)]


def beta_of(rule: str, thresholds: Sequence[int], where: str) -> float:
    """The inverse temperature of a slot's thresholds; 0 where they are those of no temperature dependence."""
    if rule == "metropolis":
        odds = thresholds[0] / SCALE
    else:
        odds = (SCALE - thresholds[4]) / thresholds[4] if thresholds[4] else math.inf
    if not 0 < odds <= 1:
        raise Refusal(f"{where} tells no temperature: its threshold is {thresholds[0 if rule == 'metropolis' else 4]}")
    beta = -math.log(odds) / 4
    if any(abs(found - wanted) > 2 + CLOSE * wanted for found, wanted in zip(thresholds, thresholds_at(rule, beta))):
        raise Refusal(f"{where} is of no temperature: its thresholds tell several")
    return beta


def keys_of(name: str) -> Dict[str, Value]:
    try:
        return read_keys(Path(name))
    except Fault as fault:
        raise Refusal(str(fault)) from None


def rule_table(name: str) -> Path:
    """The rule table of a run file, which lies beside it, or in this folder."""
    table = str(keys_of(name)["rules"])
    beside = Path(name).parent / table
    return beside if beside.exists() else Path(table)


def check_run(name: str, report: str, **found: Value) -> None:
    """Refuses a report whose first line is not that of a run file: its size, samples and rule, as far as it tells them."""
    keys = keys_of(name)
    for key, value in found.items():
        if keys[key] != value:
            raise Refusal(f"{report} is no report of {name}: {key} is {value} there, and {keys[key]} in the run file")


def temperature_names(betas: Sequence[float]) -> List[str]:
    """As tables print them."""
    return [f"{1 / beta:.6g}" if beta else "inf" for beta in betas]


def run_betas(name: str) -> List[float]:
    """The inverse temperatures of a run file's slots, the coldest first."""
    rule, path = str(keys_of(name)["rule"]), rule_table(name)
    if rule not in WIDTHS:
        raise Refusal(f"{name} has the rule {rule}")
    betas = [beta_of(rule, row, f"slot {slot} of {path}") for slot, row in enumerate(rule_thresholds(path, rule))]
    if any(colder <= hotter for colder, hotter in zip(betas, betas[1:])):
        raise Refusal(f"{path} has temperatures that don't rise from slot to slot")
    return betas
