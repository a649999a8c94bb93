#!/usr/bin/env python3
"""Holds the independent program in tools/reference to the definitions: each definition that the main theorem stands on,
and of those of runs as decisions, has its counterpart of the same name, in the module that the table below names beside
its file.

--self-test runs the tests of this tool.

Status: 0 where each has one, 1 where some have none, with a line each, 2 for a wrong word."""
import ast
import re
import sys
from pathlib import Path
from typing import Dict, List, Set

import source_check

# A file of definitions, and the modules of tools/reference that write it down.
PATHS = {
    "spin_model/specs/Words": "words", "spin_model/specs/Steps": "words", "spin_model/specs/Stream": "stream",
    "spin_model/specs/Seeding": "seeding", "spin_model/specs/Lattice": "lattice", "spin_model/specs/Couplings": "bonds",
    "spin_model/specs/SiteRule": "site_rule", "coupling_set/specs/CouplingWords": "bonds",
    "scalar_rule/specs/Neighbours": "sums", "scalar_rule/specs/Sums": "sums", "scalar_rule/specs/Sweep": "sweep",
    "scalar_rule/specs/Plan": "opening", "scalar_rule/specs/Opening": "opening", "scalar_rule/specs/PlainRun": "opening",
    "scalar_rule/specs/Exchange": "exchange", "scalar_rule/specs/Epoch": "epoch", "scalar_rule/specs/Serial": "epoch",
    "scalar_rule/specs/Records": "epoch", "scalar_rule/specs/Ragged": "uneven",
    "scalar_rule/specs/Positions": "positions", "scalar_rule/specs/SpinDigits": "plain",
    "run_plan/specs/CanonicalPlan": "plan_bytes", "run_checkpoint/specs/Kinds": "checkpoint",
    "run_checkpoint/specs/Encoding": "checkpoint", "glass_engine/specs/Report": "report",
    "report_text/specs/Lines": "report", "run_checkpoint/specs/Lengths": "checkpoint",
    "glass_engine/specs/Banks": "banks", "run_checkpoint/specs/BankEncoding": "banks",
    "finite_chance/specs/Sums": "chance", "finite_chance/specs/Chains": "chance",
    "run_decisions/specs/Decisions": "decisions",
    "fair_runs/specs/Equilibrium": "fair", "fair_runs/specs/Places": "fair",
    "measured_sums/specs/OverlapField": "planes", "measured_sums/specs/PlaneFamilies": "planes",
    "measured_sums/specs/PlaneCorrelations": "planes", "measured_sums/specs/EpochBins": "measured",
    "measured_sums/specs/MeasuredSums": "measured", "measured_sums/specs/SumsText": "measured",
    "measured_sums/specs/RunningSums": "measured",
    "quenched_states/specs/StillRule": "quenched", "quenched_states/specs/KeptStates": "quenched",
    "quenched_states/specs/Copies": "copies", "quenched_states/specs/QuenchText": "quenched",
    "quenched_states/specs/CrossText": "crossed", "quenched_states/specs/KeptBytes": "kept",
    "quenched_states/specs/KeptTests": "kept",
    "potts_laws/specs/Changes": "potts", "potts_laws/specs/Weights": "potts",
    "potts_laws/specs/Equilibrium": "potts",
}
# Definitions that the independent program writes otherwise, or that no run asks for.
OTHERWISE = {
    "next": "`next_`: Python has a function of that name",
    "Bonds": "a function, which Python gives no type", "Field": "the same", "RunningSums": "the same", "Rule": "the word of the rule",
    "metropolis": "in `new_spin`, by `is_flipped`", "ahead": "in `neighbours`", "behind": "in `neighbours`",
    "Neighbour": "a pair of a site and a bond", "heat_bath_on": "in `plain_configuration`",
    "hex_digit": "in `four_spins`", "rank": "the lock's progress word, of which no text and no bytes are made",
    "turns": "a number in proofs; the definition is `has_turn`", "sum_below": "Python's `sum`",
    "recorded_epochs": "a number of rows, which the lists have by themselves",
    "bank_report": "`uneven_report` of what a run was opened with", "flattened": "a packed state's own parts",
    "BanksStand": "of packed states", "BanksFit": "of packed states", "banks_parts": "of packed states",
    "standing_of": "of packed states", "bank_of": "of packed states",
    "potts_sweep_words": "of the Potts glass: tools/plain_potts.py",
    "potts_start_words": "of the Potts glass: tools/plain_potts.py",
    "words_on": "how the kept words lie; `couplings_view` makes them by `place_of`",
    "AgreeAt": "the same spins at a place: in `check_places` of fair_cases", "ReadsOnly": "what stands at one place: in `check_places`",
    "OtherPlacesDontCount": "a law: `check_places`", "OtherReplicaDoesntCount": "a law: `check_places`, where a place is a replica",
    "DecisionsAboutPlacesAreCounted": "a law: `check_counts` of fair_cases", "OnePlaceStaysNearEquilibrium": "a law: `check_places`",
    "summary_line": "of `demo`", "slot_line": "of `demo`",
}
# Two definitions of one name in one module's files.
ALSO = {"run_plan/specs/CanonicalPlan": {"pair_bytes": "entry_bytes"}}
DEFINED = re.compile(r"^(?:abbrev |unfoldable )?pub (?:record |data )?([A-Za-z_][A-Za-z0-9_]*)", re.M)


def defined_in(specs: str) -> List[str]:
    """The public definitions of a file, without the conditions: these are words that begin with a verb."""
    names = list(dict.fromkeys(DEFINED.findall(specs)))
    return [it for it in names if not re.match(r"(?:Is|Are|Has|Have|Keeps|Fits|Belong)[A-Z]", it)]


def written_in(code: str) -> Set[str]:
    """What a module defines at its top."""
    names: Set[str] = set()
    for node in ast.parse(code).body:
        if isinstance(node, (ast.FunctionDef, ast.ClassDef)):
            names.add(node.name)
        elif isinstance(node, ast.Assign):
            names |= {it.id for it in node.targets if isinstance(it, ast.Name)}
    return names


def missing(specs: Dict[str, str], modules: Dict[str, str]) -> List[str]:
    """The definitions without a counterpart, and the exceptions that are none, a line each."""
    found, met = [], set()
    for file, text in specs.items():
        written = written_in(modules[PATHS[file]])
        for name in defined_in(text):
            other = ALSO.get(file, {}).get(name, name)
            if other in written:
                continue
            if name in OTHERWISE:
                met.add(name)
            else:
                found.append(f"{file}.antt: {name} has no counterpart in tools/reference/{PATHS[file]}.py")
    return found + [f"the exception {name} is met nowhere" for name in sorted(set(OTHERWISE) - met)]


def sources(root: Path) -> List[Dict[str, str]]:
    return [{file: (root / "crates" / f"{file}.antt").read_text(encoding="utf-8") for file in PATHS},
            {it: (root / "tools/reference" / f"{it}.py").read_text(encoding="utf-8") for it in set(PATHS.values())}]


def count_in(root: Path) -> int:
    return sum(len(defined_in(it)) for it in sources(root)[0].values())


def self_test(root: Path) -> int:
    """Tests the tool on the repository's own files, changed."""
    specs, modules = sources(root)
    cases = [({}, {}, 0), ({"scalar_rule/specs/Serial": "abbrev pub serially : N\n"}, {}, 1),
             ({}, {"report": modules["report"].replace("def end_line", "def last_line")}, 1),
             ({"scalar_rule/specs/SpinDigits": ""}, {}, 1)]
    for changed, written, count in cases:
        found = missing({**specs, **changed}, {**modules, **written})
        if len(found) != count:
            print(f"check_definitions: self-test: {found}", file=sys.stderr)
            return 1
    print(f"check_definitions: {len(cases)} tests passed")
    return 0


def main(words: List[str]) -> int:
    root = Path(__file__).resolve().parent.parent
    return source_check.run("check_definitions", __doc__, words, lambda: self_test(root), lambda: missing(*sources(root)),
                            lambda: f"{count_in(root)} definitions are written down in tools/reference or told there")


if __name__ == "__main__":
    sys.exit(main(sys.argv[1:]))
