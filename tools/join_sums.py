#!/usr/bin/env python3
"""Joins the texts of sums over parts of one run (docs/specification/measure.md) to that of the whole.

    python3 tools/join_sums.py part_1 part_2 part_3 > whole

The parts may come in any order. Each must begin at the epoch at which another ends, and be of the same run: size, slots,
samples, rule, every and digest of the plan. Lines of one sample, slot and bin are added.

status  0 joined · 2 a word, or a text that is damaged or of another run
"""
from __future__ import annotations

import sys
from typing import Optional, Sequence

sys.dont_write_bytecode = True
from exit_status import status_of  # noqa: E402
from make_tables import Refusal  # noqa: E402
from measured_text import in_order, joined, read_measured, text_of  # noqa: E402


def main(words: Optional[Sequence[str]] = None) -> int:
    names = sys.argv[1:] if words is None else list(words)
    if names == ["--help"]:
        print(__doc__)
        return 0
    try:
        if not names or any(name.startswith("-") for name in names):
            raise Refusal("the parts' files are needed; --help says more")
        sys.stdout.writelines(text_of(joined(in_order([read_measured(name) for name in names]))))
    except Refusal as refusal:
        print(f"join_sums: {refusal}", file=sys.stderr)
        return 2
    return 0


if __name__ == "__main__":
    sys.exit(status_of("join_sums", main))
