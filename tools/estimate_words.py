"""What the commands of estimate.py share: the slots and their temperatures, and the reports that are named."""
from __future__ import annotations

import argparse
from collections.abc import Sequence
from typing import Callable, List, NamedTuple, Optional, TypeVar, Union

from glass_analysis import of_each_report
from glass_analysis.errors import uncertainty
from glass_analysis.reports import Records
from make_tables import Refusal
from manifest import check_table, study_of
from report_errors import few_blocks
from run_temperatures import check_run, run_betas, temperature_names

Taken = TypeVar("Taken")
NOTE = """note: the error is over the disorder: the samples of one run share each random number.
      Several reports, of other seeds, have the whole error."""


class Slots:
    """The number of files that a command line names, and what their slots are called."""

    def __init__(self, options: argparse.Namespace, slots: int) -> None:
        self.betas = run_betas(options.run) if options.run else None
        self.files = len(options.reports)
        self.blocks: Union[int, Sequence[int], None] = options.blocks
        if self.blocks is not None and self.files > 1:
            raise Refusal("of several files each is a block: --blocks is for one")
        if self.betas and len(self.betas) != slots:
            raise Refusal(f"{len(self.betas)} temperatures, and there are {slots} slots")
        self.head, self.axis = ("T", "temperature") if self.betas else ("", "slot")
        self.names = temperature_names(self.betas) if self.betas else [""] * slots
        self.across = [float(name) for name in self.names] if self.betas else [float(slot) for slot in range(slots)]

    def slot(self, number: int) -> int:
        if not 0 <= number < len(self.names):
            raise Refusal(f"there is no slot {number}")
        return number

    def count(self, samples: int) -> int:
        """The number of blocks, of reports of so many samples."""
        if isinstance(self.blocks, Sequence):
            return len(set(self.blocks))
        return self.files if self.files > 1 else self.blocks or samples

    def known_betas(self) -> List[float]:
        if not self.betas:
            raise Refusal("the temperatures are needed: --run tells the run file")
        return self.betas

    def title(self, slot: int) -> str:
        return f"{self.head} = {self.names[slot]}" if self.names[slot] else f"slot {slot}"

    def end(self, options: argparse.Namespace, figure: Callable[[], object], count: Optional[int] = None) -> None:
        """Tells how many blocks the errors are over, and draws."""
        if count is not None and count > 1:
            print(few_blocks(count) or f"errors are over {count} blocks, and are themselves uncertain by {uncertainty(count):.0%}")
        if self.files == 1:
            print(NOTE)
        if options.plot:
            from glass_analysis import figures
            figures.save(options.plot, figure())  # type: ignore[arg-type]
            print(f"wrote {options.plot}")


class Outline(NamedTuple):
    """What is kept of the first report: its header, and its recorded epochs."""
    name: str
    size: int
    rule: str
    slots: int
    samples: int
    records: int
    first: int
    last: int
    every: Optional[int]

    @property
    def sites(self) -> int:
        return self.size ** 3

    @classmethod
    def of(cls, records: Records) -> Outline:
        return cls(records.name, records.size, records.rule, records.slots, records.samples, len(records.epochs),
                   int(records.epochs[0]), int(records.epochs[-1]), records.every)


class Words:
    """The reports that a command line names. They are read one after the other by `of_each`, which tells `run` and `slots`."""

    def __init__(self, options: argparse.Namespace) -> None:
        self.options = options
        self.run: Outline
        self.slots: Optional[Slots] = None
        self.study = study_of(tuple(options.reports))
        if options.run:
            check_table(options.run, self.study)

    @property
    def named(self) -> Slots:
        assert self.slots is not None, "of_each comes first"
        return self.slots

    def of_each(self, take: Callable[[Records], Taken]) -> List[Taken]:
        """What `take` makes of each report; of the first the words are checked before."""
        def taken(records: Records) -> Taken:
            if self.slots is None:
                self.run, self.slots = Outline.of(records), Slots(self.options, records.slots)
                # Of several reports the number of each one's couplings file.
                self.slots.blocks = self.study.blocks or self.slots.blocks
                if self.options.run:
                    check_run(self.options.run, records.name, size=records.size, samples=records.samples, rule=records.rule)
            return take(records)

        return of_each_report(self.options.reports, taken, self.options.skip)

    def begin(self) -> None:
        r = self.run
        what = r.name if self.named.files == 1 else f"{self.named.files} reports"
        print(f"{what}: size {r.size}, {r.rule}, slots {r.slots}, samples {r.samples}, "
              f"{r.records} recorded epochs from {r.first} to {r.last}")
        if self.study.blocks:
            print(f"couplings files: {len(set(self.study.blocks))}, each a block; glass-jackknife tells what its seeds bring")
