"""What docs/specification/averages.md says of a report: the status, line and text of `glass average`.

It is written from that page and shares nothing with the program."""
import re
from fractions import Fraction

from input_judge import Refused, fetched

NUMBER = "(0|[1-9][0-9]{0,18})"
SIGNED = "(0|-?[1-9][0-9]{0,18})"
HEADER = re.compile(f"glass 1 size={NUMBER} slots={NUMBER} samples={NUMBER} rule=(?:heat|metropolis) from={NUMBER} to={NUMBER}")
ROW = re.compile(f"row,{NUMBER},{NUMBER},{NUMBER},{SIGNED},{SIGNED},{SIGNED},{NUMBER},{NUMBER}")


class Report:
    """A report that is read line by line, which tells of each line whether it may stand there."""

    def __init__(self):
        self.size = self.slots = self.samples = self.first = self.last = None
        self.rows, self.is_ended, self.spin_lines = [], False, 0

    def takes(self, line):
        if self.size is None:
            return self.takes_header(HEADER.fullmatch(line))
        if self.is_ended:
            return self.takes_spins(line)
        if line == f"end,{self.last}" and len(self.rows) % (self.samples * self.slots) == 0:
            self.is_ended = True
            return True
        return self.takes_row(ROW.fullmatch(line))

    def takes_header(self, found):
        if found is None:
            return False
        size, slots, samples, first, last = map(int, found.groups())
        if size % 2 or not 4 <= size <= 64 or not 1 <= slots <= 32 or not 1 <= samples <= 256 or not first <= last <= 10 ** 9:
            return False
        self.size, self.slots, self.samples, self.first, self.last = size, slots, samples, first, last
        return True

    def takes_row(self, found):
        if found is None:
            return False
        epoch, sample, slot, *energies, overlap, first, second = map(int, found.groups())
        place = len(self.rows) % (self.samples * self.slots)
        if place:
            is_next = epoch == self.rows[-1][0]
        else:
            is_next = self.first <= epoch < self.last and (not self.rows or self.rows[-1][0] < epoch)
        sites = self.size ** 3
        is_lawful = (is_next and (sample, slot) == divmod(place, self.slots) and all(abs(e) <= 3 * sites for e in energies)
                     and abs(overlap) <= sites and first < self.slots and second < self.slots)
        if is_lawful:
            self.rows.append((epoch, sample, slot, sum(energies), overlap))
        return is_lawful

    def all_spin_lines(self):
        return self.samples * self.slots * 2

    def takes_spins(self, line):
        if self.spin_lines == self.all_spin_lines():
            return False
        sample, rest = divmod(self.spin_lines, 2 * self.slots)
        front = f"spin,{sample},{rest // 2},{rest % 2},"
        digits = line[len(front):]
        if not line.startswith(front) or not re.fullmatch(f"[0-9a-f]{{{self.size ** 3 // 4}}}", digits):
            return False
        self.spin_lines += 1
        return True

    def is_whole(self):
        return self.is_ended and self.spin_lines in (0, self.all_spin_lines())


def read_report(stored):
    lines = stored.decode("latin-1").split("\n")
    report = Report()
    for number, line in enumerate(lines[:-1]):
        if not report.takes(line):
            raise Refused(12, f"the report is wrong at line {number}")
    if lines[-1] or not report.is_whole():
        raise Refused(12, f"the report is wrong at line {len(lines) - 1}")
    return report


def sums(rows):
    return f"{len(rows)},{sum(e for *_, e, _ in rows)},{sum(q ** 2 for *_, q in rows)},{sum(q ** 4 for *_, q in rows)}"


def averages(report, blocks):
    lines = [f"average 1 size={report.size} slots={report.slots} samples={report.samples} blocks={blocks} rows={len(report.rows)}"]
    for slot in range(report.slots):
        rows = [row for row in report.rows if row[2] == slot]
        lines.append(f"sum,{slot},{sums(rows)}")
        for block in range(blocks):
            rest = [row for row in rows if int(Fraction(row[1] * blocks, report.samples)) != block]
            lines.append(f"without,{slot},{block},{sums(rest)}")
    return ("\n".join(lines) + "\nend\n").encode()


def averaged(name, blocks):
    """The text of `glass average NAME BLOCKS`, or its refusal."""
    report = read_report(fetched(name, "report"))
    if blocks > report.samples:
        raise Refused(12, f"the report has {report.samples} samples, too few for {blocks} blocks")
    return averages(report, blocks)
