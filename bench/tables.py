#!/usr/bin/env python3
"""Makes the tables of bench/README.md and of other pages (PAGES) from the measurements in bench/results, and tells how
a figure went over time.

    python3 bench/tables.py --write             the pages get their tables
    python3 bench/tables.py --check             they have them, and machines their rows, else status 1
    python3 bench/tables.py --show NAME         a file of bench/results as a table, the latest measurements alone
    python3 bench/tables.py --trend NAME        all measurements of the file, case by case in the order of their days
    python3 bench/tables.py --self-test         the tests of this tool

Each file of bench/results begins with the columns machine, commit, date (YYYY-MM-DD), load and turns. What is
measured has its unit as the end of its name (min, s, ms, us, ns, ps, mb, kb, percent), is a ratio, or is told in
words (seen). All other columns say of what it is. The commit is the one whose page had the figure first; the program is that of this commit
or of one just before it.

Status: 0; 1 where --check finds a table that differs; 2 for a wrong word or file, with a line."""
import argparse
import csv
import re
import sys
from pathlib import Path
from typing import Callable, Dict, Iterable, List, NamedTuple, Optional, Sequence, Tuple, Union

HERE = Path(__file__).resolve().parent
sys.path.insert(0, str(HERE.parent / "tools"))
from exit_status import status_of  # noqa: E402
from make_tables import Checks, OneLineParser, Refusal  # noqa: E402

HEAD = ["machine", "commit", "date", "load", "turns"]
UNITS = ("min", "s", "ms", "us", "ns", "ps", "mb", "kb", "percent")
RATIOS = ("ratio", "times", "four_runs_times", "two_workers", "four_workers", "eight_workers", "two_pieces",
          "four_pieces")
IN_WORDS = ("seen",)
PAGE, CONTRIBUTING, FRONT, COST, TRIED = PAGES = ("bench/README.md", "CONTRIBUTING.md", "README.md", "docs/manual/speed.md",
                                                  "bench/TRIED.md")
MARK = re.compile(r"(<!-- table (\w+) -->\n)(.*?)(<!-- end -->)", re.DOTALL)
Row = Dict[str, str]


def is_measured(column: str) -> bool:
    """Whether a column has what was measured; else it says of what."""
    return column in RATIOS + IN_WORDS or column.rpartition("_")[2] in UNITS or column.startswith(("ms_", "mb_"))


def read_results(name: str, folder: Path = HERE / "results") -> List[Row]:
    """The rows of a file of results; refuses one that is no such file."""
    path = folder / f"{name}.csv"
    if not path.is_file():
        raise Refusal(f"{name} is none of {', '.join(sorted(file.stem for file in folder.glob('*.csv')))}")
    with open(path, newline="", encoding="utf-8") as text:
        reader = csv.DictReader(text)
        if list(reader.fieldnames or [])[: len(HEAD)] != HEAD:
            raise Refusal(f"{path.name} does not begin with the columns {', '.join(HEAD)}")
        rows = list(reader)
    for number, row in enumerate(rows, 2):
        if None in row or None in row.values():
            raise Refusal(f"{path.name} line {number} has another number of fields than the first line")
    return rows


def case_of(row: Row) -> Tuple[str, ...]:
    """What a row is a measurement of."""
    return tuple(value for column, value in row.items() if column not in HEAD and not is_measured(column))


def latest(rows: Sequence[Row]) -> List[Row]:
    """Of each case the rows of its last day."""
    days: Dict[Tuple[str, ...], str] = {}
    for row in rows:
        days[case_of(row)] = max(days.get(case_of(row), ""), row["date"])
    return [row for row in rows if row["date"] == days[case_of(row)]]


# ---------------------------------------------------------------- tables of the page


def ratio(ours: str, theirs: str, digits: int) -> Callable[[Row], str]:
    """A cell with a time of ours and how many times the other program's it is."""

    def cell(row: Row) -> str:
        if not row[ours]:
            return ""
        return f"{float(row[ours]):.{digits}f} · {float(row[ours]) / float(row[theirs]):.2f}"

    return cell


class Table(NamedTuple):
    """A table of the page: a file's latest rows that have the values `only`, with `keys` as the first columns, the
    values of `across` as the others, and what `cell` says of each."""

    file: str
    keys: Tuple[str, ...]
    across: str
    cell: Callable[[Row], str]
    only: Tuple[Tuple[str, str], ...] = ()
    page: str = PAGE


class Listed(NamedTuple):
    """A table of a page: the rows of a file that have the values `only`, all or the latest, with what the columns say of
    each under their heads."""

    file: str
    columns: Tuple[Tuple[Callable[[Row], str], str], ...]
    only: Tuple[Tuple[str, str], ...] = ()
    page: str = PAGE
    is_latest: bool = False


class Made(NamedTuple):
    """A table of a page that a function makes."""

    text: Callable[[], str]
    page: str


def value_of(name: str) -> Callable[[Row], str]:
    """A cell with what a row has in a column."""
    return lambda row: row[name]


def span(what: str, unit: str) -> Callable[[Row], str]:
    """A cell with the least and the most of what was measured."""

    def cell(row: Row) -> str:
        least, most = row[f"{what}_from_{unit}"], row[f"{what}_to_{unit}"]
        return least if least == most else f"{least} to {most}"

    return cell


def megabytes(what: str) -> Callable[[Row], str]:
    """A cell with kB of 1024 bytes as MB of a million."""
    return lambda row: f"{1.024 * float(row[what]) / 1000:.1f}"


def least_to_most(values: Sequence[float]) -> str:
    """Numbers to a tenth, from the least to the greatest."""
    shown = in_order(f"{value:.1f}" for value in sorted(values))
    return shown[0] if len(shown) == 1 else f"{shown[0]} to {shown[-1]}"


def tried(subject: str) -> Listed:
    """The comparisons of a subject."""
    columns = (("what", "what"), ("forms", "forms"), ("seen", "seen"), ("processor", "processor"), ("machine", "machine"),
               ("date", "day"))
    return Listed("tried", tuple((value_of(name), head) for name, head in columns), (("subject", subject),), TRIED)


def front_table() -> str:
    """The speed of whole runs with AVX2 and ten sweeps an epoch, and of four workers, by size."""
    chosen = (("processor", "x86-64-v3"), ("sweeps", "10"))
    runs, workers = (latest([row for row in read_results(file) if all(row[key] == value for key, value in chosen)])
                     for file in ("whole_runs", "workers"))
    sizes, rules = in_order(row["size"] for row in runs), in_order(row["rule"] for row in runs)
    of = {(row["rule"], row["size"]): row for row in runs}
    body = [[rule, *(f"{float(of[rule, size]['ps']):.0f}" for size in sizes)] for rule in rules]
    body.append(["of a hand-made C++ program's time, by rule", *(", ".join(
        f"{float(of[rule, size]['glass_ms']) / float(of[rule, size]['cpp_ms']):.2f}" for rule in rules) for size in sizes)])
    body.append(["four workers, times as fast as one", *(least_to_most(
        [float(row["times"]) for row in workers if row["size"] == size]) for size in sizes)])
    return lines_of(["size", *sizes], body)


TABLES: Dict[str, Union[Table, Listed, Made]] = {
    "whole_runs": Table("whole_runs", ("processor", "rule", "sweeps"), "size", ratio("glass_ms", "cpp_ms", 0)),
    "workers": Table("workers", ("sweeps",), "size", lambda row: row["times"]),
    "workers_bound": Table("workers", ("sweeps",), "size", lambda row: row["four_runs_times"]),
    "packed_sweep": Table("packed_sweep", ("processor", "rule"), "size", ratio("glass_ps", "c_ps", 1)),
    "packed_sums": Table("packed_sums", ("function",), "size", ratio("glass_ns", "c_ns", 0),
                         (("processor", "x86-64-v3"),)),
    "potts": Table("potts", ("processor",), "size", ratio("glass_ps", "c_ps", 0)),
    "banks": Table("banks", ("processor",), "size", ratio("ms_256", "ms_64", 0)),
    "gate": Listed("gate", tuple((value_of(name), head) for name, head in (
        ("date", "day"), ("machine", "machine"), ("processors", "processors"), ("clock_min", "by the clock"),
        ("all_min", "processor time"), ("proof_min", "proofs"), ("tests_min", "tests"), ("edits_min", "edits"),
        ("edits", "edits tried"))), (("crates", "all"),), CONTRIBUTING),
    "run_cost": Listed("run_cost", (
        (value_of("size"), "size"), (span("metropolis", "ps"), "a by Metropolis, ps"),
        (span("heat_bath", "ps"), "a by heat bath, ps"), (span("epoch", "us"), "c, microseconds"),
        (span("start", "s"), "start, seconds")), (), COST, True),
    "memory": Listed("memory", (
        (value_of("size"), "size"), (value_of("slots"), "temperatures"), (megabytes("run_kb"), "`run`, MB"),
        (megabytes("one_bin_kb"), "`measure` with one bin, MB"), (megabytes("six_bins_kb"), "with six bins, MB"),
        (lambda row: f"{1.024 * float(row['bin_kb']):.1f}", "a bin and temperature, kB"),
        (megabytes("worker_kb"), "a further worker, MB")), (), COST, True),
    "speed": Made(front_table, FRONT),
    **{f"tried_{subject}": tried(subject) for subject in ("sweep", "runs", "workers", "sums", "potts", "gate", "every")},
}


def in_order(values: Iterable[str]) -> List[str]:
    """Values once each, in the order in which they come."""
    return list(dict.fromkeys(values))


def lines_of(header: Sequence[str], rows: Iterable[Sequence[str]]) -> str:
    """A table of the page's markup."""
    lines = [f"| {' | '.join(line)} |\n" for line in (header, *rows)]
    return lines[0] + "|" + "---|" * len(header) + "\n" + "".join(lines[1:])


def page_table(table: Table, rows: Sequence[Row]) -> str:
    """A table of the page, of all rows of its file."""
    chosen = latest([row for row in rows if all(row[column] == value for column, value in table.only)])
    columns = in_order(row[table.across] for row in chosen)
    body = []
    for key in in_order(tuple(row[column] for column in table.keys) for row in chosen):
        cells = [[table.cell(row) for row in chosen if tuple(row[name] for name in table.keys) == key
                  and row[table.across] == column] for column in columns]
        body.append([*key, *(", ".join(filter(None, cell)) for cell in cells)])
    return lines_of([*table.keys, *(f"{table.across} {column}" for column in columns)], body)


def listed_table(table: Listed, rows: Sequence[Row]) -> str:
    """A table of the page with the columns of a file's rows."""
    chosen = [row for row in rows if all(row[name] == value for name, value in table.only)]
    chosen = latest(chosen) if table.is_latest else chosen
    return lines_of([head for _, head in table.columns], ([cell(row) for cell, _ in table.columns] for row in chosen))


def made_table(table: Union[Table, Listed, Made]) -> str:
    if isinstance(table, Made):
        return table.text()
    rows = read_results(table.file)
    return page_table(table, rows) if isinstance(table, Table) else listed_table(table, rows)


def with_tables(page: str, name: str = PAGE) -> str:
    """The page of this name with each marked table as it is made; refuses a mark that is none of its own."""
    own = {key for key, table in TABLES.items() if table.page == name}

    def made(found: "re.Match[str]") -> str:
        if found.group(2) not in own:
            raise Refusal(f"{found.group(2)} is no table of the page")
        return found.group(1) + made_table(TABLES[found.group(2)]) + found.group(4)

    missing = own - {mark for _, mark, _, _ in MARK.findall(page)}
    if missing:
        raise Refusal(f"the page has no place for {', '.join(sorted(missing))}")
    return MARK.sub(made, page)


# ---------------------------------------------------------------- what was measured, as text


def show(rows: Sequence[Row]) -> str:
    return lines_of(list(rows[0]), (list(row.values()) for row in latest(rows)))


def trend(rows: Sequence[Row]) -> str:
    """Each case and what was measured of it, in the order of days; the quotient is that of the last and the first
    measurement of one machine, and "-" where there is one alone."""
    measured = [column for column in rows[0] if is_measured(column)]
    said = [column for column in rows[0] if column not in HEAD and column not in measured]
    body = []
    for case in in_order(case_of(row) for row in rows):
        of_case = sorted((row for row in rows if case_of(row) == case), key=lambda row: row["date"])
        for row in of_case:
            first = next(other for other in of_case if other["machine"] == row["machine"])
            body.append([*case, row["date"], row["machine"], row["commit"], *(row[name] or "-" for name in measured),
                         quotient(row, first, measured[0])])
    return lines_of([*said, "date", "machine", "commit", *measured, "of the first"], body)


def quotient(row: Row, first: Row, column: str) -> str:
    """How many times the first measurement of its machine a row's is, by its first measured column."""
    if row is first or not row[column] or not first[column] or column in IN_WORDS:
        return "-"
    return f"{float(row[column]) / float(first[column]):.2f}"


# ---------------------------------------------------------------- tests and words


def refusal(work: Callable[[], object]) -> str:
    """What a piece of work is refused with, or nothing."""
    try:
        work()
    except Refusal as fault:
        return str(fault)
    return ""


def self_test() -> int:
    checks = Checks("tables")
    head = dict(commit="c", load="quiet", turns="1")
    rows = [dict(machine="A", date="2026-11-27", **head, size="8", glass_ms="20", cpp_ms="10"),
            dict(machine="B", date="2026-11-29", **head, size="8", glass_ms="12", cpp_ms="16"),
            dict(machine="A", date="2026-11-28", **head, size="8", glass_ms="15", cpp_ms="10"),
            dict(machine="A", date="2026-11-28", **head, size="16", glass_ms="30", cpp_ms="40")]
    checks.same("the last day of each case", [row["glass_ms"] for row in latest(rows)], ["12", "30"])
    table = Table("f", ("load",), "size", ratio("glass_ms", "cpp_ms", 0))
    wanted = "| load | size 8 | size 16 |\n|---|---|---|\n| quiet | 12 · 0.75 | 30 · 0.75 |\n"
    checks.same("a table of the page", page_table(table, rows), wanted)
    last = [line.rpartition(" | ")[2] for line in trend(rows).splitlines()[2:]]
    checks.same("of the first of its machine", last, ["- |", "0.75 |", "- |", "- |"])
    listed = Listed("f", ((value_of("date"), "day"), (value_of("glass_ms"), "ours")), (("size", "16"),))
    checks.same("rows as they are", listed_table(listed, rows), "| day | ours |\n|---|---|\n| 2026-11-28 | 30 |\n")
    checks.same("the latest rows", len(listed_table(listed._replace(only=(), is_latest=True), rows).splitlines()), 4)
    checks.same("one value", span("a", "ps")({"a_from_ps": "7", "a_to_ps": "7"}), "7")
    checks.same("two values", span("a", "ps")({"a_from_ps": "7", "a_to_ps": "9"}), "7 to 9")
    checks.same("least to most", least_to_most([3.68, 3.53, 3.69]), "3.5 to 3.7")
    checks.same("all alike", least_to_most([3.98, 4.02]), "4.0")
    machines = "### Machines\n\n| name | what |\n|---|---|\n| A | a |\n\n### Others\n\n| B | b |\n"
    checks.same("a machine without a row", unnamed_machines(machines, rows), ["B"])
    checks.same("a table of another page", refusal(lambda: with_tables("<!-- table gate -->\n<!-- end -->"))[:4], "the ")
    for column, answer in (("glass_ms", True), ("size", False), ("ratio", True), ("what", False), ("mb_64", True), ("seen", True)):
        checks.same(f"{column} is measured", is_measured(column), answer)
    for file in sorted((HERE / "results").glob("*.csv")):
        rows = read_results(file.stem)
        checks.same(f"{file.name} has what was measured", any(map(is_measured, rows[0])), True)
        wrong = [row["date"] for row in rows if not re.match(r"2\d{3}-\d\d-\d\d$", row["date"])]
        checks.same(f"{file.name} has days", wrong, [])
    checks.same("a name that is no file", refusal(lambda: read_results("no_such_file"))[:23], "no_such_file is none of")
    checks.same("a page without its marks", refusal(lambda: with_tables("text"))[:25], "the page has no place for")
    return checks.end()


def unnamed_machines(page: str, rows: Iterable[Row]) -> List[str]:
    """The machines of rows that have no row in the page's table of machines."""
    table = page.partition("### Machines\n")[2].partition("\n#")[0]
    named = re.findall(r"^\| (\w+) \|", table, re.MULTILINE)
    return sorted({row["machine"] for row in rows} - set(named))


def write_or_check(is_check: bool) -> int:
    status = 0
    for name in PAGES:
        page = HERE.parent / name
        text = page.read_text(encoding="utf-8")
        made = with_tables(text, name)
        if not is_check:
            page.write_text(made, encoding="utf-8")
        elif made != text:
            print(f"{name}: its tables are not those of bench/results; bench/tables.py --write makes them", file=sys.stderr)
            status = 1
    rows = (row for file in (HERE / "results").glob("*.csv") for row in read_results(file.stem))
    unnamed = unnamed_machines((HERE.parent / PAGE).read_text(encoding="utf-8"), rows)
    if is_check and unnamed:
        print(f"{PAGE}: its table of machines has no row of {', '.join(unnamed)}", file=sys.stderr)
        status = 1
    return status


def main(words: Optional[Sequence[str]] = None) -> int:
    parser = OneLineParser(prog="tables", description=__doc__, formatter_class=argparse.RawDescriptionHelpFormatter)
    asked = parser.add_mutually_exclusive_group(required=True)
    for flag in ("--write", "--check", "--self-test"):
        asked.add_argument(flag, action="store_true")
    asked.add_argument("--show", metavar="NAME")
    asked.add_argument("--trend", metavar="NAME")
    said = parser.parse_args(words)
    if said.self_test:
        return self_test()
    if said.show or said.trend:
        print((show if said.show else trend)(read_results(said.show or said.trend)), end="")
        return 0
    return write_or_check(said.check)


if __name__ == "__main__":
    sys.exit(status_of("tables", main))
