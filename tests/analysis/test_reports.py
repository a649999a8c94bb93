"""The reader of reports into arrays, beside the records of an independent program and the line-by-line reader."""
import io

import numpy as np
import pytest
from analyse import Report
from analyse_test import HOTTER_FIRST, text_of_lines, true_report
from make_tables import Refusal

from glass_analysis.export import write_csv, write_npz
from glass_analysis.reports import lawful_records, read_reports, records_of


def refusal_of(read, text):
    try:
        read(text.encode("latin-1"))
    except Refusal as refusal:
        return str(refusal)
    return None


def assert_alike(text, what):
    """Both readers accept, or refuse in the same words, and the fast one sees by itself whether to refuse."""
    wanted = refusal_of(lambda stored: Report("r", io.BytesIO(stored), 0), text)
    assert refusal_of(lambda stored: records_of("r", stored), text) == wanted, what
    assert (lawful_records("r", io.BytesIO(text.encode("latin-1"))) is None) == (wanted is not None), what


def damaged_lines(line):
    yield from (" " + line, line + " ", line[:len(line) // 2], line.upper(), line.replace(",", ",+", 1), line + "\r", "")
    fields = line.split(",")
    for n, field in enumerate(fields):
        for other in ("", "00", "1", "2", "7", "193", "-194", "65", "-0", "1e1", "99999999999", field + "2", f" {field}"):
            yield ",".join(fields[:n] + [other] + fields[n + 1:])


@pytest.mark.parametrize("every, spins", [(1, True), (1, False), (2, False)])
def test_records_are_those_of_the_run(made_reports, every, spins):
    lines, taken = made_reports[every, spins]
    records = records_of("r", text_of_lines(lines).encode())
    assert records.epochs.tolist() == sorted(taken)
    assert (records.size, records.rule, records.every) == (4, "metropolis", every)
    for e, epoch in enumerate(sorted(taken)):
        rows = np.array(taken[epoch])
        assert np.array_equal(records.energies[e], rows[..., 0:2])
        assert np.array_equal(records.overlaps[e], rows[..., 2])
        assert np.array_equal(records.labels[e], rows[..., 3:5])


@pytest.mark.parametrize("every, spins", [(1, True), (1, False), (2, False)])
def test_what_no_run_prints_is_refused_in_the_same_words(made_reports, every, spins):
    lines, _ = made_reports[every, spins]
    assert_alike(text_of_lines(lines), "whole")
    assert_alike(text_of_lines(lines)[:-1], "the last line feed")
    for n, line in list(enumerate(lines))[::1 if every == 2 else 3]:
        assert_alike(text_of_lines(lines[:n] + lines[n + 1:]), f"line {n} left out")
        assert_alike(text_of_lines(lines[:n + 1] + lines[n:]), f"line {n} twice")
        assert_alike(text_of_lines(lines[:n]), f"cut before line {n}")
    for n in [0, 1, 2, 7, len(lines) - 14, len(lines) - 13, len(lines) - 12, len(lines) - 1]:
        for changed in damaged_lines(lines[n]):
            assert_alike(text_of_lines(lines[:n] + [changed] + lines[n + 1:]), f"line {n} as {changed!r}")


@pytest.mark.parametrize("header", ["size=5", "size=66", "slots=0", "slots=33", "samples=0", "samples=9999", "from=9", "from=1", "to=7", "to=9",
                                    "to=99999999999"])
@pytest.mark.parametrize("every", [1, 2])
def test_headers(made_reports, header, every):
    lines, _ = made_reports[every, False]
    words = [header if word.startswith(header.split("=")[0] + "=") else word for word in lines[0].split(" ")]
    assert_alike(text_of_lines([" ".join(words)] + lines[1:]), header)
    assert_alike(text_of_lines([" ".join(words), lines[-1]]), header)


def test_reports_of_other_runs_are_refused(tmp_path):
    names = []
    for n, text in enumerate([text_of_lines(true_report(1, 4, 1, False)[0]), HOTTER_FIRST]):
        names.append(str(tmp_path / f"{n}.txt"))
        (tmp_path / f"{n}.txt").write_text(text)
    for given, what in (([names[0]] * 2, "the same rows"), (names, "of another run")):
        with pytest.raises(Refusal, match=what):
            read_reports(given)
    with pytest.raises(Refusal, match="no row from epoch 99 on"):
        read_reports(names[:1], 99)


def test_exports_are_the_rows(made_reports, tmp_path):
    lines, _ = made_reports[1, False]
    records = records_of("r", text_of_lines(lines).encode())
    write_csv(str(tmp_path / "r.csv"), records)
    rows = [line[4:] for line in lines if line.startswith("row,")]
    assert (tmp_path / "r.csv").read_text().splitlines() == ["epoch,sample,slot,energy_0,energy_1,overlap,label_0,label_1"] + rows
    write_npz(str(tmp_path / "r.npz"), records)
    stored = np.load(tmp_path / "r.npz")
    assert np.array_equal(stored["energies"], records.energies) and stored["size"] == 4
