"""The command line of tools/estimate.py."""
import subprocess
import sys
from pathlib import Path

import analyse
import estimate
import pytest
from analyse_test import SAMPLES, true_report
from lines_report_test import SAMPLES as SAMPLES_OF_LINES
from lines_report_test import SIZE, text_of_lines, true_lines
from make_tables import outcome
from written import write_run


@pytest.fixture(scope="module")
def reports(tmp_path_factory):
    folder = tmp_path_factory.mktemp("reports")
    for seed in (1, 2, 3):
        (folder / f"{seed}.txt").write_text(text_of_lines(true_report(seed, 16, 1, False)[0]))
    return folder


def call(*words):
    return outcome(list(map(str, words)), estimate.main)


@pytest.mark.parametrize("command, words", [("means", []), ("overlaps", ["--slot", "0", "2"]), ("equilibration", []), ("walks", [])])
def test_a_figure_and_a_table(reports, command, words):
    picture = reports / f"{command}.png"
    for several in ([1], [1, 2, 3]):
        given = [reports / f"{seed}.txt" for seed in several]
        run = write_run(reports, [1, 1.5, 2], "metropolis", samples=SAMPLES)
        status, out, err = call(command, *given, "--run", run, "--plot", picture, *words)
        assert (status, err) == (0, "") and f"wrote {picture}" in out
        assert picture.read_bytes()[:4] == b"\x89PNG"
        assert ("share each random number" in out) == (len(several) == 1)


def test_means_are_those_of_the_other_tools(reports):
    import jackknife
    given = [reports / f"{seed}.txt" for seed in (1, 2, 3)]
    other = outcome([str(name) for name in given], jackknife.main)[1].splitlines()[2:]
    for mine, theirs in zip(call("means", *given)[1].splitlines()[2:], other):
        mine, theirs = mine.split(), theirs.split()
        assert mine[:5] == theirs[:5] and mine[7:9] == theirs[7:9]


def test_a_figure_and_a_table_of_lengths(tmp_path):
    given = [tmp_path / f"{seed}.txt" for seed in (1, 2, 3)]
    for seed, name in enumerate(given, 1):
        name.write_text(text_of_lines(true_lines(seed)[0]))
    picture = tmp_path / "lengths.png"
    for files in (given[:1], given):
        run = write_run(tmp_path, [1, 1.5], size=SIZE, samples=SAMPLES_OF_LINES)
        status, out, err = call("lengths", *files, "--run", run, "--plot", picture)
        assert (status, err) == (0, "") and picture.read_bytes()[:4] == b"\x89PNG"
        assert ("share each random number" in out) == (len(files) == 1)
        other = outcome([str(name) for name in files] + ["--temperatures", "1", "1.5"], analyse.main)[1].splitlines()[2:4]
        for mine, theirs in zip(out.splitlines()[2:4], other):
            assert mine.split()[:4] == theirs.split()[:4] and " no length: " in mine
    for words in ([given[0], given[0]], [given[0], "--blocks", 2], [tmp_path / "none"], [given[0], "--temperatures", 1, 1.5],
                  [given[0], "--run", write_run(tmp_path, [1, 1.5, 2], size=SIZE, samples=SAMPLES_OF_LINES)]):
        assert call("lengths", *words)[0] == 2


# Replicas of slot 1 that agree at half of the sites, and correlations that are 0: no Binder ratio there, and no errors.
NO_OVERLAP = """glass 1 size=4 slots=2 samples=2 rule=heat from=0 to=1
row,0,0,0,192,192,64,0,0
row,0,0,1,0,0,0,1,1
row,0,1,0,192,192,64,0,0
row,0,1,1,0,0,0,1,1
end,1
"""
NO_LENGTH = "lines 1 size=4 slots=2 samples=1 epoch=1\n" + "".join(
    f"link,0,{slot},0\n" + "".join(f"line,0,{slot},{d},{r},0\n" for d in range(3) for r in (1, 2))
    for slot in range(2)) + "end\n"


@pytest.mark.filterwarnings("error")
@pytest.mark.parametrize("command, text, undefined", [("means", NO_OVERLAP, [False, True]), ("lengths", NO_LENGTH, [True, True])],
                         ids=["means", "lengths"])
def test_what_is_not_defined_is_nan_without_a_warning(tmp_path, command, text, undefined):
    (tmp_path / "text").write_text(text)
    status, out, err = call(command, tmp_path / "text", "--plot", tmp_path / "figure.png")
    slots = out.splitlines()[2:4]
    assert (status, err) == (0, "") and ["nan" in line for line in slots] == undefined


def test_the_two_kinds_of_files_are_not_taken_for_each_other(reports, tmp_path):
    (tmp_path / "lines.txt").write_text(text_of_lines(true_lines(1)[0]))
    assert call("lengths", reports / "1.txt")[0] == 2 and call("means", tmp_path / "lines.txt")[0] == 2


def test_a_figure_has_the_name_that_is_told(reports):
    picture = reports / "without_ending"
    status, out, _ = call("means", reports / "1.txt", "--plot", picture)
    assert status == 0 and f"wrote {picture}\n" in out and picture.read_bytes()[:4] == b"\x89PNG"


@pytest.mark.skipif(not Path("/dev/full").exists(), reason="there is no full device")
@pytest.mark.parametrize("kind", ["npz", "csv"])
def test_arrays_on_a_full_disk_are_told_in_a_line(reports, kind):
    words = [sys.executable, estimate.__file__, "export", reports / "1.txt", f"--{kind}", "/dev/full"]
    ran = subprocess.run(words, stdout=subprocess.DEVNULL, stderr=subprocess.PIPE, universal_newlines=True, check=False)
    assert (ran.returncode, ran.stderr) == (2, "estimate: /dev/full can't be written: No space left on device\n")


@pytest.mark.parametrize("words", [["means", "none/such"], ["means", "--betas", "1", "1.txt"], ["what", "1.txt"], [],
                                   ["overlaps", "1.txt", "--slot", "3"], ["overlaps", "1.txt", "--bins", "0"],
                                   ["export", "1.txt"], ["means", "1.txt", "--skip", "99"], ["means", "1.txt", "--blocks", "3"],
                                   ["means", "1.txt", "2.txt", "--blocks", "1"], ["means", "1.txt", "--plot", "x.what"],
                                   ["means", "1.txt", "1.txt"], ["times", "1.txt", "--blocks", "2"],
                                   ["export", "1.txt", "--npz", "x.npz", "--blocks", "2"],
                                   ["export", "1.txt", "2.txt", "--npz", "x.npz"], ["export", "1.txt", "--hdf5", "none/x.h5"],
                                   ["reweight", "1.txt"], ["reweight", "1.txt", "--at", "1.5"], ["bracket", "1.txt"],
                                   ["bracket", "1.txt", "--random", "1.txt"], ["bracket", "1.txt", "--random", "2.txt", "3.txt"],
                                   ["walks", "1.txt", "--feedback"], ["overlaps", "1.txt", "--below", "2"],
                                   ["means", "1.txt", "--run", "none.toml"], ["means", "1.txt", "--run", "x", "--betas", "1"]])
def test_a_refusal_is_a_line(reports, words, monkeypatch):
    monkeypatch.chdir(reports)
    status, _, err = call(*words)
    assert (status, err.count("\n"), err[:10]) == (2, 1, "estimate: ")
