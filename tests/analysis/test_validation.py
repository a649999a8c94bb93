"""The arithmetic of examples/validation, on data whose answer is known."""
import math
import os
import shutil
import subprocess
import sys
from pathlib import Path

import numpy as np
import pytest
from chances import CHANCE
from scipy import stats

FOLDER = Path(__file__).resolve().parent.parent.parent / "examples" / "validation"
sys.path.insert(0, str(FOLDER))

import compare  # noqa: E402
import parts  # noqa: E402
import runs  # noqa: E402
from couplings import random_sample  # noqa: E402
from glass_analysis import Estimate  # noqa: E402
from reference.arrays import Lattice  # noqa: E402

KNOWN = np.array([1.0, -2.0, 0.5])


def studies(count, number):
    """Runs of three values around KNOWN that follow each other, as the slots of a run do."""
    random = np.random.default_rng(11)
    mixing = np.array([[1.0, 0.95, 0.9], [0.0, 0.3, 0.2], [0.0, 0.0, 0.1]])
    return [KNOWN + random.normal(size=(number, 3)) @ mixing for _ in range(count)]


def test_the_probability_of_exact_means_is_uniform_where_values_follow_each_other_and_runs_are_few():
    chances = [compare.probability(values, KNOWN) for values in studies(700, 12)]
    assert stats.kstest(chances, "uniform").pvalue > CHANCE
    # Squares of distances in errors, summed as if the values were independent, are no chi-square with three degrees.
    sums = [sum(compare.distance(Estimate(*(part[n] for part in compare.deviation(values))), compare.Known(KNOWN[n])) ** 2 for n in range(3))
            for values in studies(700, 12)]
    assert stats.kstest(stats.chi2.sf(sums, 3), "uniform").pvalue < 1e-4


def test_a_wrong_number_is_seen():
    values = studies(1, 40)[0]
    assert compare.probability(values, KNOWN) > 0.001
    # Each value by itself is off by two thirds of an error; what they have in common is not.
    error = compare.deviation(values).error
    assert compare.probability(values, KNOWN + [0, 0.67 * error[1], -0.67 * error[2]]) < 0.01


def test_one_value_is_students_test():
    values = np.array([[1.0], [2.0], [4.0], [5.5]])
    away = compare.distance(Estimate(*(part[0] for part in compare.deviation(values))), compare.Known(2.0))
    assert compare.chance(away, 4) == pytest.approx(stats.ttest_1samp(values[:, 0], 2.0).pvalue)
    assert compare.probability(values, [2.0]) == pytest.approx(stats.ttest_1samp(values[:, 0], 2.0).pvalue)
    assert math.isnan(compare.probability(values[:2], [2.0]))


def test_probabilities_are_joined_by_their_chi_squares():
    chances = stats.chi2.sf([3.0, 7.5], [4, 9])
    assert compare.chi_square(list(zip(chances, [4, 9]))) == pytest.approx((10.5, 13, stats.chi2.sf(10.5, 13)))
    random = np.random.default_rng(3)
    joined = [compare.chi_square([(random.random(), 4), (random.random(), 9), (random.random(), 1)])[2] for _ in range(700)]
    assert stats.kstest(joined, "uniform").pvalue > CHANCE


def test_parts_whose_runs_have_couplings_in_common_are_one_study():
    random = np.random.default_rng(5)
    chances, apart = [], []
    for _ in range(700):
        common = random.normal(size=(20, 1))
        parts = [common + 0.3 * random.normal(size=(20, 1)), common[:15] + 0.3 * random.normal(size=(15, 1))]
        chances.append(compare.probability(compare.beside(parts), [0, 0]))
        apart.append(compare.chi_square([(compare.probability(values, [0]), 1) for values in parts])[2])
    assert stats.kstest(chances, "uniform").pvalue > CHANCE and stats.kstest(apart, "uniform").pvalue < 1e-4


def test_a_distance_has_both_errors():
    assert compare.distance(Estimate(np.array(1.5), np.array(0.3)), compare.Known(1.0, 0.4)) == pytest.approx(1)


def test_halves_that_drift_are_seen():
    random = np.random.default_rng(8)
    first, last = random.normal(0, 1, (40, 2)), random.normal(0, 1, (40, 2))
    assert compare.halves(compare.Runs("", first + last, first, last, 0.0)) > 0.01
    assert compare.halves(compare.Runs("", first + last, first, last + [0, 1], 0.0)) < 0.01


def test_a_gauge_keeps_the_energies_of_turned_spins():
    bonds = random_sample(4, 1, 0, 0.5)
    turned, = parts.gauges(9, 4, [bonds])
    before, after = (Lattice(4, [couplings]) for couplings in (bonds, turned))
    # The signs are found from the couplings that changed, from site to site along the axes.
    signs = np.zeros(64, np.int8)
    changed = (np.frombuffer(bonds, np.uint8) ^ np.frombuffer(turned, np.uint8)).reshape(64, 3)
    for site in range(1, 64):
        d = 0 if site % 4 else 1 if site % 16 else 2
        signs[site] = signs[site - 4 ** d] ^ changed[site - 4 ** d, d]
    spins = np.random.default_rng(4).choice(np.array([-1, 1], np.int8), (64, 1, 1, 5))
    turned_spins = spins * (1 - 2 * signs)[:, None, None, None]
    every = np.arange(64)
    assert np.array_equal((before.fields(spins, every, 6) * spins), (after.fields(turned_spins, every, 6) * turned_spins))
    assert 0 < signs.sum() < 64


def test_values_of_a_run_and_of_its_halves():
    part = parts.BY_NAME["nishimori_8_0.2"]
    energies = np.arange(8.0).reshape(4, 2, 1, 1).repeat(2, axis=3) * 512
    assert runs.taken(part, energies, np.zeros((4, 2, 1))) == pytest.approx([3.5, 1.5, 5.5])
    glasses = np.zeros((1, 3, 5, 2)) + np.array([0, 64, 128]).reshape(1, 3, 1, 1)
    assert parts.energies_of_glasses(glasses, None, 64) == pytest.approx([0, 0, 0, 1, 1, 1, 2, 2, 2])
    least = np.array([[[[-8, -8], [-4, 0]], [[0, 0], [-2, -8]]]]).reshape(1, 2, 2, 2)
    assert parts.least_energies(least, None, 1) == [-8.0, 0.5]


def test_each_set_of_the_independent_programs_samples_is_a_line(tmp_path, monkeypatch):
    monkeypatch.setattr(runs, "MEASURED", tmp_path)
    part = parts.BY_NAME["glasses_4"]._replace(epochs=40, skip=0, every=2)
    lines = runs.of_reference(part, 1)
    assert len(lines) == 21 and {len(line) for line in lines} == {27}
    # At the lowest temperature no energy is below the ground state's: examples/samples_4.
    assert all(line[0] >= -114 / 64 and line[9] >= -112 / 64 and line[18] >= -108 / 64 for line in lines)


def test_no_two_runs_have_one_seed():
    seeds = [part.seed(run) for part in parts.PARTS for run in (1, 100 * part.runs)]
    assert len(set(seeds)) == len(seeds) and all(one < other for one, other in zip(seeds, seeds[1:]))


def test_runs_that_are_kept_are_not_made_again(tmp_path, monkeypatch):
    monkeypatch.setattr(runs, "MEASURED", tmp_path)
    part = parts.BY_NAME["critical_24"]
    wanted = runs.tasks("glass", 0.05)
    assert [task.run for task in wanted if task.part == part.name] == [1, 2, 3, 4] and wanted[0].run == 1
    runs.keep(runs.Task(part.name, 2, "glass"), [[2, part.seed(2), 1.5, 0.0, 1.0, 2.0]])
    runs.keep(runs.Task(part.name, 3, "glass"), [[3, part.seed(3), 2.5, 2.0, 1.0, 2.0]])
    assert [task.run for task in runs.tasks("glass", 0.05) if task.part == part.name] == [1, 4]
    kept = compare.read_runs(tmp_path, part.name)
    assert (kept.seconds, kept.whole.tolist(), kept.first.tolist(), kept.last.tolist()) == (4.0, [[0], [2]], [[1], [1]], [[2], [2]])
    assert compare.read_runs(tmp_path, "critical_8") is None


def test_the_minutes_of_runs_are_those_of_the_runs_that_are_kept(tmp_path, monkeypatch):
    monkeypatch.setattr(runs, "MEASURED", tmp_path)
    part = parts.BY_NAME["critical_24"]
    for run, seconds in ((1, 30.0), (2, 90.0)):
        runs.keep(runs.Task(part.name, run, "glass"), [[run, part.seed(run), seconds, 0.0, 1.0, 2.0]])
    wanted = [runs.Task(name, run, "glass") for name, run in ((part.name, 3), (part.name, 4), ("critical_8", 1))]
    assert runs.minutes_of(wanted) == pytest.approx(2.0)
    # Three lines of the independent program are one run.
    runs.keep(runs.Task("glasses_4", 1, "reference"), [[1, 0, 20.0, *[0.0] * 27]] * 3)
    assert runs.minutes_of([runs.Task("glasses_4", 2, "reference")]) == pytest.approx(1.0)


def test_a_study_goes_on_from_the_runs_of_the_page(tmp_path):
    copy = tmp_path / "examples"
    shutil.copytree(FOLDER, copy / "validation", ignore=shutil.ignore_patterns("seed_*", "__pycache__"))
    shutil.copytree(FOLDER.parent / "samples_4", copy / "samples_4", ignore=shutil.ignore_patterns("seed_*"))
    shutil.copy(FOLDER.parent / "begin.sh", copy)
    (tmp_path / "tools").symlink_to(FOLDER.parent.parent / "tools")
    ran = subprocess.run([str(copy / "validation" / "study"), "--go-on", "0.05"], stdout=subprocess.PIPE, stderr=subprocess.PIPE,
                         universal_newlines=True, check=True, env={**os.environ, "GLASS": "/bin/true", "PYTHON": sys.executable})
    assert "; 0 more take about 0 processor minutes" in ran.stderr and "| ferromagnet_4 |" in ran.stdout
    kept = sorted(path.name for path in (copy / "validation" / "seed_measured").glob("*.csv"))
    assert kept == sorted(path.name for path in (FOLDER / "measured").glob("*.csv") if path.name != "series.csv")


def test_the_page_has_what_is_printed(capsys):
    page = FOLDER.parent.parent / "docs" / "manual" / "validation.md"
    assert compare.main(["measured"]) == 0
    text = page.read_text(encoding="utf-8")
    assert compare.placed(text, capsys.readouterr().out) == text


def test_a_page_gets_tables_and_sentences_in_their_places():
    page = "# P\n\n| a | b |\n|---|---|\n| 1 | 2 |\n\nSum: 3.0 of 1.\n\nText.\n"
    assert compare.placed(page, "\n| a | b |\n|---|---|\n| 5 | 6 |\n| 7 | 8 |\n\nSum: 26.0 of 2.\n") == (
        "# P\n\n| a | b |\n|---|---|\n| 5 | 6 |\n| 7 | 8 |\n\nSum: 26.0 of 2.\n\nText.\n")
    with pytest.raises(compare.Refusal):
        compare.placed(page, "Total: 4.")
