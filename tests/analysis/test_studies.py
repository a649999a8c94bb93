"""What the studies in examples compute beside the package, on data with a known answer."""
import importlib.util
import math
import os
import subprocess
import sys
from pathlib import Path

import numpy as np
import pytest
from analyse_test import text_of_lines, true_report
from chances import normal_bound, student_bound
from make_tables import Refusal

EXAMPLES = Path(__file__).resolve().parent.parent.parent / "examples"


def study(name):
    spec = importlib.util.spec_from_file_location(f"study_{name}", EXAMPLES / name / "compare.py")
    module = importlib.util.module_from_spec(spec)
    spec.loader.exec_module(module)
    return module


def begun(script, words=(), **variables):
    """Status and error output of a study's script."""
    ran = subprocess.run([str(EXAMPLES / script), *words], stdout=subprocess.DEVNULL, stderr=subprocess.PIPE,
                         universal_newlines=True, check=False, env={**os.environ, **variables})
    return ran.returncode, ran.stderr


@pytest.mark.parametrize("script", ["aging_32/run", "crossing/study", "ising_4/study", "nishimori_8/study", "samples_4/study",
                                    "validation/study"])
def test_a_study_without_a_program_is_told_in_a_line(script):
    status, said = begun(script, GLASS="/none/such", PYTHON=sys.executable)
    assert status == 2 and said.count("\n") == 1 and "there is no program /none/such" in said


@pytest.mark.parametrize("name", ["crossing", "nishimori_8", "samples_4", "validation"])
def test_a_study_looks_for_numpy_before_it_runs(name):
    status, said = begun(f"{name}/study", GLASS="/bin/true", PYTHON="/bin/false")
    assert status == 2 and said.count("\n") == 1 and "lacks numpy" in said


@pytest.mark.parametrize("script, word", [("crossing/study", "1"), ("nishimori_8/study", "1"), ("ising_4/study", "x"),
                                          ("samples_4/study", "01")])
def test_a_word_that_is_no_number_is_refused(script, word):
    status, said = begun(script, [word], GLASS="/bin/true")
    assert status == 2 and said.count("\n") == 1 and said.endswith(f": {word}\n")


@pytest.mark.parametrize("name", ["crossing", "ising_4", "nishimori_8", "samples_4", "validation"])
def test_a_comparison_of_nothing_is_refused_in_a_line(name):
    words = [sys.executable, str(EXAMPLES / name / "compare.py")]
    ran = subprocess.run(words, stderr=subprocess.PIPE, universal_newlines=True, check=False)
    assert ran.returncode == 2 and ran.stderr.count("\n") == 1 and ran.stderr.startswith("compare: ")


def test_curves_cross_where_the_smaller_size_comes_to_be_above():
    crossing, temperatures = study("crossing").crossing, np.linspace(0.9, 2.2, 20)
    small, large = (0.5 - slope * (temperatures - 1.1) + 0.1 * (temperatures - 1.1) ** 2 for slope in (0.2, 0.6))
    assert crossing(temperatures, small, large) == pytest.approx(1.1)
    assert math.isnan(crossing(temperatures, large, small)) and math.isnan(crossing(temperatures, small + 1, large))


def test_crossings_of_noisy_curves_have_ends_and_no_error_that_is_nan():
    """Curves of the slopes 0.2 and 0.6 cross at 1.1; with this noise some resamples of flatter ones don't cross."""
    examples, temperatures, random = study("crossing"), np.linspace(1, 1.8, 10), np.random.default_rng(15)

    def size(slope):
        ratio = 0.5 - slope * (temperatures - 1.1) + random.normal(0, 0.02, (6, 8, 1))
        # Moments whose Binder ratio is this one: q^2 is 1, and q^4 is 3 - 2 ratio.
        moments = np.stack([0 * ratio, 1 + 0 * ratio, 3 - 2 * ratio, 0 * ratio], axis=-1)
        return examples.Size(moments[:, :, None], np.zeros((6, 8, 1)), [])

    steep = examples.crossing_of(temperatures, size(0.2), size(0.6))
    assert steep.missing < 0.01 and abs(steep.value - 1.1) < student_bound(47) * (steep.high - steep.low) / 2 < 0.15
    flat = examples.crossing_of(temperatures, size(0.2), size(0.21))
    assert 0 < flat.missing < 1 and math.isfinite(flat.low) and math.isfinite(flat.high)
    assert examples.told(steep).startswith("at T = 1.") and "of the resamples do, between " in examples.told(flat)
    assert examples.told(flat._replace(value=math.nan)).startswith("nowhere; ")


def test_reports_of_two_numbers_of_epochs_are_not_taken_together(tmp_path):
    crossing = study("crossing")
    crossing.here, crossing.BLOCKS = tmp_path, 2
    for seed, epochs in ((1, 16), (2, 16), (3, 32)):
        (tmp_path / f"seed_4_{seed}.txt").write_text(text_of_lines(true_report(seed, epochs, 1, False)[0]))
    assert len(crossing.read_size(4, 2).trips) == 2
    with pytest.raises(Refusal, match="seed_4_3.txt goes to epoch 32, and that of seed 1 to 16"):
        crossing.read_size(4, 3)


def test_what_samples_have_in_common_is_in_the_distance_alone():
    random = np.random.default_rng(6)
    energies = -1.5 + random.normal(0, 1, (400, 64)) + random.normal(0, 0.5, (400, 1))
    distance, of_samples = study("nishimori_8").squares(energies, -1.5)
    # Squares of 400 distances, and of 400 times 63 within them.
    rel = [normal_bound(2) * (2 / count) ** 0.5 for count in (400, 400 * 63)]
    assert distance == pytest.approx(1 / 64 + 1 / 4, rel=rel[0]) and of_samples == pytest.approx(1 / 64, rel=rel[1])
