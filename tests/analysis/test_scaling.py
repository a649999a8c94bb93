"""Crossings and collapses of curves whose answer is known, and the commands over texts of sums over runs."""
import math

import numpy as np
import pytest
from chances import are_counts, are_distances, student_bound
from make_tables import Refusal, outcome
from written import write_run
from written_sums import read, text_with

import estimate
from glass_analysis.scaling import collapse_of, crossing, crossing_of
from glass_analysis.sums import figure, length_over_side, study_of_texts
from measured_text import read_measured, text_of

TRANSITION, NU = 1.1, 2.5
TEMPERATURES = np.linspace(0.95, 1.3, 8)


def scaled(size, temperatures=TEMPERATURES):
    along = (temperatures - TRANSITION) * size ** (1 / NU)
    return 0.65 - 0.25 * along + 0.04 * along ** 2 - 0.003 * along ** 3


def curves(count, noise, seed, sizes=(6, 8, 12, 16)):
    random = np.random.default_rng(seed)
    return {size: scaled(size) + noise * random.normal(size=(count, len(TEMPERATURES))) for size in sizes}


def same(values):
    return values


def test_curves_cross_where_they_are_equal():
    small, large = scaled(6), scaled(12)
    # The difference of two cubic curves is no parabola, by less than this.
    assert crossing(TEMPERATURES, small, large) == pytest.approx(TRANSITION, abs=1e-3)
    assert crossing(TEMPERATURES, -small, -large, rises=False) == pytest.approx(TRANSITION, abs=1e-3)
    assert math.isnan(crossing(TEMPERATURES, large, small)) and math.isnan(crossing(TEMPERATURES, small + 1, large))
    with pytest.raises(Refusal):
        crossing(TEMPERATURES[:3], small[:3], large[:3])


def test_the_interval_of_a_crossing_holds_it_in_two_of_three_studies():
    studies, held = 40, 0
    for seed in range(studies):
        blocks = curves(30, 0.02, seed, (6, 12))
        found = crossing_of(TEMPERATURES, [blocks[6], blocks[12]], [same, same])
        assert found.missing == 0
        held += found.low < TRANSITION < found.high
    # The bootstrap of 30 blocks is too narrow by a part 1 / 60.
    assert are_counts(held, studies, 0.67)


def test_a_collapse_finds_the_exponent_and_the_transition():
    away = []
    for seed in range(8):
        found = collapse_of(TEMPERATURES, curves(30, 0.02, 100 + seed), {size: same for size in (6, 8, 12, 16)}, (1.0, 0.5))
        assert found.degrees == 26 and 5 < found.square < 60
        away.append([(one.value - known) / ((one.high - one.low) / 2) for one, known in ((found.transition, TRANSITION), (found.nu, NU))])
    assert are_distances(away, 29)


def test_curves_that_do_not_collapse_have_a_large_chi_square():
    blocks = curves(30, 0.005, 7)
    blocks[6] = blocks[6] + 0.03
    found = collapse_of(TEMPERATURES, blocks, {size: same for size in blocks}, (1.0, 0.5))
    assert found.square > 5 * found.degrees
    with pytest.raises(Refusal):
        collapse_of(TEMPERATURES, {6: blocks[6]}, {6: same}, (1.0, 0.5))


# ---------------------------------------------------------------- commands


def write_texts(folder, side, seeds, slots, biases):
    """Texts of fields whose spins agree the oftener the colder the slot is, and their names."""
    names = []
    for seed in range(seeds):
        random = np.random.default_rng(100 * side + seed)
        parts = [read(folder, text_with(side, np.where(random.random((4, 20, side, side, side)) < 0.5 + bias / 2, 1, -1),
                                        100 * side + seed, 2 * random.integers(-30, 0, (4, 20, 2)))) for bias in biases]
        lines = {(sample, slot, k): own for slot, part in enumerate(parts) for (sample, _, k), own in part.lines.items()}
        whole = parts[0]._replace(heading=parts[0].heading._replace(slots=slots), lines=lines)
        names.append(str(folder / f"sums_{side}_{seed}.txt"))
        (folder / names[-1]).write_text("".join(text_of(whole)))
    return names


@pytest.fixture(scope="module")
def studies(tmp_path_factory):
    folder, temperatures, files, runs = tmp_path_factory.mktemp("sums"), [1, 1.1, 1.2, 1.3], {}, {}
    for side, biases in ((4, (0.30, 0.27, 0.24, 0.21)), (6, (0.34, 0.28, 0.21, 0.15))):
        own = folder / str(side)
        own.mkdir()
        files[side] = write_texts(folder, side, 16, 4, biases)
        runs[side] = write_run(own, temperatures, size=side, samples=4)
    return files, runs, folder


def call(*words):
    return outcome(list(map(str, words)), estimate.main)


def test_sums_of_a_study_have_both_errors_and_a_picture(studies):
    files, runs, folder = studies
    status, out, err = call("sums", *files[4], "--run", runs[4], "--slot", 0, "--plot", folder / "sums.png")
    assert (status, err) == (0, "") and (folder / "sums.png").read_bytes()[:4] == b"\x89PNG"
    told = figure(study_of_texts([read_measured(name) for name in files[4]]), length_over_side)
    line = out.splitlines()[[n for n, text in enumerate(out.splitlines()) if "xi/L" in text][0] + 2].split()
    wanted = [told.over_seeds.value[1], told.over_seeds.error[1], told.over_samples[1]]
    assert [float(text) for text in line[5:8]] == pytest.approx(wanted, abs=1e-6)
    assert "P(q) of slot 0" in out and "errors are over 16 blocks" in out and f"{'1.1':>10}" in out
    status, out, err = call("sums", files[4][0], "--run", runs[4])
    assert status == 0 and "share each random number" in out


def test_bins_of_a_study(studies):
    files, runs, folder = studies
    status, out, err = call("bins", *files[4], "--run", runs[4], "--slot", 1, 2, "--plot", folder / "bins.png")
    assert (status, err) == (0, "") and out.count("\n  10      512 ") == 2 and (folder / "bins.png").read_bytes()[:4] == b"\x89PNG"


def test_scaling_of_two_sizes(studies):
    files, runs, folder = studies
    status, out, err = call("scaling", *files[4], *files[6], "--run", runs[4], runs[6], "--collapse", 1.1, 1.0,
                            "--plot", folder / "scaling.png")
    assert (status, err) == (0, "") and (folder / "scaling.png").read_bytes()[:4] == b"\x89PNG"
    assert all(f"{name} of sizes 4 and 6 cross " in out and f"{name} collapses with T_c = " in out for name in ("xi/L", "R12", "U4"))
    # chi(0) of a field of the bias b is 1 - b^2 + V b^2, and chi(k) is 1 - b^2.
    for side, bias in ((4, 0.30), (6, 0.34)):
        wanted = bias * math.sqrt(side ** 3 / (1 - bias ** 2)) / (2 * math.sin(math.pi / side)) / side
        column = 1 if side == 4 else 3
        value, error = map(float, out.splitlines()[2].split()[column:column + 2])
        assert abs(value - wanted) < student_bound(15, 2) * error


def test_wrong_mixes_of_texts_are_refused(studies):
    files, runs, _ = studies
    for words, what in ((["sums", *files[4][:2], files[6][0]], "several sizes"), (["sums", files[4][0], files[4][0]], "same plan"),
                        (["sums", files[4][0], "--run", runs[6]], "no run file is of size 4"), (["scaling", *files[4]], "two sizes"),
                        (["scaling", *files[4], *files[6]], "--run"),
                        (["scaling", *files[4], *files[6], "--run", runs[4], runs[6], "--collapse", 1, 0], "both above 0"),
                        (["scaling", *files[4], *files[6], "--run", runs[4], runs[4]], "one run file for each"),
                        (["sums", files[4][0], "--from-bin", 11], "no bin from 11"), (["bins", files[4][0], "--slot", 9], "no slot 9"),
                        (["sums", runs[4]], "no first line")):
        status, _, err = call(*words)
        assert status == 2 and what in err and err.count("\n") == 1, (words, err)
