"""The tables of sums in examples/validation, on data whose answer is known."""
import math
import sys
from pathlib import Path

import numpy as np
import pytest
from chances import student_bound
from written_sums import read, text_with

FOLDER = Path(__file__).resolve().parent.parent.parent / "examples" / "validation"
sys.path.insert(0, str(FOLDER))

import compare_sums  # noqa: E402
import parts  # noqa: E402
import runs  # noqa: E402
from glass_analysis.sums import Means, length_over_side, per_sample, r_12, u_4  # noqa: E402
from judged import Runs  # noqa: E402
from reference import exact_overlaps  # noqa: E402

# The worked values of docs/specification/measure.md: a field of side 4 that is -1 where x = 0.
PLANE = np.where(np.arange(4)[None, None, :] == 0, -1, 1) * np.ones((4, 4, 4), int)


def test_values_of_sums_stand_in_the_order_of_their_heads(tmp_path):
    part = parts.BY_NAME["sums_ferromagnet_4"]
    text = read(tmp_path, text_with(4, np.array([[PLANE] * 3] * 2), 1))
    means = Means(per_sample(text).mean(axis=0), 4)
    values = dict(zip(part.heads, part.values(means._replace(values=means.values.repeat(4, axis=0)))))
    assert len(values) == 44 and values["q2_0.3"] == 32 ** 2 and values["A_0.1"] == 128
    assert [values[f"D{r}_0.2"] for r in range(3)] == [1536, 512, 512] and [values[f"F{r}_0.2"] for r in range(3)] == [1536] * 3


def test_a_run_is_cut_at_its_last_bin_and_begins_behind_what_is_left_out(tmp_path):
    lines, digest = {}, 5
    for k, share in ((8, 1), (9, 0), (10, 1)):
        own = read(tmp_path, text_with(4, np.array([[PLANE if share else PLANE * 0 + 1] * 2]), digest))
        lines.update({(sample, slot, k): line for (sample, slot, _), line in own.lines.items()})
    text = own._replace(bins=(8, 9, 10), lines=lines)
    part = parts.BY_NAME["sums_independent_8"]._replace(size=4, skip=256, heads=("q2",), values=parts.sums_by_slot("q2"))
    assert runs.taken_of_sums(part, text) == [(64 ** 2 + 32 ** 2) / 2, 64 ** 2, 32 ** 2]
    assert runs.taken_of_sums(part._replace(skip=0), text)[0] == pytest.approx((64 ** 2 + 2 * 32 ** 2) / 3, rel=1e-9)


def test_figures_of_what_is_kept_are_those_of_the_sums(tmp_path):
    random = np.random.default_rng(2)
    part = parts.BY_NAME["transition_4"]
    text = read(tmp_path, text_with(4, random.choice([-1, 1], (3, 20, 4, 4, 4), p=[0.3, 0.7]), 1))
    means = Means(per_sample(text).mean(axis=0).repeat(len(parts.CURVES) + 4, axis=0), 4)
    kept = np.array(part.values(means))
    assert len(kept) == len(part.heads) == len(parts.CURVES) * len(parts.KEPT)
    for figure, of in (("ξ/L", length_over_side), ("R12", r_12), ("U4", u_4)):
        assert compare_sums.curve(figure, 4)(kept) == pytest.approx(of(means)[:len(parts.CURVES)])


def test_exact_correlations_are_those_of_all_configurations_of_a_smaller_lattice():
    layer = exact_overlaps.Layer(2)
    for beta in (0.1, 0.4):
        assert exact_overlaps.correlations(layer, beta) == pytest.approx(exact_overlaps.by_all(beta), abs=1e-12)


def test_exact_means_obey_the_laws_of_sums():
    """D adds up to three squares and F to six, E01 is the square of half of E, and A is 192 times that of a third of E / 128."""
    exact = compare_sums.ferromagnet()
    for n in range(len(exact.slots)):
        of = dict(zip(exact.sums, exact.means[n * len(exact.sums):]))
        assert of["D0"] + 2 * of["D1"] + of["D2"] == pytest.approx(3 * of["q2"], rel=1e-8)
        assert of["F0"] + 2 * of["F1"] + of["F2"] == pytest.approx(6 * of["q2"], rel=1e-8)
        assert of["E01"] == pytest.approx((of["E"] / 2) ** 2, rel=1e-8) and of["A"] == pytest.approx(192 * (of["E"] / 384) ** 2, rel=1e-8)
    # Energies per site of the same lattice by another program of its own, tools/reference/exact_ising.py.
    assert [round(value / 128, 6) for value in exact.means[::len(exact.sums)]] == [-2.515073, -1.293228, -0.932611, -0.316619]


def test_sums_that_follow_from_others_are_in_no_probability():
    exact = compare_sums.ferromagnet()
    names = [exact.sums[n % len(exact.sums)] for n in compare_sums.judged_columns(exact)]
    assert len(names) == 36 and not set(names) & {"q2", "F0"}


def test_curves_of_two_sizes_cross_where_they_were_made_to(capsys):
    """q2 / axis such that ξ/L of both sizes is 0.6 at T = 1.13, and falls faster at the greater one."""
    temperatures, random = np.array([float(word) for word in parts.CURVES]), np.random.default_rng(7)
    sizes = {}
    for side, slope in ((8, 0.6), (16, 1.0)):
        lengths = 0.6 - slope * (temperatures - 1.13) + random.normal(0, 0.005, (40, 1))
        ratios = 1 + (2 * side * math.sin(math.pi / side) * lengths) ** 2
        values = np.stack([ratios, 1.5 * ratios ** 2, np.ones_like(ratios), np.full_like(ratios, 0.5)], axis=-1).reshape(40, -1)
        sizes[side] = Runs(f"transition_{side}", values, values, values, 60.0)
    compare_sums.print_crossings(sizes)
    rows = [line.split(" | ") for line in capsys.readouterr().out.splitlines() if line.startswith("| ξ/L")]
    # Noise of 0.005 / sqrt(40) in either, over slopes that differ by 0.4: an error of 0.0028, half the interval's length.
    crossing, low, high = map(float, rows[0][2:5])
    assert len(rows) == 1 and abs(crossing - 1.13) < student_bound(39) * 0.0028 and 0.003 < high - low < 0.009
