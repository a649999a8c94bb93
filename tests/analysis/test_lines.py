"""Link overlaps and coherence lengths, beside sums taken site by site and where the answer is known."""
import math

import numpy as np
import pytest
from chances import are_distances
from lines_report_test import SAMPLES, SLOTS, text_of_lines, true_lines, with_errors

from glass_analysis import axis_correlations, blocks, coherence_length, jackknife, link_overlap, read_lines


@pytest.fixture(scope="module")
def files(tmp_path_factory):
    """Names of four files, and the overlaps that each is of, by slot and sample."""
    folder, states = tmp_path_factory.mktemp("lines"), []
    for seed in range(1, 5):
        lines, overlaps = true_lines(seed)
        (folder / f"{seed}.txt").write_text(text_of_lines(lines))
        states.append(overlaps)
    return [str(folder / f"{seed}.txt") for seed in range(1, 5)], states


@pytest.mark.parametrize("count", [1, 4])
def test_values_and_errors_are_those_of_sums_over_sites(files, count):
    names, states = files
    parts = blocks([axis_correlations(state) for state in read_lines(names[:count])])
    link, far = jackknife(parts, link_overlap), jackknife(parts, lambda means: means[..., -1])
    for slot in range(SLOTS):
        in_blocks = [[overlaps] for overlaps in states[0][slot]] if count == 1 else [state[slot] for state in states]
        assert [link.value[slot], link.error[slot], far.value[slot], far.error[slot]] == pytest.approx(with_errors(in_blocks))


def test_axes_are_sample_and_slot(files):
    state, = read_lines(files[0][:1])
    assert (state.samples, state.slots, state.links.shape, state.lines.shape) == (SAMPLES, SLOTS, (3, 2), (3, 2, 3))


def noisy(shape, noise, count, seed):
    """Blocks of correlations with Gaussian noise at each distance but 0."""
    parts = shape + np.random.default_rng(seed).normal(0, noise, (count, len(shape)))
    parts[:, 0] = 1
    return parts


def aging_shape(length, steps):
    return steps ** -0.4 * np.exp(-(steps / length) ** 1.5)


@pytest.mark.parametrize("noise", [0.0003, 0.001, 0.003])
def test_the_length_of_a_known_shape(noise):
    """The sums of the shape r^-0.4 exp(-(r / 3)^1.5) itself, far beyond the lattice of side 32."""
    far = np.arange(1.0, 200)
    wanted = far ** 2 @ aging_shape(3, far) / (far @ aging_shape(3, far))
    # The integrals in place of the sums are Gamma functions, and differ by the coarseness of the lattice.
    assert wanted == pytest.approx(3 * math.gamma(2.6 / 1.5) / math.gamma(1.6 / 1.5), rel=0.06)
    shape = np.concatenate([[1], aging_shape(3, np.arange(1.0, 17))])
    away = []
    for seed in range(60):
        found = coherence_length(noisy(shape, noise, 16, seed), 32)
        assert found.refusal == "" and 5 <= found.cut <= 14
        away.append((found.length.value - wanted) / found.length.error)
    # A cut without its tail is many errors low.
    assert are_distances(away, 15)


@pytest.mark.parametrize("noise", [0.001, 0.003, 0.01])
def test_what_the_cut_leaves_out_is_told(noise):
    """Of blocks whose mean is the shape itself, both changes are exact."""
    far = np.arange(1.0, 200)
    shape = np.concatenate([[1], aging_shape(3, far)])
    parts = noisy(shape[:17], noise, 16, 1)
    parts += shape[:17] - parts.mean(axis=0)
    found = coherence_length(parts, 32)

    def summed(cut):
        return far[:cut] ** 2 @ shape[1:cut + 1] / (far[:cut] @ shape[1:cut + 1])

    whole = far ** 2 @ shape[1:] / (far @ shape[1:])
    assert found.length.value == pytest.approx(whole) and found.tail == pytest.approx(whole - summed(found.cut)) and found.tail > 0
    assert found.nearer == pytest.approx(0, abs=1e-9)


def free_field(side, length):
    """Correlations along an axis of the periodic Gaussian field with the mass 1 / length, 1 at distance 0."""
    waves = 2 - 2 * np.cos(2 * np.pi * np.arange(side) / side)
    propagator = 1 / (waves[:, None, None] + waves[:, None] + waves + length ** -2)
    line = np.fft.ifft(propagator.sum(axis=(1, 2))).real[:side // 2 + 1]
    return line / line[0]


@pytest.mark.parametrize("noise", [1e-5, 1e-3, 3e-3, 1e-2, 3e-2, 0.1])
@pytest.mark.parametrize("side, length", [(16, 5), (16, 8), (32, 9)])
def test_a_length_above_a_quarter_of_the_side_is_not_told(side, length, noise):
    for seed in range(10):
        found = coherence_length(noisy(free_field(side, length), noise, 16, seed), side)
        assert found.length is None and found.refusal


@pytest.mark.parametrize("count, noise", [(1, 0.001), (16, 0.3)])
def test_no_length_without_errors_or_above_the_noise_alone(count, noise):
    shape = np.concatenate([[1], aging_shape(3, np.arange(1.0, 17))])
    assert coherence_length(noisy(shape, noise, count, 3), 32).length is None
