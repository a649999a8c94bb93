"""Estimators on data whose answer is known without them."""
import math

import numpy as np
import pytest
from analyse_test import acceptance as acceptance_by_rows
from chances import normal_bound, squares, student_bound
from analyse_test import text_of_lines
from make_tables import Refusal
from scipy import stats

from glass_analysis import (Records, acceptance, autocorrelation_time, below, binder, blocks, bootstrap, densities,
                            distribution, energy_moments, feedback_temperatures, jackknife, moments, overlap_edges,
                            round_trips, specific_heat)
from glass_analysis.distributions import below_errors
from glass_analysis.errors import uncertainty
from glass_analysis.reports import records_of
from glass_analysis.walks import downward_counts, downward_share


def records_with(overlaps=None, labels=None, energies=None, epochs=None, size=4):
    """Records from what is given; the rest is zero."""
    shape = next(given.shape[:3] for given in (overlaps, labels, energies) if given is not None)
    epochs = np.arange(shape[0]) if epochs is None else epochs
    every = int(epochs[1] - epochs[0]) if len(epochs) > 1 else None
    zeros = np.zeros((*shape, 2), np.int64)
    return Records("r", size, "heat", 0, int(epochs[-1]) + 1, every, epochs, zeros if energies is None else energies,
                   zeros[..., 0] if overlaps is None else overlaps, zeros if labels is None else labels)


def test_the_jackknife_of_a_mean_is_its_standard_error():
    values = np.random.default_rng(1).normal(size=(12, 3))
    value, error = jackknife(values)
    assert np.allclose(value, values.mean(axis=0)) and np.allclose(error, stats.sem(values))
    assert np.isnan(jackknife(values[:1]).error).all()


def test_the_jackknife_of_a_ratio():
    # Blocks (1, 1), (2, 1), (6, 2): the ratios without one of them are 8/3, 7/3 and 3/2.
    value, error = jackknife(np.array([[1.0, 1], [2, 1], [6, 2]]), lambda m: m[0] / m[1])
    without = [8 / 3, 7 / 3, 3 / 2]
    mean = sum(without) / 3
    assert value == pytest.approx(9 / 4)
    assert error == pytest.approx(math.sqrt(2 / 3 * sum((x - mean) ** 2 for x in without)))


def test_the_binder_ratio_is_one_of_a_single_modulus_and_near_zero_of_gaussian_overlaps():
    random = np.random.default_rng(2)
    assert binder(moments(records_with(random.choice([-32, 32], (50, 2, 1)))).mean(axis=0)) == pytest.approx(1)
    gaussian = np.rint(random.normal(0, 1e6, (20000, 4, 1))).astype(np.int64)
    value, error = jackknife(blocks([moments(records_with(gaussian))]), binder)
    # Of n Gaussian values q^4 / q^2^2 has the variance 24 / n.
    assert abs(value) < normal_bound() * math.sqrt(24 / gaussian.size) / 2


def test_the_distribution_is_symmetric_and_normal():
    overlaps = np.array([64, 64, 0, -32]).reshape(4, 1, 1)
    edges, (density, error) = distribution([records_with(overlaps)], 0, 5)
    width = edges[1] - edges[0]
    # Bins of width about 0.41: of the four overlaps two are in the last one, one in the middle, one in the second.
    assert density * width == pytest.approx([0.25, 0.125, 0.25, 0.125, 0.25])
    assert np.isnan(error).all()


@pytest.mark.parametrize("size, bins", [(4, None), (4, 8), (8, 20), (16, None), (16, 40), (16, 4097)])
def test_overlaps_that_are_equally_probable_have_a_flat_distribution(size, bins):
    """Also where the bins don't have as many values of q each."""
    sites = size ** 3
    values = np.arange(-sites, sites + 1, 2).reshape(-1, 1, 1)
    found = densities(records_with(overlaps=values, size=size), 0, bins)
    edges = overlap_edges(sites, bins)
    assert len(edges) == found.shape[1] + 1 == (min(65, sites + 1) if bins is None else bins) + 1
    assert np.allclose(found, sites / (2 * (sites + 1))) and found.sum() * (edges[1] - edges[0]) == pytest.approx(1)


def test_more_bins_than_values_are_refused():
    for bins in (0, 66):
        with pytest.raises(Refusal):
            overlap_edges(64, bins)


def test_small_overlaps_of_each_sample_with_errors():
    """Sample 0 has |q| < 0.5 in each fourth record, sample 1 in none."""
    random = np.random.default_rng(12)
    overlaps = np.full((4000, 2, 1), 48)
    overlaps[:, 0, 0] = random.choice([48, -20, 32, -32], 4000)
    records = records_with(overlaps=overlaps)
    value, error = below(records, 0, 0.5), below_errors(records, 0, 0.5)
    # The error is of eight pieces of independent records.
    low, high = squares(7)
    assert value[1] == error[1] == 0 and abs(value[0] - 0.25) < student_bound(7) * error[0]
    assert low < 7 * error[0] ** 2 * 4000 / (0.25 * 0.75) < high
    assert np.isnan(below_errors(records.part(0, 7), 0, 0.5)).all()


def test_the_specific_heat_is_that_of_short_runs_too():
    """Of independent bonds beta^2 bonds / (sites cosh(beta)^2). The square of a run's own mean makes it too low by a part
    1 / 16 of eight records of two replicas."""
    bonds, beta = 192, 0.4
    random = np.random.default_rng(13)
    energies = 2 * random.binomial(bonds, 1 / (1 + math.exp(2 * beta)), (8, 8192, 1, 2)) - bonds
    records = records_with(energies=energies)
    wanted = beta ** 2 * bonds / 64 / math.cosh(beta) ** 2
    value, error = jackknife(blocks([energy_moments(records)]), lambda means: specific_heat(means, [beta], 64))
    # By 8192 samples the error is a normal one. Each has 16 energies: the variance of their variance is 2 / 15 of its square.
    bound = normal_bound(2)
    assert abs(value[0] - wanted) < bound * error[0] and bound * error[0] < wanted / 20
    of_its_own_mean = beta ** 2 / 64 * energies.var(axis=(0, 3)).mean()
    assert of_its_own_mean == pytest.approx(wanted * 15 / 16, rel=bound * math.sqrt(2 / 15 / 8192))


@pytest.mark.parametrize("memory", [0.0, 0.5, 0.9])
def test_autocorrelation_times_of_autoregressive_series(memory):
    # x(t + 1) = a x(t) + noise has the correlations a^t, so the time is (1 + a) / (1 - a) / 2.
    noise = np.random.default_rng(3).normal(size=(20000, 8))
    series = np.empty_like(noise)
    series[0] = noise[0] / math.sqrt(1 - memory ** 2)
    for t in range(1, len(noise)):
        series[t] = memory * series[t - 1] + noise[t]
    time = autocorrelation_time(series)
    assert time.is_settled
    assert abs(time.value - (1 + memory) / (1 - memory) / 2) < normal_bound() * time.error


def test_the_mean_that_is_taken_off_short_series_is_allowed_for():
    assert autocorrelation_time(np.random.default_rng(7).normal(size=(80, 4096))).value == pytest.approx(0.5, abs=0.01)


def test_a_drift_has_no_settled_time():
    assert not autocorrelation_time(np.linspace(0, 1, 30)).is_settled
    assert math.isnan(autocorrelation_time(np.ones(30)).value)


def test_exchanges_are_those_counted_row_by_row(made_reports):
    lines, taken = made_reports[1, False]
    rates = acceptance([records_of("r", text_of_lines(lines).encode())])
    assert [f"{value:.4f}" for value in rates.value] == [acceptance_by_rows([taken], pair, 0) for pair in (0, 1)]
    sparse = records_of("r", text_of_lines(made_reports[2, False][0]).encode())
    assert acceptance([sparse]) is None


def test_round_trips_by_hand():
    # Label 0 goes 0, 1, 2, 1, 0, 0, 1, 2 and label 2 goes 2, 2, 1, 0, 1, 2, 0, 0: from end to end three times, which is one
    # round trip. Label 1 goes 1, 0, 0, 2, 2, 1, 2, 1, once from end to end, which is none.
    walk = [[0, 1, 2], [1, 0, 2], [1, 2, 0], [2, 0, 1], [0, 2, 1], [0, 1, 2], [2, 0, 1], [2, 1, 0]]
    labels = np.repeat(np.array(walk).reshape(8, 1, 3, 1), 2, axis=3)
    trips = round_trips(records_with(labels=labels))
    assert trips[0].tolist() == [[1, 1], [0, 0], [1, 1]]


def test_what_samples_have_in_common_shows_over_seeds_alone():
    # x = (what the sample has) + (what the run's random numbers bring to all its samples), of standard deviation 1 and 0.5.
    random = np.random.default_rng(5)
    runs = [random.normal(0, 1, 64) + random.normal(0, 0.5) for _ in range(400)]
    of_one = np.mean([jackknife(blocks([run.reshape(64, 1)])).error for run in runs])
    whole = np.std([run.mean() for run in runs])
    of_seeds = jackknife(blocks([run.reshape(64, 1) for run in runs])).error[0] * math.sqrt(len(runs))
    # Deviations of 400 runs are known to a part 1 / sqrt(800), those of 64 samples in each of them far better.
    assert of_one == pytest.approx(1 / 8, rel=0.02)
    assert whole == pytest.approx(math.sqrt(1 / 64 + 1 / 4), rel=normal_bound() / math.sqrt(800)) and of_seeds == pytest.approx(whole, rel=0.01)


def test_blocks_of_one_report_are_of_equal_size():
    values = np.arange(6.0).reshape(6, 1)
    assert blocks([values], 3).tolist() == [[0.5], [2.5], [4.5]]
    for count in (0, 4, 7):
        with pytest.raises(Refusal):
            blocks([values], count)


def chain(chances, epochs, seed, samples=8):
    """Walks of some samples, in which pair k trades with its own chance whenever it has its turn."""
    random, slots = np.random.default_rng(seed), len(chances) + 1
    labels = np.tile(np.arange(slots, dtype=np.int8)[:, None], (samples, 1, 2))
    found = np.empty((epochs, samples, slots, 2), np.int8)
    for epoch in range(epochs):
        found[epoch] = labels
        for pair in range(epoch % 2, slots - 1, 2):
            trade = random.random((samples, 2)) < chances[pair]
            one, other = labels[:, pair].copy(), labels[:, pair + 1].copy()
            labels[:, pair], labels[:, pair + 1] = np.where(trade, other, one), np.where(trade, one, other)
    return records_with(labels=found)


def known_share(chances, epochs):
    """The share from the hottest slot that so many epochs of `chain` have in the mean: each label walks by itself, so its
    probability to be in a slot and to come from an end goes from epoch to epoch by a matrix."""
    slots = len(chances) + 1
    # By label, slot, and where it comes from: the hottest slot, the coldest one, or neither yet.
    now, total = np.zeros((slots, slots, 3)), np.zeros((slots, 2))
    now[np.arange(slots), np.arange(slots), 2] = 1
    for epoch in range(epochs):
        for place, end in ((slots - 1, 0), (0, 1)):
            arrived = now[:, place].sum(axis=-1)
            now[:, place] = 0
            now[:, place, end] = arrived
        total += now[..., :2].sum(axis=0)
        for pair in range(epoch % 2, slots - 1, 2):
            moved = chances[pair] * (now[:, pair + 1] - now[:, pair])
            now[:, pair] += moved
            now[:, pair + 1] -= moved
    return total[:, 0] / total.sum(axis=-1)


def steady_rises(chances):
    """What the share rises by from slot to slot in the steady state, but for a factor.

    In each epoch in which pair k has its turn p_k times the rise is the current J, one for all pairs. Between two turns of pair k
    an inner slot gives on to one neighbour what it got from the other, so its share is J less in one of two epochs. In the
    mean over all epochs it rises by J (1 / p - 1), by J (1 / p - 1 / 2) beside an end, whose share is 0 or 1 at all times.
    """
    inner = np.ones(len(chances))
    inner[[0, -1]] = 0.5
    return 1 / chances - inner


def test_the_share_from_the_hottest_slot_rises_as_the_resistances():
    chances, epochs = np.array([0.4, 0.4, 0.04, 0.4, 0.2]), 3000
    wanted, steady = known_share(chances, epochs), np.concatenate([[0], np.cumsum(steady_rises(chances))])
    # The rest is of the beginning.
    assert np.allclose(wanted, steady / steady[-1], atol=2e-3)
    value, error = jackknife(downward_counts(chain(chances, epochs, 1, 32)).astype(float), downward_share)
    assert value[0] == 0 and value[-1] == 1
    assert (abs(value - wanted)[1:-1] < student_bound(31, 4) * error[1:-1]).all() and (error < 0.01).all()


def test_the_acceptance_of_pairs_that_trade_with_known_chances():
    chances = np.array([0.4, 0.4, 0.04, 0.4, 0.2])
    # Each of 16 replicas tries a pair in every second epoch, the last one of which isn't seen.
    error = np.sqrt(chances * (1 - chances) / (16 * 1500))
    assert (abs(acceptance([chain(chances, 3001, 2)]).value - chances) < normal_bound(5) * error).all()


def test_feedback_puts_temperatures_where_walks_are_slow():
    # f rises by 1, 9 and 16 of 26: roots 1, 3 and 4 of 8. Three equal steps of 8 / 3 along them.
    found = feedback_temperatures([1, 2, 4, 5], np.array([0, 1, 10, 26]) / 26)
    assert found == pytest.approx([1, 2 + 2 * (8 / 3 - 1) / 3, 4 + (16 / 3 - 4) / 4, 5])
    for given, share in (([1, 2, 3], [0, 0, 1]), ([1, 2, 3], [0, np.nan, 1]), ([1, 2, np.inf], [0, 0.5, 1])):
        with pytest.raises(Refusal):
            feedback_temperatures(given, np.array(share))


def test_the_bootstrap_of_a_mean_and_of_what_is_not_always_there():
    values = np.random.default_rng(14).normal(3, 1, (100, 1))
    found = bootstrap([values], lambda means: means[0])
    assert found.value == values.mean() and found.missing == 0
    # The deviation of 100 values is known to a part 1 / sqrt(198), half of the interval of 1000 resamples to one of 1 / 30.
    assert (found.high - found.low) / 2 == pytest.approx(0.1, rel=normal_bound() * math.hypot(198 ** -0.5, 1 / 30)) and found.low < found.value < found.high
    half = bootstrap([values], lambda means: means[0] if means[0] > values.mean() else np.nan)
    assert half.missing == pytest.approx(0.5, abs=0.06) and values.mean() < half.low < half.high
    assert bootstrap([values], lambda means: np.nan).missing == 1


def test_the_error_of_an_error():
    """Of sixteen blocks it is known to 18 %."""
    errors = [jackknife(np.random.default_rng(seed).normal(size=(16, 1))).error[0] for seed in range(400)]
    assert np.std(errors) / np.mean(errors) == pytest.approx(uncertainty(16), rel=0.15)
    assert uncertainty(16) == pytest.approx(0.1826, abs=1e-4) and math.isnan(uncertainty(1))
