"""Times of walks in temperature, sample by sample, where they are known."""
import math

import numpy as np
import pytest
from chances import normal_bound, squares
from scipy import fft, stats
from scipy.signal import lfilter
from make_tables import Refusal
from test_estimates import records_with

from glass_analysis import autocorrelation_time, walk_times
from glass_analysis.walk_times import (ERRORS, NOISE, independent_labels, integrated_time, noise_of, slot_function,
                                       walk_correlations)

SLOTS = 12


def walks(times, epochs, seed):
    """Walks whose autocorrelation falls as exp(-t / time) for each sample, exactly in the mean.

    At each step two slots drawn at random trade their configurations with the probability c. A configuration is in one
    of them with the probability 2 / n and goes to another slot, each as probable, so any function of mean 0 over the
    n slots is multiplied by 1 - c 2 / n (1 + 1 / (n - 1)) = 1 - 2 c / (n - 1).
    """
    random = np.random.default_rng(seed)
    chance = (1 - np.exp(-1 / np.asarray(times, float))) * (SLOTS - 1) / 2
    assert (chance <= 1).all()
    samples = len(chance)
    labels = np.tile(np.arange(SLOTS)[:, None], (samples, 1, 2))
    found = np.empty((epochs, samples, SLOTS, 2), np.int8)
    b, c = np.meshgrid(np.arange(samples), np.arange(2), indexing="ij")
    for epoch in range(epochs):
        found[epoch] = labels
        one = random.integers(SLOTS, size=(samples, 2))
        other = (one + random.integers(1, SLOTS, size=(samples, 2))) % SLOTS
        other = np.where(random.random((samples, 2)) < chance[:, None], other, one)
        labels[b, one, c], labels[b, other, c] = labels[b, other, c], labels[b, one, c]
    return records_with(labels=found)


def integrated(time):
    """1/2 + the sum of exp(-t / time) from t = 1 on."""
    return 0.5 + 1 / math.expm1(1 / time)


def bias_of(true, length, independent, squared):
    """The bias of an integrated time, in parts of it, to the second order of the noise s of a correlation near 0.

    Noise d moves the end of the sum, where C is NOISE s, by T d / (NOISE s) lags and is summed over them: T s / NOISE.
    Of (S - C / 2) / (1 - C) there are T <d d> + <S d> = (1 + 2) T s^2, with <d(t) d(u)> = s^2 (1 + |t - u| / T) C(t - u).
    """
    noise = noise_of(np.asarray(true, float), length, independent)
    return noise / NOISE + squared * noise ** 2


OF_KNOWN_VARIANCE = 3
# C(t) / C(0) has - <C(t) C(0)> + C(t) <C(0)^2> besides, with <C(t) C(0)> = 2 s^2 (1 + t / T) C(t): summed - (4 - 2) T s^2.
OF_MEASURED_VARIANCE = 3 - 2


def stands(found, errors, true, bias):
    """Whether the mean of independent times has the bias that theory tells, but for chance, and their errors hold.

    Of Gaussian times with the errors that are told, 68 % are within one and 95 % within two. How times of such short runs
    are distributed no theory at hand tells. So what is let pass is chosen: an error that is a tenth too small, 64 % and
    93 %, and one that is two fifths too great, 84 %."""
    found, errors = found.reshape(-1), errors.reshape(-1)
    away = abs(found - true) / errors
    within = [(away < 1).mean(), (away < 2).mean()]
    chance = normal_bound() * np.sqrt(np.array([0.68 * 0.32, 0.95 * 0.05]) / len(away))
    assert abs(found.mean() / true - 1 - bias) < normal_bound() * stats.sem(found) / true
    assert 0.64 - chance[0] < within[0] < 0.84 + chance[0] and within[1] > 0.93 - chance[1], within


@pytest.mark.parametrize("time, lengths", [(6, 25), (20, 12), (20, 50)])
def test_walks_of_one_time(time, lengths):
    """A sum that is cut has the bias of its noise. The mean of all times is so exact that one of twice that bias fails."""
    found = walk_times(walks([time] * 500, lengths * time, 1))
    stands(found.integrated, found.error, integrated(time), bias_of(integrated(time), lengths * time, SLOTS - 1, OF_KNOWN_VARIANCE))
    if lengths >= 50:
        told = found.exponential[np.isfinite(found.exponential)]
        # Correlations are known to 1 / ERRORS or better there. To its square the logarithm is low by a half, the reciprocal of
        # the slope great by one, and the two ends, which move with the noise, bring at most one.
        assert len(told) > 800 and told.mean() == pytest.approx(time, abs=normal_bound() * stats.sem(told) + 2.5 / ERRORS ** 2 * time)


def traded(found, epoch, chance, random):
    """Labels after an epoch in which each second pair of neighbours trades with a probability."""
    for pair in range(epoch % 2, found.shape[1] - 1, 2):
        trade = random.random((len(found), 2)) < chance
        one, other = found[:, pair].copy(), found[:, pair + 1].copy()
        found[:, pair], found[:, pair + 1] = np.where(trade, other, one), np.where(trade, one, other)


def correlation_of_pairs(slots, chance, every):
    """That of the slot function by lag in records, of walks in which each second pair trades with one probability: powers of the
    matrix of two epochs."""
    after = []
    for parity in (0, 1):
        of_one = np.eye(slots)
        for pair in range(parity, slots - 1, 2):
            of_one[pair:pair + 2, pair:pair + 2] = [[1 - chance, chance], [chance, 1 - chance]]
        after.append(of_one)
    matrix, values = np.linalg.matrix_power(after[0] @ after[1], every // 2), slot_function(slots)
    found, moved = [], values.copy()
    while not found or found[-1] > 1e-9:
        found.append(values @ moved / (values @ values))
        moved = matrix @ moved
    return np.array(found)


@pytest.mark.parametrize("slots, chance, every, records", [(12, 0.37, 20, 30), (12, 0.37, 20, 80), (4, 0.3, 4, 100)])
def test_walks_through_pairs_that_trade_by_turns(slots, chance, every, records):
    """As the program's walks go, recorded each so many epochs, from 12 to 50 times on. The decay isn't exponential: what is added
    behind the window is off by what the sum over the exact correlation, cut at the same noise, is off."""
    random, correlation = np.random.default_rng(21), correlation_of_pairs(slots, chance, every)
    true, exact = correlation.sum() - 0.5, np.pad(correlation, (0, records))[:records]
    now = np.argsort(random.random((500, slots, 2)), axis=1).astype(np.int8)
    found = np.empty((records, 500, slots, 2), np.int8)
    for epoch in range(records * every):
        if epoch % every == 0:
            found[epoch // every] = now
        traded(now, epoch, chance, random)
    times = walk_times(records_with(labels=found))
    cut = integrated_time(exact, slots - 1)[0] / true - 1
    stands(times.integrated, times.error, true, cut + bias_of(true, records, slots - 1, OF_KNOWN_VARIANCE))


def test_the_time_of_a_decay_without_noise_is_exact_wherever_it_is_cut():
    lags = np.arange(400)
    for time in (0.3, 2.0, 10.0):
        for independent in (0.05, 0.5, 11, 1e9):
            assert integrated_time(np.exp(-lags / time), independent)[0] == pytest.approx(integrated(time), rel=1e-12)


def test_the_noise_of_labels_is_that_of_one_walk_less_than_there_are():
    """Of labels that are drawn anew for each record, each correlation from lag 1 on is noise alone."""
    for slots in (2, 5, 12):
        labels = np.argsort(np.random.default_rng(slots).random((500, 8, slots, 2)), axis=2)
        line = walk_correlations(records_with(labels=labels))[1:11]
        noise = [noise_of(np.array(0.5), 500 - lag, independent_labels(slots)) for lag in range(1, 11)]
        low, high = squares(line.size)
        assert low < ((line.reshape(10, -1) / np.array(noise)[:, None]) ** 2).sum() < high


def test_the_noise_of_a_slow_series_is_bartletts():
    """Of six series of a time of 10 records, at lags where the correlation itself is gone."""
    random = np.random.default_rng(22)
    line = np.array([autoregressive(10, 2000, random)[100:1000:100] for _ in range(300)])
    noise = noise_of(np.array(integrated(10)), 2000 - np.arange(100, 1000, 100), 6)
    low, high = squares(line.size)
    assert low < ((line / noise) ** 2).sum() < high


def test_three_hard_samples_of_64_are_seen():
    hard = [5, 23, 61]
    times = np.full(64, 3.0)
    times[hard] = 1e4
    records = walks(np.maximum(times, 6), 1000, 2)
    found = walk_times(records)
    assert np.flatnonzero(~found.is_settled.any(axis=1)).tolist() == hard
    assert not found.is_settled[hard].any() and found.is_settled.sum() == 2 * 61
    worst = np.argsort(found.longest.max(axis=1))[::-1]
    assert sorted(worst[:3]) == hard and (found.longest[hard] > 1000 / 12).all()
    # Taken together, with the mean of the run off each series, they pass as settled at a time of the others.
    series = np.linspace(-1, 1, SLOTS)[np.argsort(records.labels, axis=2)].reshape(1000, -1)
    pooled = autocorrelation_time(series)
    assert pooled.is_settled and pooled.value < 2 * integrated(6)


def test_a_sample_that_never_moves_has_no_time():
    found = walk_times(walks([6, 1e12], 600, 3))
    assert np.isinf(found.exponential[1]).all() and np.isnan(found.integrated[1]).all() and not found.is_settled[1].any()


def test_times_that_are_spread_log_normally():
    """Those of more than a twelfth of the run are listed, but for some near the limit.

    How the greatest of two replicas' times spreads in a run of twelve times no theory at hand tells: the limits of a half and
    of 1.6 are chosen, and hold for this seed."""
    true = np.maximum(np.exp(np.random.default_rng(4).normal(3, 1.2, 96)), 6)
    epochs = 1200
    found = walk_times(walks(true, epochs, 5))
    short = ~found.is_settled.all(axis=1)
    assert short[true > 1.6 * epochs / 12].all() and not short[true < 0.5 * epochs / 12].any()
    assert (true > 1.6 * epochs / 12).sum() > 3
    far = true < epochs / 50
    stand_apart(found.integrated[far], found.error[far], np.array([[integrated(time)] for time in true[far]]),
                epochs, SLOTS - 1, OF_KNOWN_VARIANCE)


def stand_apart(found, errors, true, epochs, independent, squared):
    """Whether times of samples, each with a true one of its own, have the bias of theory in their mean, but for chance. That 68 %
    are within their errors is held to a fifth of the error, which is chosen: 0.1 of all."""
    apart = found / true - 1 - bias_of(true, epochs, independent, squared)
    assert abs(apart.mean()) < normal_bound() * stats.sem(apart, axis=None)
    within = (abs(found - true) < errors).mean()
    assert abs(within - 0.6827) < 0.1 + normal_bound() * (0.68 * 0.32 / found.size) ** 0.5, within


def autoregressive(time, epochs, random):
    """The autocorrelation by lag, mean over 6 series x(t + 1) = a x(t) + noise of known mean 0 and variance 1."""
    memory = math.exp(-1 / time)
    noise = random.normal(0, math.sqrt(1 - memory ** 2), (epochs, 6))
    noise[0] /= math.sqrt(1 - memory ** 2)
    power = (abs(fft.rfft(lfilter([1], [1, -memory], noise, axis=0), 2 * epochs, axis=0)) ** 2).mean(axis=1)
    return fft.irfft(power, 2 * epochs)[:epochs] / np.arange(epochs, 0, -1)


@pytest.mark.parametrize("time, lengths", [(6, 12), (6, 25), (30, 25), (6, 100), (30, 100)])
def test_times_of_autoregressive_series(time, lengths):
    """Series of Gaussian values, six for each time, with the correlation 1 at lag 0 as that of labels has."""
    random, true = np.random.default_rng(8), integrated(time)
    lines = [autoregressive(time, lengths * time, random) for _ in range(2000 if time < 30 else 500)]
    found = np.array([integrated_time(line / line[0], 6) for line in lines])
    stands(found[:, 0], found[:, 1], true, bias_of(true, lengths * time, 6, OF_MEASURED_VARIANCE))
    # U. Wolff's window, which balances what is cut off and the noise, spreads as much or more.
    other = np.array([of_wolffs_window(line / line[0], 6) for line in lines])
    assert np.mean((found[:, 0] - true) ** 2) < 1.1 * np.mean((other - true) ** 2)


def of_wolffs_window(line, independent):
    times = np.cumsum(line) - 0.5
    with np.errstate(divide="ignore", invalid="ignore"):
        decay = np.where(times > 0.5, 1.5 / np.log((2 * times + 1) / (2 * times - 1)), 1e-9)
    lags = np.arange(1, len(line))
    enough = np.flatnonzero(np.exp(-lags / decay[1:]) < decay[1:] / np.sqrt(lags * len(line) * independent))
    return times[1 + enough[0]]


def test_autoregressive_times_that_are_spread_log_normally():
    """Of samples whose run is fifty times theirs, the times have the bias of theory, and spread as their errors tell."""
    random, epochs = np.random.default_rng(9), 2000
    true = np.maximum(np.exp(random.normal(3, 0.8, 400)), 3)
    lines = [autoregressive(time, epochs, random) for time in true]
    found = np.array([integrated_time(line / line[0], 6) for line in lines])
    settled, far = epochs >= 12 * found[:, 0], true < epochs / 50
    assert settled[far].all() and settled.mean() > 0.95
    stand_apart(found[far, 0], found[far, 1], np.array([integrated(time) for time in true[far]]), epochs, 6, OF_MEASURED_VARIANCE)


def test_walks_that_are_gone_within_a_record_have_an_integrated_time_alone():
    labels = np.argsort(np.random.default_rng(6).random((500, 4, SLOTS, 2)), axis=2)
    found = walk_times(records_with(labels=labels))
    assert np.isnan(found.exponential).all() and found.is_settled.all()
    # The time is 1/2 and the correlation at lag 1, of eight walks; where that is above its noise, to its square more.
    noise = noise_of(np.array(0.5), 500, SLOTS - 1)
    assert found.integrated.mean() == pytest.approx(0.5, abs=normal_bound() * noise / 8 ** 0.5 + noise ** 2)


def test_correlations_are_those_of_the_sum_over_labels():
    records = walks([6, 30], 40, 7)
    values = np.linspace(-1, 1, SLOTS)[np.argsort(records.labels, axis=2)]
    for lag in (0, 1, 7, 39):
        wanted = np.mean(values[lag:] * values[:40 - lag], axis=(0, 2)) / np.mean(np.linspace(-1, 1, SLOTS) ** 2)
        assert np.allclose(walk_correlations(records)[lag], wanted)


def test_one_temperature_has_no_walk():
    with pytest.raises(Refusal, match="one temperature"):
        walk_times(records_with(labels=np.zeros((9, 1, 1, 2), np.int8)))
