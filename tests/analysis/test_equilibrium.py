"""Parts of runs that double, the samples that move most, and runs from both sides, where the answer is known."""
import math

import numpy as np
import pytest
from chances import are_counts, student_bound
from make_tables import Refusal
from scipy import optimize
from test_estimates import records_with

from glass_analysis.equilibrium import (chance_beyond, check_pairs, doubling_bins, equilibration, farthest_apart, greatest_expected,
                                        last_movers, meetings, parts_of, steps_of)
from glass_analysis.observables import ENERGY, SQUARE

EPOCHS, SAMPLES = 4096, 64
# Five of a hundred samples equilibrate in twenty times the run.
HARD, TIME = [3, 30, 57], 20 * EPOCHS
NOISE, FALL = 8, 62.5 * np.exp(-np.arange(EPOCHS) / TIME)


def study(seed, hard=HARD, epochs=EPOCHS):
    """Energies of 64 sites that are noise, and in hard samples noise on top of what falls as exp(-t / TIME)."""
    random = np.random.default_rng(seed)
    energies = random.normal(0, NOISE, (epochs, SAMPLES, 1, 2))
    energies[:, hard] += FALL[:epochs].reshape(-1, 1, 1, 1)
    return records_with(energies=2 * np.rint(energies / 2).astype(np.int64))


def test_bins_double():
    assert doubling_bins(np.arange(16)) == [(8, 16), (4, 8), (2, 4)]
    assert doubling_bins(np.arange(9, 160, 10)) == [(8, 16), (4, 8), (2, 4)]
    assert doubling_bins(np.arange(3)) == []
    with pytest.raises(Refusal, match="too short"):
        parts_of(study(1).part(0, 3))


def test_steps_of_a_run_that_falls_and_of_one_in_equilibrium():
    random = np.random.default_rng(4)
    noise = np.rint(random.normal(0, 8, (4096, 16, 1, 2))).astype(np.int64)
    fall = np.rint(-40 * np.log2(np.arange(1, 4097))).astype(np.int64).reshape(-1, 1, 1, 1)
    for energies, is_equilibrated in ((noise, True), (noise + fall, False)):
        steps = [one.step for one in equilibration([records_with(energies=energies)]) if one.step is not None]
        in_errors = [float(abs(step.value[0, 0] / step.error[0, 0])) for step in steps[-3:]]
        # Of 16 samples.
        assert (max(in_errors) < student_bound(15, 3)) == is_equilibrated


def known_shares(studies=20000):
    """How often each of four things is seen in a study of this kind, if estimators are right: from Gaussian means of its last two
    parts, with variances of eight pieces each."""
    random, hard = np.random.default_rng(1), np.isin(np.arange(SAMPLES), HARD)
    parts = [FALL[EPOCHS // 4:EPOCHS // 2], FALL[EPOCHS // 2:]]
    deviations = [NOISE / math.sqrt(2 * len(part)) for part in parts]
    steps = random.normal(hard * (parts[1].mean() - parts[0].mean()), math.hypot(*deviations), (studies, SAMPLES))
    # What falls within a part adds to the variance of its pieces.
    squares = [deviation ** 2 * random.chisquare(7, steps.shape) / 7 + hard * part.reshape(8, -1).mean(axis=1).var(ddof=1) / 8
               for part, deviation in zip(parts, deviations)]
    away = steps / np.sqrt(sum(squares))
    order = np.argsort(-abs(away), axis=1)
    worst, mean = np.take_along_axis(away, order, axis=1)[:, 0], steps.mean(axis=1)
    return ((abs(mean) < 2 * steps.std(axis=1, ddof=1) / 8).mean(), (hard[order[:, :10]].sum(axis=1) == 3).mean(),
            hard[order[:, :2]].all(axis=1).mean(), (worst < -greatest_expected(SAMPLES, 2)).mean())


def test_the_worst_samples_are_seen_where_the_mean_passes():
    shares, studies = known_shares(), 40
    # The mean passes in five studies of six; all hard samples are listed, and the worst is beyond chance, in nearly all.
    assert shares[0] > 0.8 and min(shares[1], shares[3]) > 0.97
    found = np.zeros(4, int)
    for seed in range(studies):
        parts = [parts_of(study(seed))]
        step = steps_of(parts)[-2].step
        movers = last_movers(parts, 0, ENERGY)
        listed = [mover.sample for mover in movers]
        assert len(listed) == 10
        found += (abs(step.value[0, ENERGY]) < 2 * step.error[0, ENERGY], set(HARD) <= set(listed), set(listed[:2]) <= set(HARD),
                  movers[0].in_errors < -greatest_expected(SAMPLES, 2))
    assert all(are_counts(count, studies, share) for count, share in zip(found, shares)), (found, shares)


def test_the_worst_of_equal_samples_are_as_far_as_chance_has_it():
    beyond = sum(abs(last_movers([parts_of(study(100 + seed, [], 512))], 0, ENERGY, 1)[0].in_errors) > greatest_expected(SAMPLES, 2)
                 for seed in range(200))
    assert are_counts(beyond, 200, 0.5)


@pytest.mark.parametrize("shorter, studies", [(1, 2000), (2, 8000)])
def test_the_farthest_of_normal_samples_with_unequal_errors(shorter, studies):
    """Means of two parts by normal numbers, each sample with a deviation of its own, their errors from eight pieces each.

    By Welch's degrees of freedom the share of unequal parts would be 0.465, and is refused here."""
    random, samples = np.random.default_rng(15 + shorter), 1024
    deviations, bound, beyond = np.exp(random.normal(0, 1, samples)), greatest_expected(samples, shorter), 0
    for _ in range(studies // 20):
        shape = (8, 20, samples)
        longer, part = (deviations * times ** 0.5 * random.standard_normal(shape, np.float32) for times in (1, shorter))
        error = np.sqrt((longer.var(axis=0, ddof=1) + part.var(axis=0, ddof=1)) / 8)
        beyond += (abs(longer.mean(axis=0) - part.mean(axis=0)) > bound * error).any(axis=1).sum()
    assert are_counts(beyond, studies, 0.5), beyond / studies


def test_one_sample_alone_is_beyond_by_student():
    """Of equal parts the distance is Student's t of 14 degrees of freedom."""
    assert student_bound(14) == pytest.approx(optimize.brentq(lambda bound: chance_beyond(bound, 1) - 1e-4, 0, 100))


def test_both_sides_meet_where_the_run_is_long_enough():
    """q^2 falls to 0.25 from the ordered start, and rises to it from the random one, in a time of a hundredth of the run."""
    random = np.random.default_rng(5)
    rest = np.exp(-np.arange(EPOCHS) / (EPOCHS / 100)).reshape(-1, 1, 1)
    sides = []
    for sign in (1, -1):
        mean = 0.25 + sign * 0.25 * rest
        overlaps = 2 * np.rint(32 * np.sqrt(mean) + random.normal(0, 2, (EPOCHS, SAMPLES, 1))).astype(np.int64)
        sides.append([parts_of(records_with(overlaps=overlaps))])
    found = meetings(*sides)
    away = [float(one.difference.value[0, SQUARE] / one.difference.error[0, SQUARE]) for one in found]
    assert away[2] > 10 and max(abs(away[-1]), abs(away[-2])) < student_bound(SAMPLES - 1, 2)
    assert found[2].ordered.value[0, SQUARE] > found[2].random.value[0, SQUARE]


def test_a_sample_that_stays_on_its_side_is_told():
    shape, random = (EPOCHS, SAMPLES, 1), np.random.default_rng(6)
    above, below = (2 * np.rint(random.normal(16, 2, shape)).astype(np.int64) for _ in range(2))
    below[:, 41] -= 8
    sides = [parts_of(records_with(overlaps=above))], [parts_of(records_with(overlaps=below))]
    worst = farthest_apart(*sides, 0, SQUARE)
    assert worst[0].sample == 41 and worst[0].difference > 0 and worst[0].in_errors > greatest_expected(SAMPLES, 1)
    # The farthest of the other samples, of two parts of eight pieces each.
    assert abs(worst[1].in_errors) < student_bound(14, SAMPLES - 1)


def test_pairs_of_other_couplings_or_epochs_are_refused():
    one, other = study(1), study(2)
    parity = other.energies.copy()
    parity[:, 7] += 2
    shifted = parts_of(records_with(energies=4 * (parity // 4) + np.where(np.arange(SAMPLES) == 7, 2, 0)[:, None, None]))
    of_four = [parts_of(records_with(energies=4 * (r.energies // 4))) for r in (one, other)]
    check_pairs(of_four[:1], of_four[1:])
    for random, what in (([shifted], "other couplings"), ([parts_of(one.part(0, 100))], "differ in more than their start"),
                         (of_four, "reports of ordered starts"), (of_four[:1], "the same rows")):
        with pytest.raises(Refusal, match=what):
            check_pairs(of_four[:1], random)
