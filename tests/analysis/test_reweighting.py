"""Reweighted means of independent bonds, whose energy and its square are known at each temperature."""
import math

import numpy as np
import pytest
from chances import are_distances
from make_tables import Refusal
from run_temperatures import run_betas
from test_estimates import records_with
from written import write_run

from glass_analysis import blocks, jackknife, reweighted
from glass_analysis.reweighting import free_energies

BONDS, SAMPLES, EPOCHS = 192, 32, 200


def bonds(betas, seed, epochs=EPOCHS, samples=SAMPLES):
    """192 independent bonds, each unsatisfied with the probability 1 / (1 + exp(2 beta)); the energy of replica 0 is taken
    as the overlap too."""
    random = np.random.default_rng(seed)
    chance = 1 / (1 + np.exp(2 * np.asarray(betas)))
    energies = 2 * random.binomial(BONDS, chance[:, None], (epochs, samples, len(betas), 2)) - BONDS
    return records_with(energies=energies, overlaps=energies[..., 0])


def energy(beta):
    return -BONDS * math.tanh(beta)


def square(beta):
    return energy(beta) ** 2 + BONDS / math.cosh(beta) ** 2


@pytest.mark.parametrize("slot, betas, targets", [
    (None, [0.5, 0.4, 0.3, 0.22], [0.52, 0.5, 0.45, 0.37, 0.25, 0.21]), (1, [0.5, 0.4, 0.3], [0.42, 0.4, 0.38]), (None, [0.4], [0.43, 0.37])])
def test_means_of_independent_bonds(slot, betas, targets):
    """Distances are Student's t with as many degrees of freedom as samples but one. The ratio of sums has a bias, of energies
    with the deviation s by a step of d in beta d s exp((d s)^2) / root(records) errors of one sample: here, with d s below
    0.55, below 0.1 errors of 16 samples."""
    away = []
    for seed in range(40):
        found = reweighted(bonds(betas, seed, 1000, 16), betas, targets, slot)
        value, error = jackknife(blocks([found.moments]))
        wanted = np.array([[energy(beta) / 64, square(beta) / 64 ** 2] for beta in targets])
        away.append((value[:, :2] - wanted) / error[:, :2])
    assert are_distances(away, 15)


def test_all_slots_tell_more_than_one():
    betas, target = [0.5, 0.4, 0.3], [0.4]
    shares = [reweighted(bonds(betas, 1), betas, target, slot).share[0] for slot in (None, 1)]
    assert shares[1] == pytest.approx(1) and shares[0] > 1.3


def test_free_energies_are_those_of_the_bonds():
    betas = np.array([0.5, 0.42, 0.3, 0.2])
    records = bonds(betas, 3, 20000)
    found = free_energies(records.energies[:, 0].sum(axis=-1).T, betas)
    # Of two replicas Z = (2 cosh beta)^(2 bonds).
    wanted = -2 * BONDS * np.log(np.cosh(betas) / np.cosh(betas[0]))
    assert np.allclose(found, wanted, atol=0.05)


@pytest.mark.parametrize("betas, target, slot", [([0.5, 0.4], 0.7, None), ([0.5, 0.4], 0.2, None), ([0.9, 0.2], 0.5, None),
                                                 ([0.5, 0.3, 0.1], 0.3, 0), ([0.4], 0.8, None)])
def test_temperatures_that_no_energies_reach_are_refused(betas, target, slot):
    with pytest.raises(Refusal, match="don't reach"):
        reweighted(bonds(betas, 4), betas, [target], slot)


@pytest.mark.parametrize("rule", ["heat", "metropolis"])
def test_temperatures_of_a_run_are_those_its_tables_were_made_of(rule, tmp_path):
    texts = ["0.8", "1.1019", "1.5", "3", "40"]
    run = write_run(tmp_path, texts, rule)
    assert run_betas(str(run)) == pytest.approx([1 / float(text) for text in texts], rel=3e-8)
    good = (tmp_path / "rules.csv").read_text()
    for damaged in (good + good, good.replace(",", ", 7,", 1), "0, 0, 0\n" if rule == "metropolis" else "0, 0, 0, 0, 0, 0, 0\n",
                    "9, 9, 9\n" if rule == "metropolis" else "9, 9, 9, 9, 3000000000, 9, 9\n", "", "x\n"):
        (tmp_path / "rules.csv").write_text(damaged)
        with pytest.raises(Refusal):
            run_betas(str(run))
