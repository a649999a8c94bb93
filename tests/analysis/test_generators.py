"""The independent program over arrays, with the program's generator and with a second one."""
import numpy as np
import pytest
from chances import student_bound
from make_tables import inverse_temperatures, rule_record, swap_record
from reference.arrays import Lattice, Philox, Registers, Tempering
from reference.grid import Tempering as OneSample
from types import SimpleNamespace

SIZE, SEED, EPOCHS = 4, 77, 6
BETAS = inverse_temperatures(SimpleNamespace(betas=["0.9", "0.5", "0.2"], temperatures=None))


def tables(rule):
    rows = [rule_record(rule, beta) for beta in BETAS]
    swaps = [swap_record(cold - hot, SIZE)[0] for cold, hot in zip(BETAS, BETAS[1:])]
    return rows, swaps


@pytest.mark.parametrize("rule", ["heat", "metropolis"])
def test_with_the_registers_the_records_are_those_of_the_program_on_a_grid(rule):
    rows, swaps = tables(rule)
    couplings = [np.random.default_rng(b).integers(0, 2, 3 * SIZE ** 3, np.uint8).tobytes() for b in range(3)]
    all_at_once = Tempering(Lattice(SIZE, couplings), rule, np.array(rows), [np.array(swap) for swap in swaps], 2, Registers(SEED))
    one_by_one = [OneSample(SIZE, rule, rows, swaps, 2, SEED, bonds.__getitem__, "random", b) for b, bonds in enumerate(couplings)]
    for _ in range(EPOCHS):
        energies, overlaps = all_at_once.step()
        for b, sample in enumerate(one_by_one):
            taken = np.array(sample.step())
            assert np.array_equal(energies[b], taken[:, :2]) and np.array_equal(overlaps[b], taken[:, 2])


def test_a_second_generator_leads_to_the_exact_energies_of_the_ferromagnet():
    # examples/ising_4 has where they come from.
    exact = np.array([-2.515073, -0.932611, -0.316619])
    betas = inverse_temperatures(SimpleNamespace(betas=["0.3", "0.2", "0.1"], temperatures=None))
    rows = np.array([rule_record("heat", beta) for beta in betas])
    swaps = [np.array(swap_record(cold - hot, 4)[0]) for cold, hot in zip(betas, betas[1:])]
    run = Tempering(Lattice(4, [bytes(192)] * 64), "heat", rows, swaps, 2, Philox(5))
    energies, _ = run.records(240, 4)
    by_sample = energies[10:].mean(axis=(0, 3)) / 64
    error = by_sample.std(axis=0, ddof=1) / 8
    assert (abs(by_sample.mean(axis=0) - exact) < student_bound(63, 3) * error).all() and (error < 0.01).all()
