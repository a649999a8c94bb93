"""Why two sizes of a study need seeds of their own, by the independent program."""
import os

import make_seeds
import pytest
from long_run_folder import read_keys
from make_tables import outcome
from reference.demo import demo_rows
from reference.grid import Tempering

SAMPLES = (0, 5, 63)


def bonds(size, seed, sample):
    """The couplings of a sample in order of bond number, as the program on a grid draws them from the seed."""
    rows, swaps = demo_rows(1)
    return [j for of_site in Tempering(size, "metropolis", rows, swaps, 1, seed, sample, "up", sample).j for j in of_site]


def seeds_of(folder, size):
    template = folder / f"template_{size}"
    template.mkdir()
    (template / "run.toml").write_text(make_seeds.TEMPLATE.replace("size = 4", f"size = {size}"))
    for table in ("rules.csv", "swaps.csv"):
        (template / table).write_text("1\n")
    into = folder / f"study_{size}"
    assert outcome([str(template / "run.toml"), "--count", "2", "--into", str(into)], make_seeds.main)[0] == 0
    return [read_keys(into / name / "run.toml")["seed"] for name in sorted(os.listdir(into)) if name != make_seeds.INDEX]


@pytest.mark.parametrize("sample", SAMPLES)
def test_with_one_seed_the_bonds_of_a_small_lattice_are_the_first_of_a_greater_one(sample):
    small, great = bonds(4, 7, sample), bonds(8, 7, sample)
    assert len(small) == 192 and great[:192] == small and len(set(small)) == 2


def test_two_sizes_of_a_study_get_different_seeds_and_couplings(tmp_path):
    small, great = seeds_of(tmp_path, 4), seeds_of(tmp_path, 8)
    assert len(set(small + great)) == 4
    for seed, other in zip(small, great):
        for sample in SAMPLES:
            assert bonds(8, other, sample)[:192] != bonds(4, seed, sample)
