"""Four copies of equal couplings: figures that were worked out by hand, and those of spins whose answer is known."""
import math
from pathlib import Path

import numpy as np
import pytest
from chances import are_distances
from cross_text_test import CHECKERBOARD, text_of
from long_run_folder import digest_of
from make_tables import Refusal, outcome
from written import write_run
from written_copies import read, text_of_copies
from written_sums import read as read_sums
from written_sums import text_with

import estimate
import manifest
from glass_analysis.copies import OF_COPIES, CopyMeans, study_of_copies, study_of_twins, u_4, u_22
from glass_analysis.sums import told_of


def figures_of(texts):
    study = study_of_copies(texts)
    return {name: told_of(study.parts, lambda values, of=of: of(CopyMeans(values, study.size))) for name, of in OF_COPIES.items()}


def values_of(texts):
    return {name: float(told.over_seeds.value[0]) for name, told in figures_of(texts).items()}


def text_with_overlaps(*samples):
    """A text of side 4 in which the six pairs of each sample have these overlaps; links and planes are as at equal spins."""
    lines = [f"cross 1 size=4 slots=1 samples={len(samples)} rule=heat seeds=7,8 epochs=1,0\n"]
    for sample, overlaps in enumerate(samples):
        for place, q in zip(("0,1", "0,2", "0,3", "1,2", "1,3", "2,3"), overlaps):
            lines.append(f"pair,{sample},0,{place},{q},192\n")
            # The first number makes up the sum of all distances.
            lines += [f"{kind},{sample},0,{place},{times * q * q},0,0\n" for kind, times in (("axis", 3), ("face", 6))]
    return "".join([*lines, "end\n"])


def test_the_checkerboard_against_all_spins_up(tmp_path):
    """q is 64 in two pairs of six and 0 in the others: [q2] is 4096 / 3. One of three pairs of pairs has 4096^2."""
    found = values_of([read(tmp_path, CHECKERBOARD)])
    assert found["U4"] == pytest.approx(3) and found["U22"] == pytest.approx(2) and found["U111"] == found["U1111"] == 0
    assert found["chi"] == pytest.approx(64 / 3) and found["link"] == pytest.approx(-1 / 3)
    # The link overlap is 1 or -1, and each of the three products is 1.
    assert found["var link"] == pytest.approx(8 / 9) and found["of samples"] == pytest.approx(8 / 9)


def test_equal_copies(tmp_path):
    found = values_of([read(tmp_path, text_of_copies(np.ones((2, 4, 4, 4, 4), int)))])
    assert [found[name] for name in ("U4", "U111", "U1111", "link")] == pytest.approx([1] * 4)
    assert [found[name] for name in ("U22", "var link", "of samples")] == pytest.approx([0] * 3)


def test_overlaps_of_two_samples(tmp_path):
    """Of the pairs 01, 02, 03, 12, 13, 23 twice the numbers 2, 4, 2, 1, 3, 2, and in the other sample 2, 2, 2, 2, 2, 4."""
    found = values_of([read(tmp_path, text_with_overlaps((4, 8, 4, 2, 6, 4), (4, 4, 4, 4, 4, 8)))])
    # q2: 4 (4 + 16 + 4 + 1 + 9 + 4) and 4 (5 * 4 + 16) over 6; q4: 16 (16 + 256 + 16 + 1 + 81 + 16) and 16 (5 * 16 + 256).
    q2, q4 = (152 / 6 + 144 / 6) / 2, 16 * (386 / 6 + 336 / 6) / 2
    # Triangles (01, 02, 12), (01, 03, 13), (02, 03, 23), (12, 13, 23): 8, 12, 16, 6, and 8, 8, 16, 16.
    triangles = 8 * ((8 + 12 + 16 + 6) / 4 + (8 + 8 + 16 + 16) / 4) / 2
    # Rings 01 12 23 03: 8, 01 13 23 02: 48, 02 12 13 03: 24; and 32, 32, 16.
    rings = 16 * ((8 + 48 + 24) / 3 + (32 + 32 + 16) / 3) / 2
    # Squares 01 and 23: 16, 02 and 13: 144, 03 and 12: 4; and 64, 16, 16.
    squares = 16 * ((16 + 144 + 4) / 3 + (64 + 16 + 16) / 3) / 2
    assert found["U4"] == pytest.approx(q4 / q2 ** 2) and found["U22"] == pytest.approx(squares / q2 ** 2 - 1)
    assert found["U111"] == pytest.approx(triangles ** (4 / 3) / q2 ** 2) and found["U1111"] == pytest.approx(rings / q2 ** 2)


def test_the_sign_of_a_copy_changes_no_product(tmp_path):
    spins = np.random.default_rng(1).choice([-1, 1], (3, 4, 4, 4, 4), p=[0.3, 0.7])
    turned = spins * np.array([1, -1, 1, -1])[None, :, None, None, None]
    one, other = (values_of([read(tmp_path, text_of_copies(own))]) for own in (spins, turned))
    assert one == pytest.approx(other, nan_ok=True)


def test_free_spins(tmp_path):
    """<q2> = V, U4 = 3 - 2 / V, no sample differs from another, and products round three and four copies have the mean V."""
    sites, away = 64, []
    for study in range(12):
        random = np.random.default_rng(study)
        texts = [read(tmp_path, text_of_copies(random.choice([-1, 1], (40, 4, 4, 4, 4)), (2 * n, 2 * n + 1))) for n in range(12)]
        found = figures_of(texts)
        known = {"chi": 1, "U4": 3 - 2 / sites, "U22": 0, "U111": sites ** (4 / 3 - 2), "U1111": 1 / sites, "link": 0,
                 "var link": 1 / (3 * sites), "of samples": 0}
        away.append([float((found[name].over_seeds.value[0] - value) / found[name].over_seeds.error[0]) for name, value in known.items()])
    assert are_distances(away, 11)


def test_squares_over_several_states_have_no_bias(tmp_path):
    """Of two runs at two epochs each the means over the epochs are multiplied, and what goes round the copies is taken by state."""
    one, other = (text_with_overlaps(overlaps) for overlaps in ((2, 4, 6, 8, 2, 4), (8, 2, 2, 4, 6, 2)))
    texts = [read(tmp_path, one, "a"), read(tmp_path, other.replace("epochs=1,0", "epochs=3,2"), "b")]
    found = values_of(texts)
    means = np.mean([np.square((2, 4, 6, 8, 2, 4)), np.square((8, 2, 2, 4, 6, 2))], axis=0)
    squares = (means[0] * means[5] + means[1] * means[4] + means[2] * means[3]) / 3
    assert found["U22"] == pytest.approx(squares / means.mean() ** 2 - 1)
    rings = [2 * 4 * 4 * 2 + 2 * 4 * 6 * 8 + 4 * 2 * 6 * 8, 8 * 2 * 2 * 6 + 8 * 2 * 2 * 4 + 2 * 6 * 2 * 4]
    assert found["U1111"] == pytest.approx(sum(rings) / 6 / means.mean() ** 2)


def test_which_texts_are_taken_together(tmp_path):
    def taken(*headings):
        return study_of_copies([read(tmp_path, CHECKERBOARD.replace("seeds=7,8 epochs=1,0", own), str(n)) for n, own in enumerate(headings)])

    assert len(taken("seeds=7,8 epochs=1,0", "seeds=10,9 epochs=0,1").parts) == 2
    assert len(taken("seeds=7,8 epochs=1,0", "seeds=8,7 epochs=3,2").parts) == 1
    for headings, told in ((("seeds=7,7 epochs=1,0",), "one run with the seed 7"),
                           (("seeds=7,8 epochs=1,0", "seeds=8,9 epochs=1,0"), "have the seed 8 in common"),
                           (("seeds=7,8 epochs=1,0", "seeds=8,7 epochs=0,1"), "the same two states"),
                           (("seeds=7,8 epochs=1,0", "seeds=9,10 epochs=1,0", "seeds=9,10 epochs=2,0"), "at other epochs"),
                           (("seeds=7,8 epochs=1,0", "seeds=9,10 epochs=2,2"), "at other epochs")):
        with pytest.raises(Refusal, match=told):
            taken(*headings)
    with pytest.raises(Refusal, match="the first lines differ"):
        study_of_copies([read(tmp_path, CHECKERBOARD), read(tmp_path, text_of(2, 1), "other")])


# ---------------------------------------------------------------- pairs of measured runs


def biased(seed, shares, count=12):
    """Overlap fields of samples whose spins are up with their shares."""
    random = np.random.default_rng(seed)
    return np.stack([np.where(random.random((count, 4, 4, 4)) < share, 1, -1) for share in shares])


def twins(folder, shares, seeds):
    return [[read_sums(folder, text_with(4, biased(seed, shares), seed), f"sums_{seed}") for seed in own] for own in seeds]


def test_squares_of_two_runs_have_no_bias(tmp_path):
    """<q2> is V + V (V - 1) m^2 for independent spins of the mean m, and its variance over four samples is known."""
    shares = [0.5, 0.6, 0.7, 0.85]
    exact = np.array([64 + 64 * 63 * (2 * share - 1) ** 2 for share in shares])
    wanted, biased_ones, away = np.mean(exact ** 2) / np.mean(exact) ** 2 - 1, [], []
    for study in range(12):
        seeds = 100 * study + np.arange(12)
        firsts, seconds = twins(tmp_path, shares, (seeds, seeds + 50))
        found = study_of_twins(firsts, seconds)
        told = told_of(found.parts, lambda values: u_22(CopyMeans(values, 4))).over_seeds
        away.append([float((told.value[0] - wanted) / told.error[0])])
        # By the squares of one run's means it is too great, by the variance of <q2>.
        own = found.parts[..., 0, 5 + 8]
        biased_ones.append(np.mean(own ** 2) / np.mean(own) ** 2 - 1 - wanted)
    assert are_distances(away, 11) and np.mean(biased_ones) > 0
    assert u_4(CopyMeans(found.parts.mean(axis=(0, 1)), 4).sums)[0] > 1


def test_energies_tell_whether_couplings_are_equal(tmp_path):
    """Means of energies that samples have of their own, and of ones of other samples."""
    random = np.random.default_rng(3)
    own, other, fields = random.integers(-9, 9, (2, 30)) * 4, random.integers(-9, 9, 30) * 4, random.choice([-1, 1], (30, 8, 4, 4, 4))
    texts = [read_sums(tmp_path, text_with(4, fields, seed, energies=np.broadcast_to(of[:, None, None], (30, 8, 2))), str(seed))
             for seed, of in ((1, own[0]), (2, own[0]), (3, other))]
    assert study_of_twins(texts[:1], texts[1:2]).alike[0] == pytest.approx(1) and abs(study_of_twins(texts[:1], texts[2:]).alike[0]) < 0.75


def test_refusals_of_pairs(tmp_path):
    shares = [0.5, 0.6]
    firsts, seconds = twins(tmp_path, shares, ((1, 2), (3, 4)))
    for one, other, told in ((firsts, seconds[:1], "2 texts and 1 of other seeds"), (firsts, [seconds[0], firsts[0]], "the same plan"),
                             (firsts[:1], [read_sums(tmp_path, text_with(4, biased(5, [0.5] * 3), 5), "more")], "the first lines differ")):
        with pytest.raises(Refusal, match=told):
            study_of_twins(one, other)


# ---------------------------------------------------------------- the commands


def call(*words):
    return outcome(list(map(str, words)), estimate.main)


def test_a_table_a_figure_and_comma_separated_text_of_copies(tmp_path):
    for n in range(3):
        spins = np.random.default_rng(n).choice([-1, 1], (5, 4, 4, 4, 4), p=[0.2, 0.8])
        (tmp_path / f"copies_{n}").write_text(text_of_copies(spins, (2 * n, 2 * n + 1)))
    given, run = [tmp_path / f"copies_{n}" for n in range(3)], write_run(tmp_path, [1.5], samples=5)
    picture, table = tmp_path / "copies.png", tmp_path / "copies.csv"
    status, out, err = call("cross", *given, "--run", run, "--plot", picture, "--csv", table)
    assert (status, err) == (0, "") and picture.read_bytes()[:4] == b"\x89PNG" and "3 texts of 3 pairs of runs: size 4" in out
    shown = out.splitlines()
    assert shown[1].split() == ["slot", "T", *sum(([name, "error", "samples"] for name in ("U4", "U22", "U111", "U1111")), [])]
    rows = [line.split(",") for line in table.read_text().splitlines()]
    assert rows[0] == ["slot", "temperature", "figure", "value", "error", "error over samples"] and len(rows) == 1 + len(OF_COPIES)
    by_name = {row[2]: list(map(float, row[3:])) for row in rows[1:]}
    assert list(map(float, shown[2].split()[1:])) == pytest.approx(
        [1.5, *sum((by_name[name] for name in ("U4", "U22", "U111", "U1111")), [])], abs=6e-7)
    status, out, _ = call("cross", given[0])
    assert status == 0 and "share each random number" in out and " nan" in out.splitlines()[2]


def test_a_table_of_pairs_of_runs_and_what_their_manifests_refuse(tmp_path):
    twins(tmp_path, [0.5, 0.6, 0.7], ((1, 2), (3, 4)))
    run, names = write_run(tmp_path, [1.5], samples=3), [tmp_path / f"sums_{seed}" for seed in (1, 2, 3, 4)]
    run.write_text(run.read_text().replace('"random"', '"file:j"', 1))
    status, out, err = call("squares", *names[:2], "--second", *names[2:], "--csv", tmp_path / "squares.csv", "--plot", tmp_path / "a.png")
    assert (status, err) == (0, "") and "2 pairs of texts: size 4" in out and "are correlated over the samples by nan" in out
    assert call("squares", *names[:2])[0] == 2 and call("squares", *names[:2], "--second", names[2])[0] == 2
    for seed, name in enumerate(names, 1):
        Path(tmp_path / "j").write_text(f"couplings {seed % 2}")
        made = manifest.of_run_file(run, "0" * 64, digest_of(name))
        manifest.write_manifest(name, made._replace(keys={**made.keys, "seed": seed}))
    for words, wanted in (([*names[:2], "--second", *names[2:]], 0), ([*names[:2], "--second", names[3], names[2]], 2)):
        manifest.study_of.cache_clear()
        status, out, err = call("squares", *words)
        assert (status, "are of other couplings" in err, err.count("\n")) == (wanted, wanted == 2, wanted // 2)


@pytest.mark.parametrize("words, told", [
    (["copies", "copies"], "the same two states"), (["bad"], "bad, line 19: the correlations"), (["none"], "none can't be read"),
    (["copies", "--plot", "x.what"], "x.what can't be written"), (["copies", "--csv", "no/x"], "no/x can't be written"),
    (["copies", "--run", "run.toml"], "run.toml has 2 temperatures, and copies 1 slots"), (["copies", "--slot", "0"], "unrecognized")])
def test_refusals_are_a_line(tmp_path, monkeypatch, words, told):
    (tmp_path / "copies").write_text(CHECKERBOARD)
    (tmp_path / "bad").write_text(CHECKERBOARD.replace("axis,0,0,2,3,3072,", "axis,0,0,2,3,3074,"))
    write_run(tmp_path, [1, 2], samples=1)
    monkeypatch.chdir(tmp_path)
    status, _, err = call("cross", *words)
    assert (status, err.count("\n"), told in err) == (2, 1, True), err


def test_a_product_below_0_has_no_power(tmp_path):
    assert math.isnan(values_of([read(tmp_path, text_with_overlaps((2, 2, 2, -2, -2, -2)))])["U111"])
