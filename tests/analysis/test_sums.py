"""Texts of sums over runs: reading, joining, and each figure where its answer is known."""
import math
from pathlib import Path

import numpy as np
import pytest
from chances import are_distances, normal_bound, student_bound
from long_run_folder import digest_of
from make_tables import Refusal, outcome
from reference import measure
from reference.measured import bin_of
from written import write_run
from written_sums import read, text_with

import estimate
import join_sums
import manifest
from glass_analysis.sums import (HIST, Means, Study, by_bins, energy, figure, heat, length_over_side, link, link_variance, overlap_density,
                                 per_sample, r_12, slope_of_u_4, structure, study_of_texts, susceptibility, u_4, values_in_classes)
from measured_text import CLASSES, MOMENTS, epochs_by_bin, in_order, joined, text_of

# A glass of side 4 at one temperature, four epochs, one sample: worked out by hand of its spins (docs/specification/measure.md).
GLASS = """measure 1 size=4 slots=1 samples=1 rule=metropolis every=1 from=0 to=4 digest=2c0909e19514a457bcd649ad446ed5d5ca200d286aa6e0b10617bc22b1c8dae3
sum,0,0,0,1,-120,7272,3564,28,784,-10,10,100,10000,-12000,-1200000
hist,0,0,0,0,0,0,0,0,1,0,0,0,0,0,0,0,0,0,0,0,0,0,0,0,0,0,0,0,0,0,0,0,0,0,0
axis,0,0,0,340,40,-120
face,0,0,0,576,-80,184
sum,0,0,1,1,-156,12168,6084,28,784,-14,14,196,38416,-30576,-5992896
hist,0,0,1,0,0,0,0,0,0,0,1,0,0,0,0,0,0,0,0,0,0,0,0,0,0,0,0,0,0,0,0,0,0,0,0
axis,0,0,1,436,112,-72
face,0,0,1,456,256,208
sum,0,0,2,2,-284,21136,9792,40,1600,-20,20,232,39712,-30704,-5119424
hist,0,0,2,0,0,0,1,0,0,0,1,0,0,0,0,0,0,0,0,0,0,0,0,0,0,0,0,0,0,0,0,0,0,0,0
axis,0,0,2,704,96,-200
face,0,0,2,872,208,104
end,4
"""


def test_a_text_is_read_and_spelled(tmp_path):
    found = read(tmp_path, GLASS)
    assert found.bins == (0, 1, 2) and "".join(text_of(found)) == GLASS
    assert dict(zip(MOMENTS, found.lines[0, 0, 2][0]))["q4"] == 39712


def test_each_damage_is_told_with_its_line(tmp_path):
    lines = GLASS.splitlines(keepends=True)
    for n in range(len(lines)):
        for damaged, at in ((lines[:n] + lines[n + 1:], n), (lines[:n + 1] + lines[n:], n + 1), (lines[:n], n)):
            with pytest.raises(Refusal, match=f"line {at + 1}:"):
                read(tmp_path, "".join(damaged))
    for n, line in enumerate(lines[1:-1], 1):
        fields = line.split(",")
        for place in range(4, len(fields)):
            more = 2 if fields[0] in ("axis", "face") else 10 ** 9
            other = [*fields[:place], str(int(fields[place]) + more) + "\n" * (place == len(fields) - 1), *fields[place + 1:]]
            if fields[0] == "sum" and MOMENTS[place - 4] in ("E", "E2", "A2", "m", "q4", "Eq2", "Eq4"):
                continue
            with pytest.raises(Refusal):
                read(tmp_path, "".join(lines[:n] + [",".join(other)] + lines[n + 1:]))
    for old, new in (("size=4", "size=5"), ("samples=1", "samples=0"), ("every=1", "every=2"), ("to=4", "to=5"), ("2c09", "2C09")):
        with pytest.raises(Refusal):
            read(tmp_path, GLASS.replace(old, new))


def test_bins_have_the_epochs_of_their_digits():
    for every, first, to in ((1, 0, 9), (3, 2, 40), (7, 0, 3), (10, 25, 1000)):
        wanted = {}
        for epoch in range(first, to):
            if epoch % every == every - 1:
                wanted[bin_of(epoch)] = wanted.get(bin_of(epoch), 0) + 1
        assert epochs_by_bin(every, first, to) == wanted


def test_parts_are_joined_by_adding_lines(tmp_path):
    lines = GLASS.splitlines(keepends=True)
    parts = ["".join([lines[0].replace("from=0 to=4", "from=1 to=2"), *lines[5:9], "end,2\n"]),
             "".join([lines[0].replace("to=4", "to=1"), *lines[1:5], "end,1\n"]),
             "".join([lines[0].replace("from=0", "from=2"), *lines[9:]])]
    names = []
    for n, part in enumerate(parts):
        read(tmp_path, part, f"part_{n}")
        names.append(str(tmp_path / f"part_{n}"))
    assert outcome(names, join_sums.main) == (0, GLASS, "")
    for wrong in (names[:2] + names[:1], names[::2][:1] + [names[1]] * 2, names[1:]):
        assert outcome(wrong, join_sums.main)[0] == 2
    other = read(tmp_path, parts[2].replace("2c09", "2c08"), "other")
    with pytest.raises(Refusal, match="another run"):
        joined(in_order([read(tmp_path, parts[n], "again") for n in (0, 1)] + [other]))


def test_parts_that_the_independent_program_makes_are_joined_to_its_whole(tmp_path, monkeypatch):
    run = write_run(tmp_path, [1.5, 3], samples=2)
    run.write_text(run.read_text().replace("epochs = 1", "epochs = 5"))
    monkeypatch.chdir(tmp_path)
    texts = []
    for words in ([], ["--until", "3", "--save", "c"], ["--from", "c"]):
        status, text, _ = outcome(["run.toml", *words], measure.main)
        assert status == 0
        texts.append(read(tmp_path, text, f"text_{len(texts)}"))
    assert texts[1].bins == (0, 1, 2) and texts[2].bins == (2, 3)
    assert list(text_of(joined(in_order([texts[2], texts[1]])))) == list(text_of(texts[0]))


def test_manifests_tell_which_texts_may_be_averaged(tmp_path):
    """Texts of one size beside which other tables, sweeps or seeds stand are refused in a line."""
    random, run, names = np.random.default_rng(5), write_run(tmp_path, [1.5], samples=2), []
    for seed in (1, 2):
        names.append(str(tmp_path / f"sums_{seed}"))
        Path(names[-1]).write_text(text_with(4, random.choice([-1, 1], (2, 9, 4, 4, 4)), seed))
        made = manifest.of_run_file(run, "0" * 64, digest_of(Path(names[-1])))
        manifest.write_manifest(Path(names[-1]), made._replace(keys={**made.keys, "seed": seed}))
    path = manifest.file_of(names[1])
    whole = path.read_text()
    for command in ("sums", "bins"):
        manifest.study_of.cache_clear()
        assert outcome([command, *names], estimate.main)[0] == 0
        for old, new in (("sweeps = 1", "sweeps = 2"), ("seed = 2", "seed = 1"), ('start = "random"', 'start = "up"')):
            path.write_text(whole.replace(old, new))
            manifest.study_of.cache_clear()
            status, out, err = outcome([command, *names], estimate.main)
            assert (status, out, err.count("\n"), old.split()[0] in err) == (2, "", 1, True)
        path.write_text(whole)


def test_halves_of_a_bin_add_up(tmp_path):
    random = np.random.default_rng(3)
    fields = random.choice([-1, 1], (2, 40, 4, 4, 4))
    whole = text_with(4, fields, 7)
    first = text_with(4, fields[:, :15], 7)
    second = text_with(4, fields[:, 15:], 7).replace("from=512 to=537", "from=527 to=552").replace("end,537", "end,552")
    found = joined(in_order([read(tmp_path, second, "b"), read(tmp_path, first, "a")]))
    assert "".join(text_of(found)) == whole


# ---------------------------------------------------------------- figures


def means_of(side, **given):
    """Means of one slot from some sums alone."""
    distances = side // 2 + 1
    values = np.zeros((1, HIST + CLASSES + 2 * distances + 2))
    for name, value in given.items():
        if name == "axis":
            values[0, HIST + CLASSES:HIST + CLASSES + distances] = value
        elif name == "face":
            values[0, HIST + CLASSES + distances:HIST + CLASSES + 2 * distances] = value
        elif name == "hist":
            values[0, HIST:HIST + CLASSES] = value
        else:
            values[0, MOMENTS.index(name)] = value
    return Means(values, side)


# Exact means of an epoch of the 4^3 ferromagnet, by the transfer matrix of a layer of 16 spins: inverse temperature, E, E2, q2, A,
# D(0..2), F(0..2), and what they make.
FERROMAGNET = [(0.3, -2.515073, 52780.8, 2800.768, 134.9460, (2163.434, 2082.806, 2073.258), (4298.005, 4175.379, 4155.844), 1.69721, 1.26865),
               (0.22165463, -1.293228, 16247.1, 485.059, 35.6787, (556.452, 314.409, 269.906), (994.556, 658.159, 599.478), 0.35700, 1.45058),
               (0.2, -0.932611, 8816.0, 199.407, 18.5549, (335.473, 97.708, 67.330), (586.297, 219.310, 171.524), 0.19613, 1.29296),
               (0.1, -0.316619, 1277.4, 68.855, 2.1386, (201.196, 2.607, 0.154), (393.249, 9.451, 0.978), 0.02930, 1.02502)]


@pytest.mark.parametrize("exact", FERROMAGNET, ids=str)
def test_lengths_and_ratios_of_the_exact_ferromagnet(exact):
    beta, per_site, squares, q2, links, axis, face, length, ratio = exact
    means = means_of(4, E=128 * per_site, E2=squares, E01=4096 * per_site ** 2, q2=q2, A=links, axis=axis, face=face)
    # Sums are told to 0.0005, chi(0) / chi(k) - 1 is small where the length is, so that is what is lost.
    assert length_over_side(means) == pytest.approx(length, rel=3e-4, abs=2e-4) and r_12(means) == pytest.approx(ratio, rel=3e-5)
    assert susceptibility(means) == pytest.approx(q2 / 64) and structure(means, "axis", 0) == pytest.approx(q2 / 64, rel=1e-5)
    assert structure(means, "face", 0) == pytest.approx(q2 / 64, rel=1e-5)
    assert energy(means) == pytest.approx(per_site) and link(means) == pytest.approx(links / 192)
    assert heat(means, [beta]) == pytest.approx(beta ** 2 * (squares / 2 - 4096 * per_site ** 2) / 64)


@pytest.mark.parametrize("side", [4, 6, 8])
def test_structure_factors_are_those_of_the_fourier_transform(tmp_path, side):
    fields = np.random.default_rng(side).choice([-1, 1], (1, 3, side, side, side), p=[0.3, 0.7])
    text = read(tmp_path, text_with(side, fields, 1))
    means = Means(per_sample(text)[0], side)
    power = (abs(np.fft.fftn(fields[0], axes=(1, 2, 3))) ** 2).mean(axis=0) / side ** 3
    for wave in range(side // 2 + 1):
        assert structure(means, "axis", wave)[0] == pytest.approx(np.mean([power[wave, 0, 0], power[0, wave, 0], power[0, 0, wave]]))
        faces = [power[place] for sign in (wave, -wave) for place in ((wave, sign, 0), (wave, 0, sign), (0, wave, sign))]
        assert structure(means, "face", wave)[0] == pytest.approx(np.mean(faces))


def test_overlaps_that_are_equally_probable_have_a_flat_density():
    sites = 8 ** 3
    counts = values_in_classes(sites)
    assert (counts[0], counts[31], counts.sum()) == (15, 18, sites + 1) and set(counts[1:31]) == {16}
    found = overlap_density(means_of(8, hist=counts / counts.sum()))
    assert np.allclose(found, sites / (2 * (sites + 1))) and (found * counts * 2 / sites).sum() == pytest.approx(1)


def test_free_spins_have_their_moments_and_errors(tmp_path):
    """Independent spins of both replicas: <q2> = V, <q4> = 3 V^2 - 2 V, <A> = 0, <A2> = 3 V, chi(k) = 1 for each k."""
    away, squares = [], []
    for study in range(24):
        random = np.random.default_rng(1000 + study)
        texts = [read(tmp_path, text_with(4, random.choice([-1, 1], (4, 30, 4, 4, 4)), seed)) for seed in range(12)]
        found = study_of_texts(texts)
        told = [figure(found, of) for of in (susceptibility, lambda m: structure(m, "axis", 1), lambda m: structure(m, "face", 1), link,
                                             link_variance, lambda m: m.of("q4"))]
        known = [1, 1, 1, 0, 3 * 64 / 192 ** 2, 3 * 64 ** 2 - 128]
        # The square of a mean link overlap is too great by its variance, and the jackknife's value is taken as it is.
        away.append([float((one.over_seeds.value[0] - value) / one.over_seeds.error[0]) for one, value in zip(told, known)])
        squares.append([float((one.over_seeds.error[0] / one.over_samples[0]) ** 2) for one in told])
    assert are_distances(away, 11)
    # No sample shares a number here, so both errors are one; the square of that over twelve seeds has the variance 2 / 11.
    assert np.allclose(np.mean(squares, axis=0), 1, atol=normal_bound(6) * math.sqrt(2 / 11 / len(squares)))


def test_what_samples_share_is_in_the_error_over_seeds_alone():
    random = np.random.default_rng(4)
    own, shared = 1.0, 0.5
    parts = means_of(4).values + np.zeros((400, 64, 1, 1))
    parts[..., MOMENTS.index("q2")] = 64 * (10 + own * random.normal(size=(400, 64, 1)) + shared * random.normal(size=(400, 1, 1)))
    told = figure(Study(4, parts), susceptibility)
    assert told.over_seeds.error[0] == pytest.approx(math.sqrt((own ** 2 / 64 + shared ** 2) / 400), rel=normal_bound() / math.sqrt(800))
    assert told.over_samples[0] == pytest.approx(math.sqrt((own ** 2 + shared ** 2) / 25600),
                                                 rel=normal_bound() * math.sqrt(0.2 ** 2 * 2 / 400 + 0.8 ** 2 * 2 / 25600) / 2)


def test_the_slope_of_a_ratio_is_that_between_two_temperatures():
    """Levels of an overlap q and an energy with Boltzmann's weights: the derivative of U4 by differences."""
    energies, overlaps = np.array([-40.0, -32, -20, 0, 8]), np.array([64.0, 40, 30, 12, 0])

    def means(beta):
        weights = np.exp(-beta * energies) * [1, 6, 20, 50, 30]
        weights /= weights.sum()
        q2, q4 = overlaps ** 2, overlaps ** 4
        found = means_of(4, E=weights @ energies, q2=weights @ q2, q4=weights @ q4,
                         Eq2=weights @ (energies * q2), Eq4=weights @ (energies * q4))
        found.values[0, -2:] = (weights @ energies) * np.array([weights @ q2, weights @ q4])
        return found

    by_differences = (u_4(means(0.05 + 1e-6)) - u_4(means(0.05 - 1e-6))) / 2e-6
    assert slope_of_u_4(means(0.05)) == pytest.approx(by_differences, rel=1e-6)


def test_a_drift_shows_in_the_last_bins(tmp_path):
    """Bins 7, 8 and 9 of fields whose bias decays, and of ones in which nothing changes: of 16 seeds."""
    for decay, is_equilibrated in ((0.0, True), (0.05, False)):
        texts = []
        for seed in range(16):
            random, lines = np.random.default_rng(seed), {}
            for k in (7, 8, 9):
                bias = 0.1 + decay * (10 - k)
                fields = np.where(random.random((2, 60, 4, 4, 4)) < 0.5 + bias / 2, 1, -1)
                # Each bin is read as a text of its own, which has it as bin 10.
                part = read(tmp_path, text_with(4, fields, seed))
                lines.update({(sample, slot, k): own for (sample, slot, _), own in part.lines.items()})
            texts.append(part._replace(bins=(7, 8, 9), lines=lines))
        steps = [one.step for one in by_bins(texts, susceptibility)]
        assert steps[-1] is None
        in_errors = [float(abs(step.value[0] / step.error[0])) for step in steps[:-1]]
        assert (max(in_errors) < student_bound(15, 2)) == is_equilibrated
