"""The commands of tools/estimate.py on studies whose answer is known."""
import csv
import math
import re
import tracemalloc

import numpy as np
import pytest
from chances import student_bound
from long_run_folder import digest_of
from make_tables import outcome
from test_estimates import chain, known_share, records_with, steady_rises
from test_walk_times import walks
from written import text_of_records, write_run

import estimate
import manifest
from glass_analysis import jackknife, of_each_report, read_report
from glass_analysis.walks import downward_counts, downward_share


def call(*words):
    return outcome(list(map(str, words)), estimate.main)


def sparse(records):
    """The same as each second epoch of a run: walks that jump farther than one exchange are none of successive epochs."""
    count = len(records.epochs)
    return records_with(labels=records.labels, epochs=np.arange(1, 2 * count, 2))


def test_times_tell_three_hard_samples_of_24(tmp_path):
    hard, true = ["9", "13", "20"], np.full(24, 6.0)
    true[[9, 13, 20]] = 1e4
    (tmp_path / "r.txt").write_text(text_of_records(sparse(walks(true, 500, 8))))
    status, out, err = call("times", tmp_path / "r.txt", "--worst", 6, "--shorter", tmp_path / "short.csv")
    assert (status, err) == (0, "") and "not settled (+): for 3 of 24 samples" in out
    lines = out.splitlines()
    slowest = [line.split() for line in lines[lines.index("the slowest") + 2:][:6]]
    assert sorted({line[0] for line in slowest}) == sorted(hard) and all(line[5].endswith("+") for line in slowest)
    with open(tmp_path / "short.csv", encoding="utf-8") as stream:
        rows = list(csv.DictReader(stream))
    assert len(rows) == 6 and {row["sample"] for row in rows} == set(hard)
    assert all(row["epochs"] == "1000" and float(row["wanted"]) > 1000 for row in rows)
    assert {row["report"] for row in rows} == {str(tmp_path / "r.txt")}


def test_times_of_samples_that_are_all_settled(tmp_path):
    (tmp_path / "r.txt").write_text(text_of_records(sparse(walks([6] * 4, 1000, 9))))
    assert "settled: for each of 4 samples" in call("times", tmp_path / "r.txt")[1]


def test_one_temperature_has_no_walk_and_each_sample_its_series(tmp_path):
    name = report_of_bonds(tmp_path, 3, [0.25])
    out = call("times", name)[1]
    assert "one temperature has no walk" in out and out.splitlines()[-1].split()[3] == "4/4"


def placed_by_hand(temperatures, share):
    """Equal steps along the sum of the roots of what the share rises by."""
    along = np.concatenate([[0], np.cumsum(np.sqrt(np.diff(share)))])
    return np.interp(np.linspace(0, along[-1], len(temperatures)), along, temperatures)


def test_feedback_of_a_slow_pair(tmp_path):
    """Pair 1 trades a tenth as often, so the temperatures move to it."""
    chances, temperatures, epochs = np.array([0.5, 0.05, 0.5, 0.5]), np.array([1, 1.2, 1.5, 1.9, 2.4]), 2000
    records = chain(chances, epochs, 3, 32)
    energies = np.broadcast_to(4 * np.array([-30, -25, -20, -15, -10])[:, None], (*records.labels.shape[:3], 2))
    (tmp_path / "r.txt").write_text(text_of_records(records_with(labels=records.labels, energies=energies)))
    status, out, err = call("walks", tmp_path / "r.txt", "--run", write_run(tmp_path, temperatures, samples=32), "--feedback")
    assert (status, err) == (0, "") and "warning" not in out
    placed = [float(text) for text in re.search("optimised by feedback: (.*)", out)[1].split()]
    wanted = placed_by_hand(temperatures, known_share(chances, epochs))
    # In the steady state the rises are 1.5, 19, 1 and 1.5: their roots add up to 7.808, four steps of 1.952.
    assert steady_rises(chances) == pytest.approx([1.5, 19, 1, 1.5])
    assert wanted == pytest.approx([1, 1.2 + 0.3 * (1.952 - 1.225) / 4.359, 1.2 + 0.3 * (3.904 - 1.225) / 4.359,
                                    1.5 + 0.4 * (5.856 - 5.584), 2.4], abs=2e-3)
    error = jackknife(downward_counts(records).astype(float), lambda counts: placed_by_hand(temperatures, downward_share(counts))).error
    assert (abs(placed - wanted)[1:-1] < student_bound(31, 3) * error[1:-1]).all() and (error < 0.02).all()
    assert placed[0] == 1 and placed[-1] == 2.4 and "of even acceptance: 1 " in out


def test_round_trips_of_sparse_records_are_told_as_too_few(tmp_path):
    records = chain(np.full(3, 0.5), 400, 4)
    every_second = records_with(labels=records.labels[1::2], epochs=np.arange(1, 400, 2))
    (tmp_path / "r.txt").write_text(text_of_records(every_second))
    assert "warning: not each epoch is recorded" in call("walks", tmp_path / "r.txt")[1]


def report_of_bonds(folder, seed, betas):
    """Independent bonds, whose unsatisfied ones are even in number: E = 4 n - 192 of so many pairs of equal bonds."""
    random = np.random.default_rng(seed)
    pairs = random.binomial(48, 1 / (1 + np.exp(8 * np.array(betas)[:, None])), (300, 4, len(betas), 2))
    labels = np.broadcast_to(np.arange(len(betas))[:, None], pairs.shape)
    records = records_with(energies=8 * pairs - 192, labels=labels, overlaps=2 * (pairs[..., 0] % 2))
    (folder / f"{seed}.txt").write_text(text_of_records(records))
    return folder / f"{seed}.txt"


def test_reweighted_energies_and_those_out_of_reach(tmp_path):
    temperatures = [4.0, 4.6, 5.4]
    run = write_run(tmp_path, temperatures)
    given = [report_of_bonds(tmp_path, seed, [1 / t for t in temperatures]) for seed in range(20)]
    status, out, err = call("reweight", *given, "--run", run, "--at", "4.3", "5")
    assert (status, err) == (0, "") and "errors are over 20 blocks, and are themselves uncertain by 16%\n" in out
    for line, temperature in zip(out.splitlines()[2:4], (4.3, 5)):
        value, error = map(float, line.split()[1:3])
        assert abs(value + 3 * math.tanh(4 / temperature)) < student_bound(19, 2) * error < 0.03
    status, out, err = call("reweight", *given[:2], "--run", run, "--at", "4.3", "--from-slot", "0")
    assert status == 0 and "take 16 or more" in out
    status, out, err = call("reweight", *given, "--run", run, "--at", "2")
    assert (status, out) == (2, "") and "don't reach inverse temperature 0.5" in err


def test_a_run_from_above_and_one_from_below(tmp_path):
    random, shape = np.random.default_rng(10), (256, 16, 1)
    for name, sign in (("up", 1), ("random", -1)):
        mean = 24 + sign * 16 * np.exp(-np.arange(256) / 8).reshape(-1, 1, 1)
        overlaps = 2 * np.rint(mean / 2 + random.normal(0, 2, shape)).astype(np.int64)
        overlaps[:, 11] += 8 * sign
        labels = np.zeros((*shape, 2), np.int64)
        (tmp_path / f"{name}.txt").write_text(text_of_records(records_with(overlaps=overlaps, labels=labels)))
    status, out, err = call("bracket", tmp_path / "up.txt", "--random", tmp_path / "random.txt", "--plot", tmp_path / "x.png")
    assert (status, err) == (0, "") and "wrote " in out
    first, last = (line.split() for line in (out.splitlines()[3], out.splitlines()[9]))
    assert float(first[-1]) > 10 and abs(float(last[-1])) < student_bound(15) and last[1] == "256"
    assert re.search(r"q\^2: \S+up.txt sample 11 \(\+", out)


def test_the_worst_samples_stand_below_the_parts(tmp_path):
    random = np.random.default_rng(11)
    energies = 4 * np.rint(random.normal(-20, 4, (512, 16, 1, 2))).astype(np.int64)
    energies[:256, 5] += 12
    (tmp_path / "r.txt").write_text(text_of_records(records_with(energies=energies, labels=np.zeros(energies.shape, int))))
    out = call("equilibration", tmp_path / "r.txt", "--worst", 1)[1]
    assert re.search(r"of 16 samples the farthest is by chance beyond 2\.\d in one study of two\n"
                     r"  slot 0, energy: \S+ sample 5 \(-", out)


def test_samples_each_by_itself(tmp_path):
    overlaps = np.full((64, 2, 1), 48)
    overlaps[:16, 1] = 10
    (tmp_path / "r.txt").write_text(text_of_records(records_with(overlaps=overlaps, labels=np.zeros((64, 2, 1, 2), int))))
    status, out, _ = call("overlaps", tmp_path / "r.txt", "--below", 0.5, "--each", tmp_path / "each.csv", "--bins", 5)
    assert status == 0 and "P(|q| < 0.5) at slot 0: 0.125000 0.125000" in out
    with open(tmp_path / "each.csv", encoding="utf-8") as stream:
        rows = list(csv.DictReader(stream))
    assert [float(row["below_0.5"]) for row in rows] == [0, 0.25] and [row["sample"] for row in rows] == ["0", "1"]
    # Of five bins of 13 values each, 48 / 64 is in the last: half of it on each side, over 13 steps of 1 / 32.
    assert float(rows[0]["P(0.81250)"]) == float(rows[0]["P(-0.81250)"]) == pytest.approx(0.5 / (13 / 32), abs=1e-6)


def write_manifests(reports, run):
    """As tools/manifest.py does, with a plan of zeros; the seeds are 1, 2 and so on."""
    for seed, report in enumerate(reports, 1):
        made = manifest.of_run_file(run, "0" * 64, digest_of(report))
        manifest.write_manifest(report, made._replace(keys={**made.keys, "seed": seed}))


def test_temperatures_of_another_table_are_refused(tmp_path):
    given, run = [report_of_bonds(tmp_path, seed, [0.25, 0.2]) for seed in (1, 2)], write_run(tmp_path, [4, 5])
    write_manifests(given, run)
    assert call("means", *given, "--run", run)[0] == 0
    write_run(tmp_path, [4, 5.1])
    status, _, err = call("means", *given, "--run", run)
    assert status == 2 and "another rule table" in err


@pytest.mark.parametrize("what, old, new", [("rules", 'rules = "', 'rules = "f'), ("swaps", 'swaps = "', 'swaps = "f'), ("sweeps", "sweeps = 1", "sweeps = 2"),
                                            ("rule", '"heat"', '"metropolis"'), ("start", 'start = "random"', 'start = "up"'),
                                            ("couplings", 'couplings = "random"', 'couplings = "plus"'), ("seed", "seed = 2", "seed = 1"),
                                            ("has no manifest", "", "")])
def test_each_command_refuses_a_mix_of_reports(tmp_path, what, old, new):
    given = [report_of_bonds(tmp_path, seed, [0.25, 0.2]) for seed in (1, 2)]
    write_manifests(given, write_run(tmp_path, [4, 5]))
    second = manifest.file_of(given[1])
    text = second.read_text()
    if what in manifest.TABLES:
        # The digest, which is the last line of that key; one of 64 digits begins with an f more and lacks its end.
        head, tail = text.rsplit(old, 1)
        second.write_text(f"{head}{new}{tail[:63]}{tail[64:]}")
    elif old:
        second.write_text(text.replace(old, new))
    else:
        second.unlink()
    for command, *words in (["means"], ["reweight", "--at", "4.5", "--run", tmp_path / "run.toml"], ["overlaps"], ["equilibration"],
                            ["bracket", "--random", *given], ["times"], ["walks"], ["export", "--hdf5", tmp_path / "x.h5"]):
        manifest.study_of.cache_clear()
        status, out, err = call(command, *given, *words)
        assert (status, out, err.count("\n"), what in err) == (2, "", 1, True), command


@pytest.mark.parametrize("other, told", [({"rule": "metropolis"}, "rule is heat there, and metropolis"), ({"size": 6}, "size is 4 there, and 6"),
                                         ({"samples": 5}, "samples is 4 there, and 5")])
def test_temperatures_of_another_run_are_refused_without_a_manifest(tmp_path, other, told):
    given = report_of_bonds(tmp_path, 1, [0.25, 0.2])
    for command, *words in (["means"], ["reweight", "--at", "4.5"], ["equilibration"]):
        assert call(command, given, "--run", write_run(tmp_path, [4, 5]), *words)[0] == 0
        status, out, err = call(command, given, "--run", write_run(tmp_path, [4, 5], **other), *words)
        assert (status, out) == (2, "") and told in err


def test_several_reports_in_one_file(tmp_path):
    h5py = pytest.importorskip("h5py")
    given = [report_of_bonds(tmp_path, seed, [0.25, 0.2]) for seed in (1, 2)]
    status, out, err = call("export", *given, "--hdf5", tmp_path / "study.h5")
    assert (status, err, out) == (0, "", f"wrote {tmp_path}/study.h5: 2 reports\n")
    with h5py.File(tmp_path / "study.h5") as file:
        assert sorted(file) == ["report_0", "report_1"] and file["report_1"].attrs["size"] == 4
        for group, name in zip(file.values(), given):
            records = read_report(str(name))
            assert group.attrs["report"] == str(name) and group.attrs["rule"] == "heat"
            for array in ("epochs", "energies", "overlaps", "labels"):
                assert np.array_equal(group[array], getattr(records, array))
    status, _, err = call("export", given[0], given[0], "--hdf5", tmp_path / "none.h5")
    assert status == 2 and "the same rows" in err and not list(tmp_path.glob("none*"))
    write_manifests(given, write_run(tmp_path, [4, 5]))
    assert call("export", *given, "--hdf5", tmp_path / "told.h5")[0] == 0
    with h5py.File(tmp_path / "told.h5") as file:
        told = file["report_1"].attrs
        assert (told["seed"], told["start"], told["plan"]) == (2, "random", "0" * 64) and told["report_sha256"] == digest_of(given[1])


def test_reports_take_the_room_of_their_numbers_and_one_at_a_time(tmp_path):
    """Forty bytes a row, twice as they are put together, and some pieces of text: a million rows in a hundred megabytes."""
    names = []
    for seed in range(3):
        energies = 4 * np.random.default_rng(seed).integers(-9, 9, (300, 64, 4, 2))
        labels = np.broadcast_to(np.arange(4)[:, None], energies.shape)
        names.append(str(tmp_path / f"{seed}.txt"))
        (tmp_path / f"{seed}.txt").write_text(text_of_records(records_with(energies=energies, labels=labels)))
    tracemalloc.start()
    counts = of_each_report(names, lambda records: len(records.epochs))
    peak = tracemalloc.get_traced_memory()[1]
    tracemalloc.stop()
    assert counts == [300] * 3 and peak < 120 * 300 * 64 * 4 + 2 ** 24
