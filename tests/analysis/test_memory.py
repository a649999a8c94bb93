"""How much memory the tools take for reports of a million rows, one after the other."""
import subprocess
import sys
from pathlib import Path

import pytest

TOOLS = Path(__file__).resolve().parent.parent.parent / "tools"
SAMPLES, SLOTS, EPOCHS = 64, 16, 1000
MOST = 300 * 10 ** 6
# A small process starts the tool and tells its status and its greatest resident size, in kilobytes: a child of this one
# would begin with the size of this one.
STARTED = """import resource, subprocess, sys
status = subprocess.call(sys.argv[1:], stdout=subprocess.DEVNULL)
print(status, resource.getrusage(resource.RUSAGE_CHILDREN).ru_maxrss)"""


def write_report(name, seed):
    """A report of 1024000 rows, in which seven epochs come again and again."""
    kinds = ["".join(f"row,#,{sample},{slot},{4 * ((seed + kind + sample) % 90 - 300)},{4 * (kind * slot + sample) % 360 - 1200},"
                     f"{2 * ((sample + slot * kind) % 50)},{slot},{slot}\n" for sample in range(SAMPLES) for slot in range(SLOTS))
             for kind in range(7)]
    with open(name, "w", encoding="ascii") as out:
        out.write(f"glass 1 size=8 slots={SLOTS} samples={SAMPLES} rule=heat from=0 to={EPOCHS}\n")
        for epoch in range(EPOCHS):
            out.write(kinds[epoch % 7].replace("#", str(epoch)))
        out.write(f"end,{EPOCHS}\n")


@pytest.fixture(scope="module")
def reports(tmp_path_factory):
    folder = tmp_path_factory.mktemp("long")
    for seed in (1, 2):
        write_report(folder / f"{seed}.txt", seed)
    return folder


@pytest.mark.parametrize("words", [["analyse.py", "1.txt", "2.txt"], ["jackknife.py", "1.txt", "2.txt"],
                                   ["estimate.py", "export", "1.txt", "--npz", "x.npz"], ["estimate.py", "export", "1.txt", "--csv", "x.csv"],
                                   ["estimate.py", "export", "1.txt", "2.txt", "--hdf5", "x.h5"]], ids=lambda words: " ".join(words[:2]) + words[-1][-4:])
def test_reports_of_a_million_rows_take_300_megabytes_at_most(reports, words):
    if "--hdf5" in words:
        pytest.importorskip("h5py")
    ran = subprocess.run([sys.executable, "-c", STARTED, sys.executable, str(TOOLS / words[0]), *words[1:]], cwd=reports,
                         stdout=subprocess.PIPE, universal_newlines=True, check=True)
    status, kilobytes = map(int, ran.stdout.split())
    assert status == 0 and 1024 * kilobytes <= MOST
