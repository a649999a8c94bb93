"""Texts of reports from arrays, and the files of a run."""
import io

import numpy as np
from make_tables import main as make_tables
from make_tables import outcome


def text_of_records(records):
    """The lines of a report; its energies are taken to be lawful."""
    table = np.concatenate([np.stack(np.meshgrid(records.epochs, np.arange(records.samples), np.arange(records.slots),
                                                 indexing="ij"), axis=-1),
                            records.energies, records.overlaps[..., None], records.labels], axis=-1).reshape(-1, 8)
    out = io.StringIO()
    out.write(f"glass 1 size={records.size} slots={records.slots} samples={records.samples} rule={records.rule} "
              f"from={records.first} to={records.until}\n")
    np.savetxt(out, table, "row,%d,%d,%d,%d,%d,%d,%d,%d")
    return out.getvalue() + f"end,{records.until}\n"


def write_run(folder, temperatures, rule="heat", size=4, samples=4):
    """A run file of these temperatures and its tables."""
    tables = ["--rules", str(folder / "rules.csv"), "--swaps", str(folder / "swaps.csv")]
    assert outcome([rule, "--temperatures", *map(str, temperatures), *tables], make_tables)[0] == 0
    texts = {"rule": rule, "rules": "rules.csv", "swaps": "swaps.csv", "couplings": "random", "start": "random"}
    numbers = {"size": size, "sweeps": 1, "seed": 1, "samples": samples, "epochs": 1, "every": 1}
    run = folder / "run.toml"
    run.write_text("".join(f'{key} = "{value}"\n' for key, value in texts.items())
                   + "".join(f"{key} = {value}\n" for key, value in numbers.items()) + "spins = false\n")
    return run
