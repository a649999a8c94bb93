"""The arrays of reports for other programs."""
from __future__ import annotations

import io
import os
from pathlib import Path
from typing import Mapping, Optional, Sequence, Union

import numpy as np

from make_tables import Refusal

from .reports import Records

HEAD = "epoch,sample,slot,energy_0,energy_1,overlap,label_0,label_1"
# Epochs of comma-separated rows that are put together at a time.
TOGETHER = 256
NO_HDF5 = "HDF5 wants h5py: sudo apt-get install python3-h5py"
Attributes = Mapping[str, Union[int, str, bool]]


def write_npz(name: str, records: Records) -> None:
    """Arrays `epochs`, `energies`, `overlaps`, `labels`, and the numbers of the header, for numpy.load."""
    # An archive whose file fails tries once more as it goes, and Python would tell that too.
    arrays = io.BytesIO()
    np.savez_compressed(arrays, size=records.size, rule=records.rule, first=records.first, until=records.until,
                        epochs=records.epochs, energies=records.energies, overlaps=records.overlaps, labels=records.labels)
    try:
        Path(name).write_bytes(arrays.getbuffer())
    except OSError as fault:
        raise Refusal(f"{name} can't be written: {fault.strerror}") from None


def write_csv(name: str, records: Records) -> None:
    """A line of names, then the rows as they stand in the report."""
    try:
        with open(name, "w", encoding="ascii", newline="\n") as out:
            out.write(HEAD + "\n")
            for start in range(0, len(records.epochs), TOGETHER):
                np.savetxt(out, rows(records.part(start, start + TOGETHER)), "%d", ",")
    except OSError as fault:
        raise Refusal(f"{name} can't be written: {fault.strerror}") from None


def rows(records: Records) -> np.ndarray:
    """The eight numbers of each row."""
    places = np.meshgrid(records.epochs, np.arange(records.samples), np.arange(records.slots), indexing="ij")
    table = np.concatenate([np.stack(places, axis=-1), records.energies, records.overlaps[..., None], records.labels], axis=-1)
    return table.reshape(-1, 8)


class Hdf5File:
    """Several reports in one HDF5 file, a group each: `report_0`, `report_1` and so on.

    A group has the compressed arrays of `write_npz`, and as attributes the report's name, the numbers of its header and
    what is told of its run. The file has its name once it is whole.
    """

    def __init__(self, name: str) -> None:
        try:
            import h5py
        except ImportError:
            raise Refusal(NO_HDF5) from None
        self.name, self.count = name, 0
        self.unfinished = f"{name}.part"
        try:
            self.file = h5py.File(self.unfinished, "w")
        except OSError as fault:
            raise Refusal(f"{name} can't be written: {fault.strerror or fault}") from None

    def add(self, records: Records, attributes: Optional[Attributes] = None) -> None:
        group = self.file.create_group(f"report_{self.count}")
        self.count += 1
        for array in ("epochs", "energies", "overlaps", "labels"):
            values = getattr(records, array)
            group.create_dataset(array, data=values, compression="gzip" if values.size else None)
        told = {"report": records.name, "size": records.size, "rule": records.rule, "first": records.first, "until": records.until}
        for key, value in {**told, **(attributes or {})}.items():
            group.attrs[key] = value

    def close(self) -> None:
        self.file.close()
        os.replace(self.unfinished, self.name)

    def drop(self) -> None:
        """Takes away what isn't whole."""
        self.file.close()
        Path(self.unfinished).unlink()


def write_hdf5(name: str, reports: Sequence[Records], attributes: Optional[Sequence[Attributes]] = None) -> None:
    """Reports that are held, with attributes of each."""
    file = Hdf5File(name)
    for number, records in enumerate(reports):
        file.add(records, attributes[number] if attributes else None)
    file.close()
