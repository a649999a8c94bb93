"""Texts of four copies, of their spins."""
from itertools import combinations

import numpy as np

from cross_text import read_crossed


def read(folder, text, name="copies"):
    (folder / name).write_text(text)
    return read_crossed(str(folder / name))


def correlations(side, fields, families):
    """Of each field, by distance: the sums over families of planes of products of two planes' sums."""
    found = np.zeros((len(fields), side // 2 + 1), np.int64)
    for planes in families:
        sums = fields.reshape(len(fields), -1) @ np.eye(side, dtype=np.int64)[planes.reshape(-1) % side]
        found += np.stack([(sums * np.roll(sums, -r, axis=1)).sum(axis=1) for r in range(side // 2 + 1)], axis=-1)
    return found


def text_of_copies(spins, seeds=(7, 8), epochs=(1, 0)):
    """The text of one slot, of +1 and -1 by sample, copy and site."""
    side = spins.shape[-1]
    x, y, z = np.meshgrid(*[np.arange(side)] * 3, indexing="ij")
    families = {"axis": (x, y, z), "face": (x + y, x - y, x + z, x - z, y + z, y - z)}
    of_pairs = []
    for pair in combinations(range(4), 2):
        q = (spins[:, pair[0]] * spins[:, pair[1]]).astype(np.int64)
        links = sum((q * np.roll(q, -1, axis)).sum(axis=(1, 2, 3)) for axis in (1, 2, 3))
        of_pairs.append((pair, {"pair": np.stack([q.sum(axis=(1, 2, 3)), links], axis=-1),
                                **{kind: correlations(side, q, own) for kind, own in families.items()}}))
    lines = [f"cross 1 size={side} slots=1 samples={len(spins)} rule=heat seeds={seeds[0]},{seeds[1]} epochs={epochs[0]},{epochs[1]}"]
    for sample in range(len(spins)):
        lines += [f"{kind},{sample},0,{one},{other},{','.join(map(str, numbers[sample]))}"
                  for (one, other), found in of_pairs for kind, numbers in found.items()]
    return "\n".join([*lines, "end\n"])
