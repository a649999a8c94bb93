"""Texts of sums over runs, of overlap fields."""
import numpy as np
from reference.measured import class_of

from measured_text import CLASSES, read_measured


def read(folder, text, name="text"):
    (folder / name).write_text(text)
    return read_measured(str(folder / name))


def field_lines(side, fields):
    """What whole overlap fields, by epoch, add to the sums of a bin but for energies, site by site."""
    x, y, z = np.meshgrid(*[np.arange(side)] * 3, indexing="ij")
    families = [[x, y, z], [x + y, x - y, x + z, x - z, y + z, y - z]]
    total, links = fields.sum(axis=(1, 2, 3)), sum((fields * np.roll(fields, -1, axis)).sum(axis=(1, 2, 3)) for axis in (1, 2, 3))
    lines = []
    for of_family in families:
        found = np.zeros(side // 2 + 1, np.int64)
        for planes in of_family:
            planes = planes.reshape(-1) % side
            sums = np.stack([np.bincount(planes, field.reshape(-1), side) for field in fields]).astype(np.int64)
            found += [(sums * np.roll(sums, -r, axis=1)).sum() for r in range(side // 2 + 1)]
        lines.append(tuple(map(int, found)))
    return total, links, lines


def text_with(side, by_sample, digest, energies=None, samples=None):
    """A text of one slot and one bin, epochs 2^9 to 2^10, of overlap fields by sample and epoch and energies of both replicas."""
    count = len(by_sample[0])
    first = 2 ** 9
    assert count <= first
    lines = [f"measure 1 size={side} slots=1 samples={len(by_sample)} rule=heat every=1 from={first} to={first + count} "
             f"digest={digest:064x}\n"]
    for sample, fields in enumerate(by_sample):
        total, links, (axis, face) = field_lines(side, fields)
        own = np.zeros((count, 2), np.int64) if energies is None else energies[sample]
        both, q = own.sum(axis=1), [int(value) for value in total]
        sums = [count, both.sum(), (own ** 2).sum(), own.prod(axis=1).sum(), links.sum(), (links ** 2).sum(), sum(q), sum(map(abs, q)),
                sum(v ** 2 for v in q), sum(v ** 4 for v in q), sum(int(e) * v ** 2 for e, v in zip(both, q)),
                sum(int(e) * v ** 4 for e, v in zip(both, q))]
        classes = [0] * CLASSES
        for value in q:
            classes[class_of(side, value)] += 1
        for kind, numbers in zip(("sum", "hist", "axis", "face"), (sums, classes, axis, face)):
            lines.append(",".join([kind, str(sample), "0", "10", *map(str, map(int, numbers))]) + "\n")
    return "".join([*lines, f"end,{first + count}\n"])
