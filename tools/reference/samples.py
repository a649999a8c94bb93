"""Rows of single samples of a run, by the program on a grid: what tests/cases holds digests of."""
from functools import lru_cache
from hashlib import sha256

from reference.demo import demo_rows
from reference.grid import Tempering

# The tables of three slots of both rules.
HEAT = ((214748364, 429496729, 1073741824, 2147483648, 3221225472, 3865470566, 4080218931),
        (644245094, 1073741824, 1610612736, 2147483648, 2684354560, 3221225472, 3650722201),
        (1288490188, 1503238553, 1825361100, 2147483648, 2469606195, 2791728742, 3006477107))
METROPOLIS = tuple(demo_rows(3)[0])
SWAPS = ((3149642683, 2309737966, 1693807841), (3435973836, 2748779069))


def glass_sample(size, kind, sweeps, seed, sample):
    """A sample of three slots with random couplings, from a random start."""
    rows = HEAT if kind == "heat" else METROPOLIS
    return Tempering(size, kind, rows, SWAPS, sweeps, seed, sample, "random", sample % 64, sample // 64)


def row_lines(epoch, sample, records):
    return "".join(f"row,{epoch},{sample},{t}," + ",".join(map(str, it)) + "\n" for t, it in enumerate(records))


def rows_of(own, samples, epochs, every):
    """The rows of samples on the grid, in the order of a report, which are run to an epoch."""
    text = ""
    for epoch in range(epochs):
        found = [it.step() for it in own]
        if (epoch + 1) % every == 0:
            text += "".join(row_lines(epoch, sample, records) for sample, records in zip(samples, found))
    return text


def digest_of_rows(own, samples, epochs, every):
    return sha256(rows_of(own, samples, epochs, every).encode()).hexdigest()


class Tempered:
    """64 samples of a bank on the grid, run one after the other: their rows by epoch, and their states at some epochs."""

    def __init__(self, samples, epochs, every, stops):
        self.rows, self.states = {}, {stop: [] for stop in stops}
        for own in samples:
            for epoch in range(epochs):
                records = own.step()
                if (epoch + 1) % every == 0:
                    self.rows[epoch] = self.rows.get(epoch, "") + row_lines(epoch, own.b, records)
                if epoch + 1 in self.states:
                    self.states[epoch + 1].append(own.state())


@lru_cache(maxsize=None)
def sixteen_temperatures():
    """The run of examples/glass_8: size 8, random couplings and start, two sweeps an epoch; some minutes."""
    rows, swaps = demo_rows(16)
    samples = (Tempering(8, "metropolis", rows, swaps, 2, 20240611, b, "random", b) for b in range(64))
    return Tempered(samples, 20, 10, (10, 20))
