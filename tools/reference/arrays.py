"""A program of its own for the same rules, for all disorder samples, slots and replicas at once: arrays of numpy, which
it needs alone of all modules here. Its random numbers are those of the program, or of a second generator:

    Registers   the shift registers of the program, with its labels: the records are those of `grid`
    Philox      4 x 32 with 10 rounds (J. K. Salmon et al., Proc. SC11, article 16 (2011)), each sample with numbers of
                its own

so that it tells what the printed energies owe to the generator, and to numbers that samples share.
Axes of states and numbers: site, temperature slot, replica, sample. A number is of 32 bits."""
from __future__ import annotations

from pathlib import Path
from typing import Dict, List, NamedTuple, Sequence, Tuple

import numpy as np
from numpy.typing import NDArray

import couplings as couplings_files
from long_run_folder import read_keys
from reference.grid import Register, labelled

Integers = NDArray[np.int64]


class Shape(NamedTuple):
    samples: int
    slots: int
    size: int


class Registers:
    """The program's numbers of one bank of samples, which share those of the sweeps."""

    def __init__(self, seed: int) -> None:
        self.seed = seed
        self.made: Dict[Tuple[int, ...], Register] = {}

    def take(self, count: int, *label: int) -> List[int]:
        register = self.made.setdefault(label, labelled(self.seed, *label))
        return [register.number() for _ in range(count)]

    def sweep(self, shape: Shape, colour: int) -> Integers:
        """The numbers of the sites of a colour, in order of site."""
        size = shape.size
        numbers = np.array([[[self.take(size * size // 2, 1, t, 2 * c + colour, z) for z in range(size)] for c in range(2)]
                            for t in range(shape.slots)])
        return np.moveaxis(numbers.reshape(shape.slots, 2, -1), 2, 0)[..., None]

    def exchange(self, shape: Shape, pair: int) -> Integers:
        """A number of each replica and sample."""
        return np.array([self.take(64, 2, pair, c, 0) for c in range(2)])[:, :shape.samples]

    def start(self, shape: Shape) -> Integers:
        """Whether a spin is up."""
        words = np.array([[self.take(2 * shape.size ** 3, 4, t, c, 0) for c in range(2)] for t in range(shape.slots)])
        both = np.moveaxis(words[..., 0::2] + (words[..., 1::2] << 32), 2, 0)
        return np.stack([both >> sample & 1 for sample in range(shape.samples)], axis=-1)


class Philox:
    """Numbers of a second generator, none of which two samples share."""

    def __init__(self, seed: int) -> None:
        self.numbers = np.random.Generator(np.random.Philox(seed))

    def sweep(self, shape: Shape, colour: int) -> Integers:
        return self.numbers.integers(0, 2 ** 32, (shape.size ** 3 // 2, shape.slots, 2, shape.samples), np.uint32)

    def exchange(self, shape: Shape, pair: int) -> Integers:
        return self.numbers.integers(0, 2 ** 32, (2, shape.samples), np.uint32)

    def start(self, shape: Shape) -> Integers:
        return self.numbers.integers(0, 2, (shape.size ** 3, shape.slots, 2, shape.samples), np.int8)


class Lattice:
    """By site: its six neighbours, those ahead first, and J of the bonds to them by neighbour and sample; and the sites
    of each colour."""

    def __init__(self, size: int, negative: Sequence[bytes]) -> None:
        site = np.arange(size ** 3).reshape(size, size, size)
        ahead = [np.roll(site, -1, 2 - d).ravel() for d in range(3)]
        behind = [np.roll(site, 1, 2 - d).ravel() for d in range(3)]
        self.size, self.samples, self.neighbours = size, len(negative), np.stack(ahead + behind, axis=-1)
        z, y, x = np.indices((size, size, size))
        self.of_colour = [np.flatnonzero((x + y + z).ravel() % 2 == colour) for colour in range(2)]
        bits = np.stack([np.frombuffer(sample, np.uint8) for sample in negative], axis=-1).reshape(size ** 3, 3, -1)
        bonds = 1 - 2 * bits.astype(np.int8)
        self.couplings = np.concatenate([bonds] + [bonds[behind[d], d][:, None] for d in range(3)], axis=1)

    def fields(self, spins: Integers, sites: Integers, directions: int) -> Integers:
        """The sum of J s over the first neighbours of some sites."""
        total = np.zeros((len(sites), *spins.shape[1:]), np.int8)
        for n in range(directions):
            total += self.couplings[sites, n][:, None, None] * spins[self.neighbours[sites, n]]
        return total


class Tempering:
    """All samples at all temperatures, from random spins."""

    def __init__(self, lattice: Lattice, rule: str, rows: Integers, swaps: Sequence[Integers], sweeps: int,
                 numbers: "Registers | Philox") -> None:
        self.lattice, self.rule, self.rows, self.swaps, self.sweeps, self.numbers = lattice, rule, rows, swaps, sweeps, numbers
        self.shape, self.epoch = Shape(lattice.samples, len(rows), lattice.size), 0
        self.spins = (2 * numbers.start(self.shape) - 1).astype(np.int8)

    def sweep(self) -> None:
        first = np.arange(self.shape.slots)[:, None, None] * self.rows.shape[1]
        for colour, sites in enumerate(self.lattice.of_colour):
            local, own = self.lattice.fields(self.spins, sites, 6), self.spins[sites]
            numbers = self.numbers.sweep(self.shape, colour)
            if self.rule == "heat":
                self.spins[sites] = np.where(numbers < np.take(self.rows, (local + 6) // 2 + first), 1, -1)
            else:
                satisfied = (local * own + 6) // 2
                flipped = (satisfied < 4) | (numbers < np.take(self.rows, np.maximum(satisfied, 4) - 4 + first))
                self.spins[sites] = np.where(flipped, -own, own)

    def energies(self) -> Integers:
        """By slot, replica and sample, in units of the coupling."""
        fields = self.lattice.fields(self.spins, np.arange(self.shape.size ** 3), 3)
        return -(fields * self.spins).sum(axis=0, dtype=np.int64)

    def exchange(self, energies: Integers) -> None:
        for pair in range(self.epoch % 2, self.shape.slots - 1, 2):
            numbers, entries = self.numbers.exchange(self.shape, pair), self.swaps[pair]
            # By so many unsatisfied bonds the hotter slot has more; entry j is for 2 (j + 1) of them.
            gap = (energies[pair + 1] - energies[pair]) // 2
            entry = np.where(gap > 0, (gap - 1) // 2, 0)
            limit = np.where(entry < len(entries), entries[np.minimum(entry, len(entries) - 1)], 0)
            swapped = (gap <= 0) | (numbers < limit)
            cold, hot = self.spins[:, pair].copy(), self.spins[:, pair + 1].copy()
            self.spins[:, pair] = np.where(swapped, hot, cold)
            self.spins[:, pair + 1] = np.where(swapped, cold, hot)

    def step(self) -> Tuple[Integers, Integers]:
        """An epoch: energies by sample, slot and replica, and overlaps, between its sweeps and its exchanges."""
        for _ in range(self.sweeps):
            self.sweep()
        energies = self.energies()
        overlaps = (self.spins[:, :, 0] * self.spins[:, :, 1]).sum(axis=0, dtype=np.int64)
        self.exchange(energies)
        self.epoch += 1
        return energies.transpose(2, 0, 1), overlaps.T

    def records(self, epochs: int, every: int) -> Tuple[Integers, Integers]:
        """Energies by epoch, sample, slot and replica, overlaps by epoch, sample and slot, of each `every`-th epoch."""
        kept = [taken for taken in (self.step() for _ in range(epochs)) if self.epoch % every == 0]
        return np.stack([energies for energies, _ in kept]), np.stack([overlaps for _, overlaps in kept])


def tempering_of_files(folder: Path, numbers: "Registers | Philox") -> Tempering:
    """The run of a folder's run.toml, its tables and its couplings file."""
    keys = read_keys(folder / "run.toml")
    rows = np.array([line.split(",") for line in (folder / str(keys["rules"])).read_text().splitlines()], np.int64)
    swaps = [np.array(line.split(","), np.int64) for line in (folder / str(keys["swaps"])).read_text().splitlines()]
    stored = (folder / str(keys["couplings"])[len("file:"):]).read_bytes()
    size, samples = couplings_files.couplings_of("the couplings file", stored)
    lattice = Lattice(size, samples[:int(keys["samples"])])
    return Tempering(lattice, str(keys["rule"]), rows, swaps, int(keys["sweeps"]), numbers)
