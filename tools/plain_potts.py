#!/usr/bin/env python3
"""Print the report of a four-state Potts glass, one sample and one site at a time.

A program of its own, on plain lists, with which the tests of the crate potts_glass compare: the
rules are those of docs/specification/potts.md and random_numbers.md, the digests those of hashlib.
"""
import hashlib
import struct
import sys

sys.dont_write_bytecode = True
from exit_status import status_of  # noqa: E402
from make_tables import OneLineParser, Refusal  # noqa: E402

WORD = 1 << 32


def seeded(seed, kind, a, b, c):
    """The 61 words of a labelled generator."""
    words = []
    for block in range(8):
        message = struct.pack(">QIIIII", seed, kind, a, b, c, block)
        words += struct.unpack(">8I", hashlib.sha256(message).digest())
    return words[:61]


def draws(words, count):
    """The first random numbers of the generator with these words."""
    stream = list(words)
    for _ in range(count):
        stream.append((stream[-24] + stream[-55]) % WORD)
    return [stream[61 + n] ^ stream[n] for n in range(count)]


class Lattice:
    """The periodic cube: sites, and the bonds to their six neighbours."""

    def __init__(self, size):
        self.size = size
        self.volume = size**3

    def site(self, x, y, z):
        n = self.size
        return x % n + n * (y % n) + n * n * (z % n)

    def ahead(self, x, y, z):
        return [self.site(x + 1, y, z), self.site(x, y + 1, z), self.site(x, y, z + 1)]

    def behind(self, x, y, z):
        return [self.site(x - 1, y, z), self.site(x, y - 1, z), self.site(x, y, z - 1)]

    def sites(self):
        n = self.size
        return [(x, y, z) for z in range(n) for y in range(n) for x in range(n)]


def start_colours(lattice, seed, sample, start):
    if start == "zero":
        return [0] * lattice.volume
    numbers = draws(seeded(seed, 6, 0, 0, 0), 4 * lattice.volume)
    word, bit = divmod(sample, 32)
    return [
        (numbers[4 * i + word] >> bit & 1) + 2 * (numbers[4 * i + 2 + word] >> bit & 1)
        for i in range(lattice.volume)
    ]


def bond_signs(lattice, seed, sample, couplings):
    count = 3 * lattice.volume
    if couplings == "plus":
        return [1] * count
    return [-1 if n >> 31 else 1 for n in draws(seeded(seed, 3, sample, 0, 0), count)]


def sweep(lattice, colours, signs, numbers, thresholds):
    """One sweep, by the numbers of each class and plane."""
    size = lattice.size
    for parity in (0, 1):
        for x, y, z in lattice.sites():
            if (x + y + z) % 2 != parity:
                continue
            n = y * (size // 2) + x // 2
            step, second = numbers[parity, z][2 * n : 2 * n + 2]
            site = lattice.site(x, y, z)
            old = colours[site]
            new = (old + 1 + 3 * step // WORD) % 4
            near = [(p, signs[3 * site + d]) for d, p in enumerate(lattice.ahead(x, y, z))]
            near += [(p, signs[3 * p + d]) for d, p in enumerate(lattice.behind(x, y, z))]
            gap = sum(j * ((colours[p] == old) - (colours[p] == new)) for p, j in near)
            if gap <= 0 or second < thresholds[gap - 1]:
                colours[site] = new


def energy(lattice, colours, signs):
    total = 0
    for x, y, z in lattice.sites():
        site = lattice.site(x, y, z)
        for d, p in enumerate(lattice.ahead(x, y, z)):
            total -= signs[3 * site + d] * (colours[site] == colours[p])
    return total


def report(size, sweeps, seed, samples, couplings, start, thresholds):
    lattice = Lattice(size)
    plane = size * size
    streams = {
        (c, z): draws(seeded(seed, 5, c, z, 0), sweeps * plane)
        for c in (0, 1)
        for z in range(size)
    }
    lines = [f"potts 1 size={size} sweeps={sweeps} seed={seed} samples={samples}"]
    for sample in range(samples):
        colours = start_colours(lattice, seed, sample, start)
        signs = bond_signs(lattice, seed, sample, couplings)
        for k in range(sweeps):
            numbers = {key: s[k * plane : (k + 1) * plane] for key, s in streams.items()}
            sweep(lattice, colours, signs, numbers, thresholds)
        lines.append(f"energy,{sample},{energy(lattice, colours, signs)}")
        lines.append(f"spin,{sample}," + "".join(map(str, colours)))
    return "\n".join(lines + ["end", ""])


def check_ranges(words):
    """Those of docs/specification/formats.md."""
    ranges = [("SIZE", words.size, 4, 64), ("SWEEPS", words.sweeps, 0, 1000000), ("SEED", words.seed, 0, 2**63 - 1),
              ("SAMPLES", words.samples, 1, 64)]
    ranges += [(f"T{gap}", threshold, 0, WORD) for gap, threshold in enumerate(words.thresholds, 1)]
    for name, value, least, most in ranges:
        if not least <= value <= most:
            raise Refusal(f"{name} is not from {least} to {most}: {value}")
    if words.size % 2:
        raise Refusal(f"SIZE is odd: {words.size}")


def main():
    parser = OneLineParser(prog="plain_potts", description=__doc__)
    parser.add_argument("size", type=int)
    parser.add_argument("sweeps", type=int)
    parser.add_argument("seed", type=int)
    parser.add_argument("samples", type=int)
    parser.add_argument("couplings", choices=["plus", "random"])
    parser.add_argument("start", choices=["zero", "random"])
    parser.add_argument("thresholds", type=int, nargs=6)
    words = parser.parse_args()
    check_ranges(words)
    print(
        report(
            words.size,
            words.sweeps,
            words.seed,
            words.samples,
            words.couplings,
            words.start,
            words.thresholds,
        ),
        end="",
    )
    return 0


if __name__ == "__main__":
    sys.exit(status_of("plain_potts", main))
