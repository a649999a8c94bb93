#!/usr/bin/env python3
"""Makes, changes and shows couplings files, which `couplings = "file:NAME"` of a run file names.

    python3 tools/couplings.py random j.bin --size 8 --samples 64 --seed 1 --negative 0.5
    python3 tools/couplings.py program j.bin --size 8 --samples 64 --seed 20240611
    python3 tools/couplings.py plus j.bin --size 8 --samples 2
    python3 tools/couplings.py gauge j.bin k.bin --seed 1
    python3 tools/couplings.py pick shorter.csv j.bin
    python3 tools/couplings.py show j.bin
    python3 tools/couplings.py to-text j.bin j.txt
    python3 tools/couplings.py from-text j.txt j.bin

random     each J is -1 with the probability --negative (1/2 if left out), a plain decimal that is taken
           exactly: word n of SHAKE-256 of the text "couplings SEED SAMPLE" is compared with 2^32 times it
program    the couplings that a run file with couplings = "random" and this seed has
plus       every J is +1
gauge      J of each bond times a sign of each of its two sites, which keeps all energies' distributions;
           the sign of site i is bit i of SHAKE-256 of "gauge SEED SAMPLE", the first of a byte the highest
pick       the couplings of the samples that a list names, as tools/estimate.py times --shorter writes it
show       size, samples, digest, and how many bonds of each sample are negative

A text has a line `couplings 1 size=L samples=n`, then a line for each bond, in any order: the numbers
i and j of its two sites and J of each sample, 1 or -1. Site (x, y, z) is x + L y + L^2 z.

The bytes of a file: docs/specification/couplings.md. numpy makes `random`, `program` and `gauge` faster
and is not needed.
"""
import argparse
import hashlib
import struct
import sys
from fractions import Fraction
from pathlib import Path

sys.dont_write_bytecode = True
from exit_status import status_of  # noqa: E402
from make_tables import NUMBER, OneLineParser, Refusal  # noqa: E402

try:
    import numpy
except ImportError:
    numpy = None

MAGIC = b"GLASSCJ1"
GREATEST_SAMPLES = 256
GREATEST_SEED = 2 ** 63 - 1
# Size 64 with all samples.
LONGEST = 48 + GREATEST_SAMPLES * 3 * 64 ** 3 // 8
LAGS = (24, 55, 61)
HALF = "1/2"


# ---------------------------------------------------------------- files

# The couplings of a sample are a bytes of one item a bond, in order of bond number: 1 where J is -1.


def packed(bonds):
    """Eight bonds a byte, the first in the highest bit."""
    return int(bonds.translate(bytes.maketrans(b"\0\1", b"01")), 2).to_bytes(len(bonds) // 8, "big")


def unpacked(stored):
    digits = bin(int.from_bytes(b"\1" + stored, "big"))[3:]
    return digits.encode("ascii").translate(bytes.maketrans(b"01", b"\0\1"))


def file_bytes(size, samples):
    """The bytes of a couplings file; samples is a list of the couplings of each."""
    body = MAGIC + struct.pack(">II", size, len(samples)) + b"".join(packed(bonds) for bonds in samples)
    return body + hashlib.sha256(body).digest()


def couplings_of(name, stored):
    """The size and the couplings of the samples of a file, or its first refusal."""
    if len(stored) > LONGEST:
        raise Refusal(f"{name} is too long: more than {LONGEST} bytes")
    if len(stored) < 48:
        raise Refusal(f"{name} is too short: {len(stored)} bytes")
    if stored[:8] != MAGIC:
        raise Refusal(f"{name} is of another kind")
    size, count = struct.unpack(">II", stored[8:16])
    if not is_size(size):
        raise Refusal(f"{name} has size {size}")
    if not 1 <= count <= GREATEST_SAMPLES:
        raise Refusal(f"{name} has {count} samples")
    stride = 3 * size ** 3 // 8
    if len(stored) != 48 + count * stride:
        raise Refusal(f"{name} has {len(stored)} bytes, not {48 + count * stride}")
    if hashlib.sha256(stored[:-32]).digest() != stored[-32:]:
        raise Refusal(f"{name} is damaged")
    return size, [unpacked(stored[16 + b * stride:16 + (b + 1) * stride]) for b in range(count)]


def is_size(size):
    return size % 2 == 0 and 4 <= size <= 64


def read_bytes(name, most=-1):
    """The bytes of a file, of which no more than `most` and one are read."""
    try:
        with open(name, "rb") as stream:
            return stream.read(most if most < 0 else most + 1)
    except OSError as fault:
        raise Refusal(f"{name} can't be read: {fault.strerror}") from None


def write_bytes(name, stored):
    try:
        Path(name).write_bytes(stored)
    except OSError as fault:
        raise Refusal(f"{name} can't be written: {fault.strerror}") from None


# ---------------------------------------------------------------- couplings


def words_below(stored, bound):
    """For each big-endian word of 32 bits whether it is below a bound, as one item a word."""
    if numpy is not None:
        return (numpy.frombuffer(stored, ">u4").astype(numpy.uint64) < bound).astype(numpy.uint8).tobytes()
    return bytes(word < bound for (word,) in struct.iter_unpack(">I", stored))


def random_sample(size, seed, sample, negative):
    stream = hashlib.shake_256(f"couplings {seed} {sample}".encode("ascii"))
    return words_below(stream.digest(12 * size ** 3), int(negative * 2 ** 32))


def seeded(seed, sample):
    """The 61 words that the generator of a sample's couplings begins with."""
    blocks = (hashlib.sha256(struct.pack(">QIIIII", seed, 3, sample, 0, 0, j)).digest() for j in range(8))
    return struct.unpack(">64I", b"".join(blocks))[:61]


def program_sample(size, seed, sample):
    """The program's own random couplings: the top bits of the draws of a Parisi-Rapuano generator."""
    near, far, window = LAGS
    words, bonds = list(seeded(seed, sample)), bytearray()
    for k in range(window, window + 3 * size ** 3):
        words.append((words[k - near] + words[k - far]) % 2 ** 32)
        bonds.append((words[k] ^ words[k - window]) >> 31)
    return bytes(bonds)


def program_samples(size, seed, samples):
    if numpy is None:
        return [program_sample(size, seed, b) for b in range(samples)]
    near, far, window = LAGS
    count = 3 * size ** 3
    words = numpy.zeros((samples, window + count), numpy.uint32)
    words[:, :window] = [seeded(seed, b) for b in range(samples)]
    # no word depends on one that is less than 24 places before it
    for k in range(window, window + count, near):
        end = min(k + near, window + count)
        words[:, k:end] = words[:, k - near:end - near] + words[:, k - far:end - far]
    draws = words[:, window:] ^ words[:, :count]
    return [row.tobytes() for row in (draws >> 31).astype(numpy.uint8)]


def forward(size, site, d):
    """The neighbour of a site one step on in direction d, around the boundary."""
    step = size ** d
    return site - (size - 1) * step if site // step % size == size - 1 else site + step


def turned(size, bonds, seed, sample):
    """The couplings of a sample under a random gauge transform."""
    signs = unpacked(hashlib.shake_256(f"gauge {seed} {sample}".encode("ascii")).digest(size ** 3 // 8))
    if numpy is not None:
        grid = numpy.frombuffer(signs, numpy.uint8).reshape(size, size, size)
        ahead = [numpy.roll(grid, -1, 2 - d).ravel() for d in range(3)]
        return (numpy.frombuffer(bonds, numpy.uint8) ^ numpy.repeat(grid, 3) ^ numpy.stack(ahead, axis=1).ravel()).tobytes()
    return bytes(bonds[3 * i + d] ^ signs[i] ^ signs[forward(size, i, d)] for i in range(size ** 3) for d in range(3))


# ---------------------------------------------------------------- texts


def text_of(size, samples):
    lines = [f"couplings 1 size={size} samples={len(samples)}"]
    for n in range(3 * size ** 3):
        signs = " ".join("-1" if bonds[n] else "1" for bonds in samples)
        lines.append(f"{n // 3} {forward(size, n // 3, n % 3)} {signs}")
    return "\n".join(lines) + "\n"


def bond_numbers(size):
    """The number of the bond of two sites, in either order."""
    numbers = {}
    for n in range(3 * size ** 3):
        i, j = n // 3, forward(size, n // 3, n % 3)
        numbers[i, j] = numbers[j, i] = n
    return numbers


def head_of(name, line):
    words = line.split()
    try:
        if words[:2] != ["couplings", "1"] or len(words) != 4:
            raise ValueError
        (size_key, size), (samples_key, samples) = (word.split("=") for word in words[2:])
        if (size_key, samples_key) != ("size", "samples"):
            raise ValueError
        size, samples = int(size), int(samples)
    except ValueError:
        raise Refusal(f"{name}, line 1 is not `couplings 1 size=L samples=n`") from None
    check_shape(size, samples)
    return size, samples


def read_text(name, text):
    lines = text.split("\n")
    size, count = head_of(name, lines[0])
    numbers = bond_numbers(size)
    samples = [bytearray(b"\2" * (3 * size ** 3)) for _ in range(count)]
    for at, line in enumerate(lines[1:], 2):
        if not line.strip():
            continue
        try:
            i, j, *signs = map(int, line.split())
        except ValueError:
            raise Refusal(f"{name}, line {at} is not two sites and the signs of a bond") from None
        if (i, j) not in numbers:
            raise Refusal(f"{name}, line {at}: no bond joins {i} and {j}")
        if len(signs) != count or any(sign not in (1, -1) for sign in signs):
            raise Refusal(f"{name}, line {at} has not {count} signs that are 1 or -1")
        n = numbers[i, j]
        if samples[0][n] != 2:
            raise Refusal(f"{name}, line {at}: the bond of {i} and {j} came before")
        for bonds, sign in zip(samples, signs):
            bonds[n] = sign < 0
    missing = samples[0].find(2)
    if missing >= 0:
        raise Refusal(f"{name} lacks the bond of {missing // 3} and {forward(size, missing // 3, missing % 3)}")
    return size, [bytes(bonds) for bonds in samples]


# ---------------------------------------------------------------- the program


def check_shape(size, samples):
    if size is None or not is_size(size):
        raise Refusal(f"the size is no even number from 4 to 64: {size}")
    if samples is None or not 1 <= samples <= GREATEST_SAMPLES:
        raise Refusal(f"the number of samples is not from 1 to {GREATEST_SAMPLES}: {samples}")


def seed_of(options):
    if options.seed is None or not 0 <= options.seed <= GREATEST_SEED:
        raise Refusal(f"the seed is not from 0 to {GREATEST_SEED}: {options.seed}")
    return options.seed


def probability(text):
    # A Fraction of a text with a great exponent has as many digits as that.
    if text != HALF and not NUMBER.fullmatch(text):
        raise Refusal(f"--negative is no plain decimal: {text!r}")
    value = Fraction(text)
    if value > 1:
        raise Refusal(f"--negative is not from 0 to 1: {text}")
    return value


def save(name, size, samples):
    stored = file_bytes(size, samples)
    write_bytes(name, stored)
    print(f"wrote {name}: size {size}, {len(samples)} {'samples' if len(samples) > 1 else 'sample'}, {len(stored)} bytes")


def make(options):
    check_shape(options.size, options.samples)
    size, count = options.size, options.samples
    if options.command == "plus":
        samples = [bytes(3 * size ** 3)] * count
    elif options.command == "program":
        samples = program_samples(size, seed_of(options), count)
    else:
        seed, negative = seed_of(options), probability(options.negative)
        samples = [random_sample(size, seed, b, negative) for b in range(count)]
    save(options.out, size, samples)


def show(options):
    stored = read_bytes(options.file, LONGEST)
    size, samples = couplings_of(options.file, stored)
    print(f"size {size}, {len(samples)} {'samples' if len(samples) > 1 else 'sample'}, digest {stored[-32:].hex()}")
    for b, bonds in enumerate(samples):
        print(f"sample {b}: {sum(bonds)} of {len(bonds)} bonds are negative")


def change(options):
    if options.command == "pick":
        from pick_samples import picked
        size, samples = picked(options.file)
        check_shape(size, len(samples))
        return save(options.out, size, samples)
    if options.command == "from-text":
        try:
            text = read_bytes(options.file).decode("ascii")
        except UnicodeDecodeError:
            raise Refusal(f"{options.file} is no text") from None
        return save(options.out, *read_text(options.file, text))
    size, samples = couplings_of(options.file, read_bytes(options.file, LONGEST))
    if options.command == "gauge":
        seed = seed_of(options)
        return save(options.out, size, [turned(size, bonds, seed, b) for b, bonds in enumerate(samples)])
    write_bytes(options.out, text_of(size, samples).encode("ascii"))
    print(f"wrote {options.out}: size {size}, {3 * size ** 3} bonds")
    return None


def parser_of_words():
    parser = OneLineParser(prog="couplings", description=__doc__, allow_abbrev=False,
                           formatter_class=argparse.RawDescriptionHelpFormatter)
    parser.add_argument("--self-test", action="store_true", help="compare with files made by hand")
    commands = parser.add_subparsers(dest="command", metavar="COMMAND", parser_class=OneLineParser)
    for command in ("random", "program", "plus"):
        words = commands.add_parser(command, allow_abbrev=False)
        words.add_argument("out", metavar="FILE")
        words.add_argument("--size", type=int, metavar="L")
        words.add_argument("--samples", type=int, metavar="N")
        if command != "plus":
            words.add_argument("--seed", type=int, metavar="S")
        if command == "random":
            words.add_argument("--negative", default=HALF, metavar="P")
    for command in ("gauge", "to-text", "from-text", "pick"):
        words = commands.add_parser(command, allow_abbrev=False)
        words.add_argument("file", metavar="FILE")
        words.add_argument("out", metavar="OUT")
        if command == "gauge":
            words.add_argument("--seed", type=int, metavar="S")
    commands.add_parser("show", allow_abbrev=False).add_argument("file", metavar="FILE")
    return parser


def main(words=None):
    try:
        options = parser_of_words().parse_args(words)
        if options.self_test:
            from couplings_test import self_test
            return self_test()
        if options.command is None:
            raise Refusal("a command is needed; --help says more")
        if options.command == "show":
            show(options)
        elif options.command in ("random", "program", "plus"):
            make(options)
        else:
            change(options)
    except Refusal as refusal:
        print(f"couplings: {refusal}", file=sys.stderr)
        return 2
    return 0


if __name__ == "__main__":
    sys.exit(status_of("couplings", main))
