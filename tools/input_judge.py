"""What docs/specification says of a run file, its tables and its couplings: what they are, or the status and the line of
their first refusal. checkpoint_judge.py says it of a checkpoint.

It is written from those documents and shares nothing with the program: each format is read here anew. TOML is read by
Python's own reader of TOML 1.0 (from 3.11 on), where the program takes 1.1: where the two may differ, where there is no
reader, or where a digest would take long to make, the answer is open."""
import hashlib
import re
from collections import namedtuple
from functools import lru_cache

import couplings
import reference.definitions as rule

try:
    import tomllib
except ImportError:
    tomllib = None

LIMITS = {"run file": 1048576, "rule table": 65536, "swap table": 4194304, "couplings file": 25165872,
          "checkpoint": 544943596, "report": 67108864}
GREATEST_EPOCH = 10 ** 9
# Samples are simulated in banks of so many.
BANK = 64
# A document may be refused for its depth, and this one is not.
SHALLOW = 40
# A decimal past the greatest one is infinite to Python's reader, and no number to the program's.
IS_GREAT_FLOAT = re.compile(r"[0-9][eE]\+?[0-9_]{3}|[0-9]{300}")
# What TOML 1.1 has and Python's reader of TOML 1.0 has not: two escapes, line ends in an inline table, times without seconds.
IS_LATER_TOML = re.compile(r"\\[xe]|\{|[0-9]:[0-9]{2}([^:0-9]|$)")


class Refused(Exception):
    def __init__(self, status, line):
        super().__init__(line)
        self.status, self.line = status, line


class Open(Exception):
    """What is not told here."""


def fetched(name, role):
    limit = LIMITS[role]
    try:
        with open(name, "rb") as file:
            stored = file.read(limit + 1)
    except FileNotFoundError:
        raise Refused(7, f"the {role} is not held") from None
    except (OSError, ValueError):
        raise Refused(8, f"reading the {role} failed") from None
    if len(stored) > limit:
        status = {"run file": 3, "couplings file": 5, "checkpoint": 6, "report": 12}.get(role, 4)
        raise Refused(status, f"the {role} is too long: {len(stored)} bytes")
    return stored


# ---------------------------------------------------------------- run file

WORDS = {"rule": ("heat", "metropolis"), "start": ("up", "random")}
RANGES = {"sweeps": (1, 10 ** 6), "seed": (0, 2 ** 63 - 1), "samples": (1, 256), "epochs": (0, GREATEST_EPOCH),
          "every": (1, GREATEST_EPOCH)}
KEYS = ("size", "rule", "rules", "swaps", "couplings", "sweeps", "seed", "samples", "epochs", "every", "start", "spins")


def is_name(text):
    return 1 <= len(text.encode()) <= 255


def is_lawful_word(key, value):
    if key in WORDS:
        return value in WORDS[key]
    if key == "couplings":
        return value in ("plus", "random") or value.startswith("file:") and is_name(value[5:])
    return is_name(value)


def is_lawful_number(key, value):
    if key == "size":
        return 4 <= value <= 64 and value % 2 == 0
    return RANGES[key][0] <= value <= RANGES[key][1]


def check_key(key, document):
    if key not in document:
        raise Refused(3, f"key {key} is missing")
    value = document[key]
    kind = bool if key == "spins" else int if key == "size" or key in RANGES else str
    if type(value) is not kind:
        raise Refused(3, f"key {key} has the wrong kind")
    if kind is int and not is_lawful_number(key, value):
        raise Refused(3, f"key {key} is out of range: {value}")
    if kind is str and not is_lawful_word(key, value):
        raise Refused(3, f"key {key} has an unknown word")


def has_long_integer(value):
    if isinstance(value, (dict, list)):
        return any(map(has_long_integer, value.values() if isinstance(value, dict) else value))
    return type(value) is int and not -2 ** 63 <= value < 2 ** 63


def depth(value):
    if not isinstance(value, (dict, list)):
        return 0
    return 1 + max(map(depth, value.values() if isinstance(value, dict) else value), default=0)


def document_of(stored):
    if tomllib is None:
        raise Open
    try:
        text = stored.decode("utf-8")
        document = tomllib.loads(text[1:] if text.startswith("\ufeff") else text)
    except UnicodeDecodeError:
        raise Refused(3, "the run file is not TOML") from None
    except ValueError:
        if IS_LATER_TOML.search(text):
            raise Open from None
        raise Refused(3, "the run file is not TOML") from None
    except RecursionError:
        raise Open from None
    if depth(document) > SHALLOW or IS_GREAT_FLOAT.search(text):
        raise Open
    if has_long_integer(document):
        raise Refused(3, "the run file is not TOML")
    return document


def run_file(stored):
    document = document_of(stored)
    for key in KEYS:
        check_key(key, document)
    others = sorted(key.encode() for key in document if key not in KEYS)
    if others:
        shown = bytes(b if 32 <= b <= 126 else 63 for b in others[0])
        raise Refused(3, f"unknown key {shown.decode()}")
    return document


def check_banks(orders):
    """What is asked of a run file by a command that runs one bank of 64 samples."""
    if orders["samples"] > BANK:
        raise Refused(3, f"this command needs at most 64 samples, not {orders['samples']}")


# ---------------------------------------------------------------- tables and couplings


def records_of(name, stored):
    text = stored[3:] if stored[:3] == b"\xef\xbb\xbf" else stored
    if any(b == 34 or not (b in (10, 13) or 32 <= b <= 126) for b in text):
        raise Refused(4, f"the {name} is not CSV")
    return [line.split(b",") for line in re.split(b"[\r\n]", text) if line]


def table(name, stored, is_width, wanted):
    rows = []
    for r, fields in enumerate(records_of(name, stored)):
        if not is_width(len(fields)):
            raise Refused(4, f"the {name}, record {r} has {len(fields)} fields, not {wanted}")
        rows.append(tuple(threshold(f"the {name}, record {r}, field {f}", field.strip(b" ")) for f, field in enumerate(fields)))
    return tuple(rows)


def threshold(place, digits):
    if not re.fullmatch(b"[0-9]{1,10}", digits):
        raise Refused(4, f"{place} is not a number")
    if int(digits) > 2 ** 32:
        raise Refused(4, f"{place} is too great: {int(digits)}")
    return int(digits)


def rule_table(stored, kind):
    width = 7 if kind == "heat" else 3
    rows = table("rule table", stored, lambda n: n == width, width)
    if not 1 <= len(rows) <= 32:
        raise Refused(4, f"the rule table has {len(rows)} records, not {32 if rows else 1}")
    return rows


def swap_table(stored, pairs):
    rows = table("swap table", stored, lambda n: n <= 4096, 4096)
    if len(rows) != pairs:
        raise Refused(4, f"the swap table has {len(rows)} records, not {pairs}")
    return rows


def number(stored, at, width):
    return int.from_bytes(stored[at:at + width], "big")


def seal_of(status, what, stored):
    """The digest at the end of a file must be that of the bytes before."""
    computed = hashlib.sha256(stored[:-32]).hexdigest()
    if stored[-32:].hex() != computed:
        raise Refused(status, f"the {what} is damaged: {stored[-32:].hex()} stored, {computed} computed")


def couplings_file(stored, size):
    """The bonds of the file's samples."""
    if len(stored) < 48:
        raise Refused(5, f"the couplings file is too short: {len(stored)} bytes")
    if stored[:8] != b"GLASSCJ1":
        raise Refused(5, "the couplings file is of another kind")
    if number(stored, 8, 4) != size:
        raise Refused(5, f"the couplings file has size {number(stored, 8, 4)}")
    samples = number(stored, 12, 4)
    if not 1 <= samples <= 256:
        raise Refused(5, f"the couplings file has {samples} samples")
    part = 3 * size ** 3 // 8
    if len(stored) != 48 + samples * part:
        raise Refused(5, f"the couplings file has {len(stored)} bytes, not {48 + samples * part}")
    seal_of(5, "couplings file", stored)
    return [couplings.unpacked(stored[16 + b * part:16 + (b + 1) * part]) for b in range(samples)]


@lru_cache(maxsize=64)
def random_bonds(size, seed, bank):
    return words_of(size, [couplings.program_sample(size, seed, BANK * bank + b) for b in range(BANK)])


def words_of(size, samples):
    """A word for each bond in order of number, with bit b set where J of a bank's sample b is -1."""
    return tuple(sum(bonds[n] << b for b, bonds in enumerate(samples)) for n in range(3 * size ** 3))


# ---------------------------------------------------------------- plan


class Planned(namedtuple("Planned", "orders plans digests")):
    """The orders, and of each bank the plan and its digest; the digests are None where they would take long to make."""

    @property
    def plan(self):
        return self.plans[0]

    @property
    def digest(self):
        if self.digests is None or len(self.digests) == 1:
            return self.digests and self.digests[0]
        return hashlib.sha256(b"GLASSPL2" + len(self.digests).to_bytes(4, "big") + bytes.fromhex("".join(self.digests))).hexdigest()


def plan_digest(size, kind, rows, swaps, sweeps, seed, bonds):
    parts = [b"GLASSPL1"] + [n.to_bytes(4, "big") for n in (size, len(rows), 1 if kind == "heat" else 2, sweeps)]
    parts.append(seed.to_bytes(8, "big"))
    parts += [value.to_bytes(8, "big") for row in rows for value in row]
    for entries in swaps:
        parts.append(len(entries).to_bytes(4, "big"))
        parts += [value.to_bytes(8, "big") for value in entries]
    parts += [word.to_bytes(8, "big") for word in bonds]
    return hashlib.sha256(b"".join(parts)).hexdigest()


def bonds_of(source, size, seed, banks):
    """Each bank's words of the bonds, None where they would take long to make."""
    if source.startswith("file:"):
        samples = couplings_file(fetched(source[5:], "couplings file"), size)
        return [words_of(size, samples[BANK * g:BANK * (g + 1)]) for g in range(banks)]
    if source == "plus":
        return [(0,) * (3 * size ** 3)] * banks
    return [random_bonds(size, seed, g) for g in range(banks)] if size <= 8 else None


def in_places(size, bonds):
    """The words of a bank's bonds as the definitions keep them; at sizes of which no run is followed they are 0."""
    places = [0] * len(bonds)
    for n, word in enumerate(bonds if size <= 16 else ()):
        places[rule.place_of(size, n // 3, n % 3)] = word
    return rule.CouplingsView(size, tuple(places))


def planned(name, many=True):
    """What a run file and its files are; `many` is said where the command runs more than one bank."""
    orders = run_file(fetched(name, "run file"))
    if not many:
        check_banks(orders)
    size, kind, seed = orders["size"], orders["rule"], orders["seed"]
    banks = (orders["samples"] + BANK - 1) // BANK
    rows = rule_table(fetched(orders["rules"], "rule table"), kind)
    swaps = swap_table(fetched(orders["swaps"], "swap table"), len(rows) - 1)
    bonds = bonds_of(orders["couplings"], size, seed, banks)
    kept = [None] * banks if bonds is None else [in_places(size, it) for it in bonds]
    plans = [rule.Plan(size, kind, rows, swaps, it, orders["sweeps"], seed) for it in kept]
    digests = None if bonds is None else [plan_digest(size, kind, rows, swaps, orders["sweeps"], seed, it) for it in bonds]
    return Planned(orders, plans, digests)
