"""How lawful inputs of the program are changed: texts by words, lines and numbers, files of bytes by fields and by a
digest that is made anew. Every change is drawn from the generator that is given, so an input can be made again."""
import hashlib

NUMBERS = [b"0", b"1", b"2", b"3", b"4", b"5", b"6", b"7", b"8", b"31", b"32", b"33", b"62", b"64", b"65", b"66", b"255",
           b"256", b"257", b"-1", b"-0", b"+4", b"00", b"04", b"0x4", b"0o4", b"0b100", b"1_0", b"4.0", b"1e3", b"inf", b"nan",
           b"4294967295", b"4294967296", b"4294967297", b"9999999999", b"10000000000", b"1000000", b"1000001",
           b"999999999", b"1000000000", b"1000000001", b"9223372036854775807", b"9223372036854775808",
           b"-9223372036854775808", b"-9223372036854775809", b"18446744073709551616", b"1" * 60, b"1979-05-27", b"07:32:00"]
WORDS = [b"heat", b"metropolis", b"up", b"random", b"plus", b"file:", b"file:j.bin", b"file:absent", b"file:.", b"rules.csv",
         b"swaps.csv", b"run.toml", b"base", b"absent", b".", b"./rules.csv", b"rules.csv/x", b"", b"n" * 255, b"n" * 256,
         b"true", b"false", b"\\u0000", b"\\t", b"\\x41", b"\\e", b"Heat", b"plus ", b"\xc3\xa9", b"size", b"seed"]
LINES = [b"# a comment\n", b"\n", b"   \n", b"\t\n", b"\r\n", b"beta = 1\n", b"size.x = 1\n", b"[run]\n", b"[[run]]\n", b"[size]\n",
         b"\"si\\u007ae\" = 4\n", b"'size' = 4\n", b"a.b.c = 2\n", b"\"\" = 0\n", b"\"k\xc3\xa9\\n\" = [1, {a = 2}]\n", b"x = {}\n",
         b"d = 1979-05-27T07:32:00Z\n", b"d = 1979-02-30\n", b"x = [\n1,\n]\n", b"x = {a = 1,\nb = 2}\n", b"seed = 7\n", b"\"\"\"\n", b",\n",
         b"0,0,0\n", b"0,0,0,0,0,0,0\n", b" 4294967296 , 0 , 0000000001\n", b"1\n", b"1" + b",1" * 4095 + b"\n",
         b"1" + b",1" * 4096 + b"\n", b"," * 6 + b"\n", b"x = " + b"[" * 90 + b"]" * 90 + b"\n", b"x." * 200 + b"y = 1\n"]
BYTES = b"\0\t\n\r \"#'+,-./0189:=AEZ[\\]_aez{|}~\x7f\x80\xc3\xef\xbb\xbf\xff"
FIELDS = [0, 1, 2, 3, 4, 5, 6, 8, 63, 64, 65, 255, 256, 257, 10 ** 9 - 1, 10 ** 9, 10 ** 9 + 1, 2 ** 31, 2 ** 32 - 1, 2 ** 63, 2 ** 64 - 1]
MARK = b"\xef\xbb\xbf"


def random_bytes(rng, count):
    return rng.getrandbits(8 * count).to_bytes(count, "little") if count else b""


def piece(rng, stored):
    """A short or a long piece, by its two places."""
    start = rng.randrange(len(stored) + 1)
    length = rng.choice((1, 1, 2, 4, 8, 32, 33, len(stored)))
    return start, min(len(stored), start + rng.randrange(1, length + 2))


def cut(rng, stored, _):
    a, b = piece(rng, stored)
    return rng.choice((stored[:a] + stored[b:], stored[:a], stored[b:]))


def repeat(rng, stored, _):
    a, b = piece(rng, stored)
    return stored[:b] + stored[a:b] * rng.choice((1, 1, 2, 9)) + stored[b:]


def flip(rng, stored, _):
    if not stored:
        return stored
    at = rng.randrange(len(stored))
    return stored[:at] + bytes([stored[at] ^ 1 << rng.randrange(8)]) + stored[at + 1:]


def other_byte(rng, stored, _):
    at = rng.randrange(len(stored) + 1)
    return stored[:at] + bytes([rng.choice(BYTES)]) + stored[at + rng.randrange(2):]


def other_piece(rng, stored, others):
    """A piece of another input in the place of one, of the same length or not."""
    other = rng.choice(others)
    a, b = piece(rng, stored)
    c, d = (a, b) if rng.random() < 0.5 else piece(rng, other)
    return stored[:a] + other[c:d] + stored[b:]


# ---------------------------------------------------------------- texts


def runs_of(stored, belongs):
    """The places of the longest runs of bytes that belong together."""
    found, start = [], None
    for at, byte in enumerate(stored + b"\n"):
        if belongs(byte) and start is None:
            start = at
        elif not belongs(byte) and start is not None:
            found.append((start, at))
            start = None
    return found


def replaced(rng, stored, places, words):
    if not places:
        return stored
    a, b = rng.choice(places)
    return stored[:a] + rng.choice(words) + stored[b:]


def other_number(rng, stored, _):
    return replaced(rng, stored, runs_of(stored, lambda b: 48 <= b <= 57), NUMBERS)


def other_word(rng, stored, _):
    is_of_word = lambda b: b in b"._:-" or 97 <= b <= 122
    return replaced(rng, stored, runs_of(stored, is_of_word), WORDS)


def other_line(rng, stored, others):
    lines = stored.splitlines(keepends=True) or [b""]
    at = rng.randrange(len(lines))
    way = rng.randrange(5)
    if way == 0:
        del lines[at]
    elif way == 1:
        lines.insert(at, lines[rng.randrange(len(lines))])
    elif way == 2:
        to = rng.randrange(len(lines))
        lines[at], lines[to] = lines[to], lines[at]
    elif way == 3:
        lines.insert(at, rng.choice(LINES))
    else:
        lines.insert(at, rng.choice(rng.choice(others).splitlines(keepends=True) or [b"\n"]))
    return b"".join(lines)


def other_form(rng, stored, _):
    """The same in another form, mostly: line ends, a mark in front, spaces, quotes, comments."""
    way = rng.randrange(7)
    if way == 0:
        return stored.replace(b"\n", rng.choice((b"\r\n", b"\r", b"\n\n")))
    if way == 1:
        return MARK + stored
    if way == 2:
        return stored.replace(b",", rng.choice((b" ,", b", ", b"  ,  ", b",\t")))
    if way == 3:
        return stored.replace(b'"', rng.choice((b"'", b'"""', b"'''")))
    if way == 4:
        return stored.replace(b" = ", rng.choice((b"=", b" =\t", b"  =  ", b" =\n")))
    if way == 5:
        return stored.rstrip(b"\n")
    return stored.replace(b"\n", b" # more\n")


TEXT_CHANGES = [cut, repeat, flip, other_byte, other_piece, other_number, other_number, other_number, other_word, other_word,
                other_line, other_line, other_form]


# ---------------------------------------------------------------- files of bytes


def sealed(stored):
    return stored[:-32] + hashlib.sha256(stored[:-32]).digest()


def bank_length(size, slots):
    return 88 + 2 * slots * replica_length(size) + 488 * (slots - 1)


def bank_places(stored, size, slots):
    """Where the checkpoints of the banks stand in one of several."""
    length = bank_length(size, slots)
    return range(12, len(stored) - 31 - length, length) if stored[:8] == b"GLASSCK3" else range(0)


def sealed_in_all(stored, size, slots):
    """With the digests of the banks made anew, and then that of the whole."""
    for at in bank_places(stored, size, slots):
        end = at + bank_length(size, slots)
        stored = stored[:at] + sealed(stored[at:end]) + stored[end:]
    return sealed(stored)


def noise(rng, stored, _):
    a, b = piece(rng, stored)
    return stored[:a] + random_bytes(rng, b - a) + stored[b:]


def exchanged(rng, stored, _):
    """Two pieces of the same length change places."""
    a, b = sorted((piece(rng, stored)[0], piece(rng, stored)[0]))
    length = rng.randrange(1, 65)
    if a + length > b or b + length > len(stored):
        return stored
    return stored[:a] + stored[b:b + length] + stored[a + length:b] + stored[a:a + length] + stored[b + length:]


BINARY_CHANGES = [cut, repeat, flip, other_byte, other_piece, noise, noise, exchanged]


def with_field(rng, stored, fields):
    at, width = rng.choice(fields)
    present = int.from_bytes(stored[at:at + width], "big")
    value = rng.choice(FIELDS + [present + 1, present - 1]) % 256 ** width
    return stored[:at] + value.to_bytes(width, "big") + stored[at + width:]


def replica_length(size):
    return 64 + 2 * size * (244 + 4 * size * size)


def contents_place(rng, stored, size, slots):
    if stored[:8] == b"GLASSCK2":
        return 64 + 9 * slots
    return 56 + rng.choice(bank_places(stored, size, slots) or [0])


def label_places(rng, stored, size, slots):
    """The place of a label, and that of the same copy and sample in another slot."""
    copy, sample, start = rng.randrange(2), rng.randrange(64), contents_place(rng, stored, size, slots)
    first, second = (start + (2 * rng.randrange(slots) + copy) * replica_length(size) + sample for _ in range(2))
    return first, second


def with_labels(rng, stored, size, slots):
    first, second = label_places(rng, stored, size, slots)
    if max(first, second) >= len(stored):
        return stored
    changed = bytearray(stored)
    if rng.random() < 0.5:
        changed[first], changed[second] = changed[second], changed[first]
    else:
        changed[first] = rng.choice((0, 1, slots - 1, slots, 255))
    return bytes(changed)


def fields_of(stored, size, slots):
    """Places and widths of the numbers of a couplings file or of a checkpoint."""
    if stored[:8] == b"GLASSCK3":
        of_banks = [(at + field, width) for at in bank_places(stored, size, slots)
                    for field, width in ((0, 8), (8, 8), (40, 8), (40, 8), (48, 4), (52, 4))]
        return [(0, 8)] + 3 * [(8, 4)] + of_banks
    if stored[:8] == b"GLASSCK2":
        of_slots = [(64 + 9 * t, 8) for t in range(slots)] + [(72 + 9 * t, 1) for t in range(slots)]
        return [(0, 8), (8, 8), (40, 4), (44, 4), (48, 4), (52, 8), (60, 4)] + 2 * of_slots
    if stored[:7] == b"GLASSCK":
        return [(0, 8), (8, 8), (40, 8), (40, 8), (48, 4), (52, 4)]
    return [(0, 8), (8, 4), (12, 4)]


def grown_bytes(rng, name, stored, others, size, slots):
    is_shaped = len(stored) > 100
    for _ in range(rng.choice((1, 1, 1, 2, 3))):
        way = rng.random()
        if way < 0.3 and is_shaped:
            stored = with_field(rng, stored, fields_of(stored, size, slots))
        elif way < 0.5 and is_shaped and name == "base":
            stored = with_labels(rng, stored, size, slots)
        else:
            stored = rng.choice(BINARY_CHANGES)(rng, stored, others)
    seal = rng.random()
    if seal < 0.7:
        return sealed_in_all(stored, size, slots) if seal < 0.6 else sealed(stored)
    return stored + hashlib.sha256(stored).digest() if seal < 0.75 else stored


def grown(rng, name, stored, others, size, slots):
    """A changed input; some changes leave it as it was."""
    if name in ("j.bin", "base"):
        return grown_bytes(rng, name, stored, others, size, slots)
    for _ in range(rng.choice((1, 1, 1, 2, 3))):
        stored = rng.choice(TEXT_CHANGES)(rng, stored, others)
    return stored


# ---------------------------------------------------------------- checkpoints whose slots are at different epochs


def has_partner(t, epoch, slots):
    return 0 <= (t + 1 if (t + epoch) % 2 == 0 else t - 1) < slots


def places_after(rng, epoch, slots):
    """Positions after some slots were worked on, in an order that is drawn: an epoch and a phase for each slot."""
    at = [(epoch, 0)] * slots
    for _ in range(rng.randrange(1, 3 * slots + 1)):
        t = rng.randrange(slots)
        e, phase = at[t]
        if phase == 2:
            continue
        partner = t + 1 if (t + e) % 2 == 0 else t - 1
        if not has_partner(t, e, slots):
            at[t] = (e + 1, 0)
        elif at[partner] == (e, 2):
            at[t] = at[partner] = (e + 1, 0)
        else:
            at[t] = (e, 2)
    return at


def completed(place):
    return place[0] + (place[1] == 2)


def uneven(rng, level, size, slots, samples, every):
    """A lawful checkpoint of the second kind, with what a level one holds and with records that are drawn."""
    places = places_after(rng, int.from_bytes(level[40:48], "big"), slots)
    counts = [completed(place) for place in places]
    records = samples * sum(e % every == every - 1 for count in counts for e in range(min(counts), count))
    head = b"".join(n.to_bytes(width, "big") for n, width in ((size, 4), (slots, 4), (samples, 4), (every, 8), (records, 4)))
    body = b"GLASSCK2" + level[8:40] + head + b"".join(e.to_bytes(8, "big") + bytes([phase]) for e, phase in places)
    body += level[56:-32] + random_bytes(rng, 14 * records)
    return body + hashlib.sha256(body).digest()


def epochs_of(base):
    """Epochs to which a run from a checkpoint may be asked to go, those from which it has little to do first of all."""
    if base[:8] == b"GLASSCK2":
        slots = int.from_bytes(base[44:48], "big")
        places = [(int.from_bytes(base[64 + 9 * t:72 + 9 * t], "big"), base[72 + 9 * t]) for t in range(min(slots, 32))
                  if 72 + 9 * t < len(base)]
        last = max(map(completed, places), default=0)
    else:
        start = 12 if base[:8] == b"GLASSCK3" else 0
        last = int.from_bytes(base[start + 40:start + 48], "big")
    return [min(max(last + more, 0), 10 ** 9) for more in (-1, 0, 0, 0, 1)]
