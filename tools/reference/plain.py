"""Spins in hexadecimal, and the command `plain`: scalar_rule/specs/SpinDigits.antt; glass_main/specs/Words.antt, CommandLine.antt and Texts.antt."""
from reference.words import one_if
from reference.lattice import volume
from reference.bonds import plus
from reference.sums import energy, spin
from reference.opening import plain_configuration


def four_spins(spins, i):
    n = 8 * one_if(spin(spins, i)) + 4 * one_if(spin(spins, i + 1)) + 2 * one_if(spin(spins, i + 2)) + one_if(spin(spins, i + 3))
    return chr(48 + n) if n < 10 else chr(87 + n)


def spin_digits(l, spins):
    return "".join(four_spins(spins, 4 * k) for k in range(volume(l) // 4))


def value_after(n, text):
    for b in text:
        if not 48 <= b <= 57:
            return None
        n = n * 10 + (b - 48)
    return n


def number_word(low, high, text):
    if not 1 <= len(text) <= 20:
        return None
    n = value_after(0, text)
    return n if n is not None and low <= n <= high else None


def plain_order(words):
    if len(words) != 11:
        return None
    size = number_word(4, 64, words[1])
    values = [number_word(0, 1000000, words[2]), number_word(0, 2 ** 63 - 1, words[3])]
    values += [number_word(0, 2 ** 32, w) for w in words[4:11]]
    if size is None or size % 2 == 1 or None in values:
        return None
    return size, values[0], values[1], tuple(values[2:])


def command_of(words):
    return plain_order(words) if (words[0] if words else b"") == b"plain" else None


def plain_text(order):
    l, count, seed, thresholds = order
    spins = plain_configuration(l, count, seed, thresholds).spins
    return (f"plain 1 size={l} sweeps={count} seed={seed}\nenergy,{energy(l, plus(0), spins)}\n"
            f"spin,{spin_digits(l, spins)}\n")
