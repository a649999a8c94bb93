"""Small words of the definitions: spin_model/specs/Words.antt and Steps.antt, and std's words on lists."""


def monus(a, b):
    """The difference of two natural numbers, 0 where it would be negative."""
    return a - b if a > b else 0


def slice_index(xs, i):
    return xs[i] if i < len(xs) else 0


def slice_index_or(xs, i, default):
    return xs[i] if i < len(xs) else default


def slice_set(xs, i, x):
    if i >= len(xs):
        return xs
    if isinstance(xs, list):  # the lists of spins, which have one owner each
        xs[i] = x
        return xs
    return xs[:i] + (x,) + xs[i + 1:]




def big_bytes(n, x):
    return (x % 256 ** n).to_bytes(n, "big")


def words_32(words):
    return b"".join(big_bytes(4, word) for word in words)


def words_64(words):
    return b"".join(big_bytes(8, word) for word in words)


def word_sum(x, y):
    return (x + y) % 2 ** 32


def is_set(word, k):
    return (word // 2 ** k) % 2 == 1


def one_if(test):
    return 1 if test else 0


def steps(step, start, n, s):
    for k in range(n):
        s = step(start + k, s)
    return s


def table(item, n):
    return tuple(item(k) for k in range(n))


def count_below(test, n):
    return sum(one_if(test(k)) for k in range(n))
