"""The generator: spin_model/specs/Stream.antt."""
from functools import lru_cache

from reference.words import slice_index, word_sum


def shifted(window):
    return window[1:] + (word_sum(slice_index(window, 37), slice_index(window, 6)),)


class Windows:
    """The windows advanced(w, 0), advanced(w, 1), .. of one list of words, each made once."""

    def __init__(self, w):
        self.list = [w]

    def at(self, n):
        while len(self.list) <= n:
            self.list.append(shifted(self.list[-1]))
        return self.list[n]


@lru_cache(maxsize=512)
def windows(w):
    return Windows(w)


def advanced(w, n):
    return windows(w).at(n)


def stream_word(w, k):
    return slice_index(advanced(w, k), 0)


def draw(w, n):
    return stream_word(w, 61 + n) ^ stream_word(w, n)


def draws(w, n):
    return tuple(draw(w, k) for k in range(n))
