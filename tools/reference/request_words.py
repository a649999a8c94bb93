"""The words behind a command's name: options, each at most once, and the other words in their order."""
from collections import namedtuple

# The values of the options by their names, and the other words.
Split = namedtuple("Split", "said others")


def file_word(word):
    return word if 1 <= len(word) <= 255 else None


def split_words(options, words):
    """The words by the options that a command has, each with what reads its value; None where an option is wrong."""
    said, others, rest = {}, [], list(words)
    while rest:
        word, rest = rest[0], rest[1:]
        if not word.startswith(b"--"):
            others.append(word)
            continue
        name, equals, value = word.partition(b"=")
        if not equals:
            if not rest:
                return None
            value, rest = rest[0], rest[1:]
        read = options.get(name)
        if name in said or read is None or read(value) is None:
            return None
        said[name] = read(value)
    return Split(said, others)


def is_utf_8(word):
    try:
        return bool(word.decode()) or not word
    except UnicodeDecodeError:
        return False
