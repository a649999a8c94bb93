"""Errors of a mean over reports: over the disorder, and over the seeds of one disorder."""
import math


FEW_BLOCKS = 16


def few_blocks(count):
    """The line that is told below errors over few blocks, else none: an error over n is that of a standard deviation of
    Gaussian values, uncertain by a part 1 / sqrt(2 n - 2)."""
    if not 2 <= count < FEW_BLOCKS:
        return None
    return (f"errors are over {count} blocks, and are themselves uncertain by {(2 * count - 2) ** -0.5:.0%}: "
            f"take {FEW_BLOCKS} or more for a result")


def print_few(count):
    line = few_blocks(count)
    if line:
        print(line)


def deviation(values):
    """The standard deviation of a list of values, None of fewer than two."""
    if len(values) < 2:
        return None
    mean = math.fsum(values) / len(values)
    return math.sqrt(math.fsum((value - mean) ** 2 for value in values) / (len(values) - 1))


def standard_error(values):
    """Of the mean of a list of values; None of fewer than two."""
    apart = deviation(values)
    return None if apart is None else apart / math.sqrt(len(values))


def errors_of(values, blocks):
    """A mean over reports, and its errors over the disorder and over the seeds; `blocks` has of each report the number
    of its couplings file, where it is known that reports have one."""
    if blocks is None:
        return math.fsum(values) / len(values), standard_error(values), None
    files = [[value for value, block in zip(values, blocks) if block == number] for number in sorted(set(blocks))]
    means, errors = [math.fsum(own) / len(own) for own in files], [standard_error(own) for own in files]
    of_seeds = None if None in errors else math.hypot(*errors) / len(files)
    return math.fsum(means) / len(means), standard_error(means), of_seeds
