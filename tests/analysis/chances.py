"""Bounds of tests that draw numbers: each is passed by an estimator that is right but with the probability CHANCE.

Seeds are fixed, so a test passes always or never; CHANCE is how often it would fail for other seeds."""
import numpy as np
from scipy import stats

CHANCE = 1e-4


def normal_bound(count=1):
    """In errors that are known: how far the farthest of so many values is, or less."""
    return stats.norm.isf(CHANCE / 2 / count)


def student_bound(freedom, count=1):
    """In errors of so many degrees of freedom."""
    return stats.t.isf(CHANCE / 2 / count, freedom)


def counts(studies, share):
    """The ends between which the number of studies is that have what each has with the probability `share`."""
    return stats.binom.ppf([CHANCE / 2, 1 - CHANCE / 2], studies, share)


def are_counts(found, studies, share):
    low, high = counts(studies, share)
    return low <= found <= high


def squares(count, share=1.0):
    """The ends between which the sum of so many squares of standard normal numbers is; each of several sums has its share."""
    return stats.chi2.ppf([CHANCE * share / 2, 1 - CHANCE * share / 2], count)


def are_distances(away, freedom):
    """Whether distances from the known values are what they are for errors over freedom + 1 blocks: Student's t.

    Independent studies are along axis 0. Of each column the mean and the sum of squares of the normal scores are looked at;
    columns need not be independent.
    """
    scores = stats.norm.ppf(stats.t.cdf(np.asarray(away), freedom)).reshape(len(away), -1)
    studies, columns = scores.shape
    low, high = squares(studies, 1 / (2 * columns))
    total = (scores ** 2).sum(axis=0)
    return bool((abs(scores.mean(axis=0)) * studies ** 0.5 < normal_bound(2 * columns)).all()
                and (low < total).all() and (total < high).all())
