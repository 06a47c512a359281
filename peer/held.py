"""The held sums of the corrector, worked out from the series of round_figures.py."""
import functools

from round_figures import applied, in_parts, position_series, velocity_series
from program import PARTS

PLACES = 9
KINDS = range(2)  # of position and of velocity


@functools.cache
def columns(points):
    """By kind the weights of the corrected point's samples in parts, newest first."""
    units = [[int(at == back) for at in range(points)] for back in range(points)]
    return [[int(in_parts(applied(series(0, points), unit))) for unit in units]
            for series in (position_series, velocity_series)]


def weighted(weights, samples):
    return sum(weight * sample for weight, sample in zip(weights, samples))


def older_parts(points, samples):
    """By kind what the newest points - 1 samples give to the next corrected point, in parts."""
    return [weighted(columns(points)[kind][1:], samples) for kind in KINDS]


def exact_words(values):
    """Values in parts as the wholes and parts of a record."""
    return [word for value in values for word in divmod(value, PARTS)]


def held_words(points, samples):
    """The held sums of an axis as they stand in a record; zero for no number of points."""
    return exact_words(older_parts(points, samples) if 1 <= points <= PLACES else [0, 0])
