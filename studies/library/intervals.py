"""What several runs of a point say together: mean, least, greatest, and the half width of the 95 % interval."""

import math
from statistics import fmean, stdev

CONFIDENCE = 0.95
SUFFIXES = ("least", "greatest", "ci")


def share_within(t, freedom):
    """The share of Student's distribution between -t and t: Abramowitz and Stegun, 26.7.3 and 26.7.4."""
    angle = math.atan(t / math.sqrt(freedom))
    sine, cosine = math.sin(angle), math.cos(angle)
    term = total = cosine if freedom % 2 else 1.0
    for it in range(3 if freedom % 2 else 2, freedom, 2):
        term *= (it - 1) / it * cosine**2
        total += term
    if freedom % 2 == 0:
        return sine * total
    return 2 / math.pi * (angle + sine * total * (freedom > 1))


def student(freedom):
    """The t between whose negative and itself 95 % of Student's distribution are."""
    low, high = 0.0, 13.0
    while high - low > 1e-12:
        middle = (low + high) / 2
        low, high = (middle, high) if share_within(middle, freedom) < CONFIDENCE else (low, middle)
    return high


def half_width(values):
    """The half width of the 95 % interval of the mean of at least two values."""
    return student(len(values) - 1) * stdev(values) / math.sqrt(len(values))


def summary(values):
    """Mean, least, greatest, and half width of the interval. Four times None where one isn't a number."""
    if not all(isinstance(it, (int, float)) for it in values):
        return [None] * 4
    return [fmean(values), min(values), max(values), half_width(values)]
