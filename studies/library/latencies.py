"""Histograms of latencies: how many requests took how many cycles."""

from collections import Counter


def text_of(histogram):
    """A histogram as a text, from the least latency on."""
    return " ".join(f"{latency}:{histogram[latency]}" for latency in sorted(histogram))


def histogram_of(text):
    return Counter({int(latency): int(count) for latency, count in (it.split(":") for it in text.split())})


def percentile(histogram, percent):
    """The least latency that so many percent of the requests don't exceed. None without a request."""
    passed, wanted = 0, percent * histogram.total()
    for latency in sorted(histogram):
        passed += histogram[latency]
        if passed * 100 >= wanted:
            return latency
    return None


def mean(histogram):
    """The mean with three decimals, rounded down, as the measure `latency_mean`; empty without a request."""
    count = histogram.total()
    if count == 0:
        return ""
    thousandths = sum(latency * it for latency, it in histogram.items()) * 1000 // count
    return f"{thousandths // 1000}.{thousandths % 1000:03}"


def shares_above(histogram):
    """Pairs of a latency and the share of the requests that took longer, from where all did on."""
    left = count = histogram.total()
    found = [(min(histogram) - 1, 1.0)] if histogram else []
    for latency in sorted(histogram):
        left -= histogram[latency]
        found.append((latency, left / count))
    return found
