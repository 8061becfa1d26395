"""What plots show beside the table: the latencies and the queues of the points that are drawn, as tables of their own."""

from collections import Counter
from statistics import fmean

from library.expressions import number, shown
from library.latencies import histogram_of
from library.plot_keys import Distribution, Heat
from library.question import QUEUE_COLUMNS

LATENCY_COLUMNS = ("of", "latency", "answered")
KINDS = {"all": "latencies", "hot": "hot_latencies", "other": "other_latencies"}


def has(study, kind):
    return any(isinstance(it, kind) for it in study.plots)


def further_columns(study):
    """The columns that the other tables have beside the varied names."""
    return [*(LATENCY_COLUMNS if has(study, Distribution) else ()), *(QUEUE_COLUMNS if has(study, Heat) else ())]


def of_points(study, answers):
    """The answers to the runs of each point, which is one without seeds."""
    count = len(study.seeds) or 1
    return [answers[it:it + count] for it in range(0, len(answers), count)]


def histograms_of(study, answers, curves):
    """The latencies of all runs of a point together, for pairs of the number of a point and a kind of cells."""
    runs = of_points(study, answers)
    return {(row, kind): sum((histogram_of(it[KINDS[kind]]) for it in runs[row]), Counter()) for row, kind in curves}


def latency_rows(points, histograms):
    """A row for each latency of each histogram, which are named by the number of the point and by the kind."""
    return [
        {**{name: shown(it) for name, it in points[index].items()}, "of": kind, "latency": latency, "answered": found[latency]}
        for (index, kind), found in sorted(histograms.items())
        for latency in sorted(found)
    ]


def queue_rows(study, points, answers):
    """A row for each stage and position of each point. It has the mean of the runs."""
    rows = []
    for point, runs in zip(points, of_points(study, answers), strict=True):
        tables = [[[*map(number, row.split(","))] for row in it["queues"].split(";")] for it in runs]
        for same_place in zip(*tables, strict=True):
            values = same_place[0] if len(runs) == 1 else [mean(it) for it in zip(*same_place)]
            rows.append({name: shown(it) for name, it in point.items()} | dict(zip(QUEUE_COLUMNS, map(shown, values))))
    return rows


def mean(values):
    """The mean of values; the value itself where all are the same."""
    return values[0] if len(set(values)) == 1 else fmean(values)
