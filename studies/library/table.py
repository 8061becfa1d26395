"""The table of a study: a row for each point, with the values varied, the measures and the study's own columns."""

import csv
import tempfile
from pathlib import Path

from library.expressions import number, shown
from library.intervals import SUFFIXES, summary
from library.keys import StudyFault
from library.further_tables import further_columns
from library.latencies import histogram_of, mean, percentile
from library.question import output_of
from library.study_file import SETTINGS

OF_POINT = {*SETTINGS, "pes", "from"}  # measures that are the same in all runs of a point
HISTOGRAMS = ("latencies", "hot_latencies", "other_latencies")


def measures_of(ultra):
    """The names of the measures, as the simulator writes them for a program that halts at once."""
    with tempfile.TemporaryDirectory() as folder:
        (Path(folder) / "conf.toml").write_text("stages = 1\n")
        (Path(folder) / "prog.s").write_text("halt\n")
        return output_of(ultra, ["measure", "conf.toml", "prog.s", "--csv"], folder).splitlines()[0].split(",")


def latency_columns(study):
    """The columns that follow from how long requests took."""
    kinds = ["hot_", "other_"] if study.hot_cells else []
    counts = [f"{kind}{it}" for kind in kinds for it in ("answered", "latency_mean")]
    return counts + [f"{kind}p{it}" for kind in ["", *kinds] for it in study.percentiles]


def latency_values(study, answer):
    """The values of these columns from the answer to a run."""
    found = {}
    for kind in ("", "hot_", "other_"):
        if f"{kind}latencies" in answer:
            histogram = histogram_of(answer[f"{kind}latencies"])
            found |= {f"{kind}answered": str(histogram.total()), f"{kind}latency_mean": mean(histogram)}
            found |= {f"{kind}p{it}": shown(percentile(histogram, it)) for it in study.percentiles}
    return {it: found[it] for it in latency_columns(study)}


def without_interval(study):
    """The columns that have no further ones: those that are the same in all runs of a point, and `end`, a text."""
    found = OF_POINT | set(study.axes)
    for name, formula in study.columns.items():
        if formula.names <= found:
            found.add(name)
    return found | {"end"}


def further(name):
    return [f"{name}_{it}" for it in SUFFIXES]


def columns_of(study, measures):
    """The names of the columns. Raises StudyFault where two are the same, or a formula names none of those before it."""
    of_run, all_columns = list(study.axes), set(study.axes)
    single = without_interval(study)
    for name in further_columns(study):
        if name in study.axes:
            raise StudyFault(f"vary.{name}", "is a column already")

    def add(name, key):
        of_run.append(name)
        for it in [name, *(further(name) if study.seeds and name not in single else ())]:
            if it in all_columns:
                raise StudyFault(key, "is a column already" if it == name else f"{it} is a column already")
            all_columns.add(it)

    for name in [*measures, *latency_columns(study)]:
        if name not in study.axes or name not in SETTINGS:
            add(name, f"vary.{name}")
    for name, formula in study.columns.items():
        for it in sorted(formula.names - set(of_run)):
            raise StudyFault(f"columns.{name}", f"there is no column {it}")
        add(name, f"columns.{name}")
    return all_columns


def row_of(study, point, answer):
    """The row of one run."""
    if answer["to"] == "":
        where = ", ".join(f"{name} = {value}" for name, value in point.items())
        raise StudyFault("warm_up", f"the run ends before it does, where {where}")
    row = {name: shown(it) for name, it in point.items()}
    row |= {name: it for name, it in answer.items() if name not in row and name not in HISTOGRAMS}
    row |= latency_values(study, answer)
    for name, formula in study.columns.items():
        value = formula.value({it: number(row[it]) for it in formula.names})
        row[name] = shown(int(value) if isinstance(value, bool) else value)
    return row


def row_of_runs(rows, single):
    """One row for the runs of a point. A value that one run lacks is empty, and so is a text that isn't in all."""
    found = {}
    for name, first in rows[0].items():
        values = [it[name] for it in rows]
        if name in single:
            found[name] = first if set(values) == {first} else ""
        else:
            found |= zip([name, *further(name)], map(shown, summary([*map(number, values)])))
    return found


def joined(study, points, answers):
    """The rows of the points from the answers to their runs, in order."""
    runs = [point for point in points for _ in study.seeds or [1]]
    rows = [row_of(study, point, measured) for point, measured in zip(runs, answers, strict=True)]
    if not study.seeds:
        return rows
    count, single = len(study.seeds), without_interval(study)
    return [row_of_runs(rows[it:it + count], single) for it in range(0, len(rows), count)]


def write_table(file, rows):
    table = csv.DictWriter(file, list(rows[0]), lineterminator="\n")
    table.writeheader()
    table.writerows(rows)
