"""What the lines and curves of plots are: which rows of the table they show, and their points."""

import re
import sys
from dataclasses import dataclass

from library.expressions import number
from library.keys import StudyFault
from library.latencies import shares_above
from library.plot_keys import Heat, Lines


@dataclass(frozen=True)
class Drawn:
    """A line of a plot: its label, the values of its columns `by`, and its points from left to right.

    A point is x and y, and with error bars the half width of the interval of y. A curve of a distribution is drawn in
    steps: each share counts from its latency up to the next.
    """

    label: str
    group: tuple
    is_dashed: bool
    points: list
    is_curve: bool = False

    def has_bars(self):
        return any(len(it) > 2 for it in self.points)


NAME_IN_LABEL = re.compile(r"\{(\w+)\}")


def label_of(template, row):
    return NAME_IN_LABEL.sub(lambda it: row[it[1]], template)


def names_in(plot):
    """The names of columns in a plot, each with the key that has it."""
    found = [(f"{plot.key}.x", plot.x)] if isinstance(plot, Lines) else []
    for line in plot.lines:
        found += [(f"{line.key}.y", line.y)] if isinstance(plot, Lines) else []
        found += [(f"{line.key}.by", it) for it in line.by]
        found += [(f"{line.key}.where", it) for it in sorted(line.where.names if line.where else ())]
        found += [(f"{line.key}.label", it) for it in NAME_IN_LABEL.findall(line.label)]
    return found


def check_plots(study, columns):
    """Refuses a name in a plot that isn't a column."""
    for plot in study.plots:
        for key, name in names_in(plot) if not isinstance(plot, Heat) else ():
            if name not in columns:
                raise StudyFault(key, f"there is no column {name}")


def number_in(row, column, key):
    """The place on an axis that a row has in a column."""
    value = number(row[column])
    if isinstance(value, str) or not -sys.float_info.max <= value <= sys.float_info.max:
        raise StudyFault(key, f"the column {column} isn't numbers")
    return value


def points_of(rows, x, line):
    """The points of a line from left to right. A solid line has error bars where the table has an interval."""
    columns = [x, line.y]
    if f"{line.y}_ci" in rows[0] and not line.is_dashed:
        columns.append(f"{line.y}_ci")
    points = sorted(tuple(number_in(it, column, line.key) for column in columns) for it in rows if it[x] and it[line.y])
    if len({it[0] for it in points}) < len(points):
        raise StudyFault(f"{line.key}.by", f"a line has two points with the same {x}")
    return points


def groups_of(line, rows):
    """The rows of each of the lines, by the values of its columns `by`. A row is its number in the table."""
    groups = {}
    for index, row in enumerate(rows):
        if line.where is None or line.where.value({it: number(row[it]) for it in line.where.names}):
            groups.setdefault(tuple(row[it] for it in line.by), []).append(index)
    return groups


def lines_of(plot, rows):
    """The lines of a plot."""
    found = []
    for line in plot.lines:
        for group, chosen in groups_of(line, rows).items():
            points = points_of([rows[it] for it in chosen], plot.x, line)
            if points:
                found.append(Drawn(label_of(line.label, rows[chosen[0]]), group, line.is_dashed, points))
    if not found:
        raise StudyFault(plot.key, "has no point")
    return found


def curves_of(plot, rows):
    """The curves of a distribution, each with the number of its row in the table and the kind of its cells."""
    found = []
    for line in plot.lines:
        for group, chosen in groups_of(line, rows).items():
            if len(chosen) > 1:
                raise StudyFault(f"{line.key}.by", "a curve has more than one point of the study")
            found.append((chosen[0], line, group))
    if not found:
        raise StudyFault(plot.key, "has no point")
    return found


def steps_of(histogram, is_log):
    """The points of a curve. A share of 0 has no place on a logarithmic axis: there the curve ends at the last latency."""
    points = shares_above(histogram)
    return [*points[:-1], (points[-1][0], points[-2][1])] if is_log and points else points


def drawn_curves(plot, rows, histograms):
    """The curves of a distribution with their points."""
    return [
        Drawn(label_of(line.label, rows[row]), group, line.is_dashed, steps_of(histograms[row, line.y], "y" in plot.log), True)
        for row, line, group in curves_of(plot, rows) if histograms[row, line.y]
    ]
