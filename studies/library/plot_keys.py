"""The tables [[plot]] of STUDY.toml: lines, distributions of latencies, and heat maps of queues."""

from dataclasses import dataclass
from math import inf

from library.expressions import Formula
from library.keys import formula, known, need, text
from library.question import QUEUE_COLUMNS

LINE = ("y", "by", "label", "where", "dashed")
DISTRIBUTION_LINE = ("of", "by", "label", "where", "dashed")
EVERY = ("kind", "name", "title", "x_label", "y_label")
KEYS = {
    "lines": (*EVERY, "x", "log", "line", *LINE),
    "distribution": (*EVERY, "log", "line", *DISTRIBUTION_LINE),
    "heat": (*EVERY, "value", "where", "label", "most"),
}
OF = ("all", "hot", "other")


@dataclass(frozen=True)
class Line:
    """One set of lines in a plot: a line for each choice of the columns `by`. Its key is where the file has it.

    In a distribution y says of which cells it shows the latencies: all, hot or other ones.
    """

    key: str
    y: str
    by: tuple
    label: str
    where: Formula | None
    is_dashed: bool


@dataclass(frozen=True)
class Plot:
    """What every plot has."""

    key: str
    name: str
    title: str
    x_label: str
    y_label: str

    def check(self, points, hot_cells):
        """Refuses a plot that can't be drawn of these points. Raises StudyFault."""


@dataclass(frozen=True)
class Lines(Plot):
    """Columns of the table against another column."""

    x: str
    log: str
    lines: tuple


@dataclass(frozen=True)
class Distribution(Plot):
    """The share of the answers that took longer, against the number of cycles."""

    log: str
    lines: tuple

    def check(self, points, hot_cells):
        for line in self.lines:
            need(line.y in OF, f"{line.key}.of", f"must be {', '.join(OF[:-1])} or {OF[-1]}")
            need(line.y == "all" or hot_cells, f"{line.key}.of", "there are no hot_cells")


@dataclass(frozen=True)
class Heat(Plot):
    """A value for each queue of the network of one point, stage by position."""

    value: Formula
    where: Formula
    label: str
    most: float | None  # the value of the darkest color; by default the greatest value

    def check(self, points, hot_cells):
        found = sum(bool(self.where.value(it)) for it in points)
        need(found == 1, f"{self.key}.where", f"must hold for one point, not for {found}")


def line_of(raw, key, y):
    """A line of a plot, in which the key `y` names what it shows."""
    by = raw.get("by", [])
    need(isinstance(by, list) and all(isinstance(it, str) for it in by), f"{key}.by", "must be a list of columns")
    where = formula(raw["where"], f"{key}.where") if "where" in raw else None
    dashed = raw.get("dashed", False)
    need(isinstance(dashed, bool), f"{key}.dashed", "must be true or false")
    shown = text(raw, y, f"{key}.{y}", "all" if y == "of" else None)
    label = text(raw, "label", f"{key}.label", ", ".join(f"{it} {{{it}}}" for it in by) or shown)
    return Line(key, shown, tuple(by), label, where, dashed)


def drawn(raw, key, y, line_keys):
    """The lines of a plot: its own, and those of its tables `line`."""
    lines = raw.get("line", [])
    need(isinstance(lines, list), f"{key}.line", "must be tables [[plot.line]]")
    found = [line_of(raw, key, y)] if y in raw or not lines else []
    for index, it in enumerate(lines):
        known(it, line_keys, f"{key}.line[{index}]")
        found.append(line_of(it, f"{key}.line[{index}]", y))
    return tuple(found)


def log_of(raw, key):
    log = text(raw, "log", f"{key}.log", "")
    need(log in ("", "x", "y", "xy"), f"{key}.log", "must be x, y or xy")
    return log


def of_columns(raw, key, every):
    x = text(raw, "x", f"{key}.x")
    lines, log = drawn(raw, key, "y", LINE), log_of(raw, key)
    return Lines(**every, **labels(raw, key, x, lines[0].y), x=x, log=log, lines=lines)


def of_latencies(raw, key, every):
    lines, log = drawn(raw, key, "of", DISTRIBUTION_LINE), log_of(raw, key)
    names = labels(raw, key, "cycles from issue to answer", "share of the answers that took longer")
    return Distribution(**every, **names, log=log, lines=lines)


def of_queues(raw, key, every, varied):
    value, where = (formula(raw.get(it), f"{key}.{it}", names) for it, names in (("value", QUEUE_COLUMNS), ("where", varied)))
    names = labels(raw, key, "position", "stage (0 is at the PEs)")
    most = raw.get("most")
    need(most is None or type(most) in (int, float) and 0 < most < inf, f"{key}.most", "must be a number above 0")
    return Heat(**every, **names, value=value, where=where, label=text(raw, "label", f"{key}.label", value.text), most=most)


def labels(raw, key, x_label, y_label):
    return {name: text(raw, name, f"{key}.{name}", it) for name, it in (("x_label", x_label), ("y_label", y_label))}


def plot_of(raw, number, varied):
    key = f"plot[{number}]"
    need(isinstance(raw, dict), key, "must be a table")
    kind = text(raw, "kind", f"{key}.kind", "lines")
    need(kind in KEYS, f"{key}.kind", "must be lines, distribution or heat")
    known(raw, KEYS[kind], key)
    name = text(raw, "name", f"{key}.name", f"plot_{number}")
    need(name.isidentifier(), f"{key}.name", "must be a name")
    every = {"key": key, "name": name, "title": text(raw, "title", f"{key}.title")}
    if kind == "heat":
        return of_queues(raw, key, every, varied)
    return (of_columns if kind == "lines" else of_latencies)(raw, key, every)


def plots_of(raw, varied):
    plots = raw.get("plot", [])
    need(isinstance(plots, list), "plot", "must be tables [[plot]]")
    found = {}
    for number, it in enumerate(plots):
        plot = plot_of(it, number, varied)
        # the pictures are named after it
        need(plot.name not in found, f"plot[{number}].name", "is that of another plot")
        found[plot.name] = plot
    return list(found.values())
