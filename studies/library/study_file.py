"""STUDY.toml as values: the programs, the grid of points, the columns and the plots. Each fault names its key."""

import itertools
import tomllib
from dataclasses import dataclass, field

from library.expressions import Formula
from library.keys import StudyFault, formula, known, need, text, values
from library.plot_keys import Distribution, Heat, plots_of
from library.question import Question

# the settings of a machine and their ranges
SETTINGS = {
    "stages": (1, 6), "request_places": (2, 32), "reply_places": (4, 64), "wait_places": (0, 16), "open": (1, 8),
    "cells": (1, 4096), "cycles": (1, 1_000_000),
}
TRAFFIC = ("pattern", "rate", "think", "operation", "hot", "spread", "burst", "seed")
LOAD_NAMES = ("pattern", "operation")
LOAD_MEANS = ("rate", "think", "burst")  # these may have a fraction
DEFAULT_CELLS, DEFAULT_CYCLES = 16, 1000
TOP = (
    "title", "programs", "before", "traffic", "fixed", "vary", "where", "seeds", "warm_up", "percentiles", "hot_cells", "columns", "plot",
)
MOST_SEEDS = 100


@dataclass
class Study:
    title: str
    axes: dict  # each varied name with its values, in the order of the file
    fixed: dict
    parameters: dict  # of `fixed` and of `vary`, the names that aren't settings: programs have them
    initial: list  # pairs of a cell and its value at the start
    programs: dict  # the source of each program: a file, or the arguments of `ultra lib`
    hot_cells: list
    before: str = ""  # a file whose text comes before each program
    seeds: list = field(default_factory=list)  # those with which each point is run; empty where it is run once
    warm_up: int = 0  # the cycles at the start that aren't measured
    percentiles: list = field(default_factory=list)
    where: Formula | None = None
    columns: dict = field(default_factory=dict)
    plots: list = field(default_factory=list)

    def points(self):
        """The points of the grid that `where` lets through: each a dict of the varied names."""
        names = list(self.axes)
        grid = (dict(zip(names, it)) for it in itertools.product(*self.axes.values()))
        return [it for it in grid if self.where is None or self.where.value(it)]

    def runs(self, points):
        """The points, each with all seeds in turn."""
        return [{**point, "seed": it} for point in points for it in self.seeds] if self.seeds else points

    def question(self):
        """What is asked of each run."""
        of_each = bool(self.percentiles) or any(isinstance(it, Distribution) for it in self.plots)
        return Question(self.warm_up, tuple(self.hot_cells), has_latencies=of_each)

    def heat_points(self, points):
        """The points of which a plot shows the queues, in order."""
        drawn = [heat.where for heat in self.plots if isinstance(heat, Heat)]
        return [point for point in points if any(it.value(point) for it in drawn)]


def setting(name, value, key):
    least, most = SETTINGS[name]
    is_good = isinstance(value, int) and not isinstance(value, bool) and least <= value <= most
    need(is_good, key, f"must be {least} to {most}")
    return value


def load_values(name, value):
    """The values of a parameter of a load: numbers or names. `studies/traffic` has their ranges."""
    kinds = (str,) if name in LOAD_NAMES else (int, float) if name in LOAD_MEANS else (int,)
    fault = "must be texts" if name in LOAD_NAMES else "must be numbers"
    found = values(value, f"traffic.{name}")
    need(all(type(it) in kinds for it in found), f"traffic.{name}", fault)
    return found


def parameter(name, value, key):
    """A value that a program has in place of a name."""
    need(name.isidentifier() and name.isascii(), key, "unknown key")
    need(type(value) in (int, float, str), key, "must be a number or a text")
    need(not isinstance(value, str) or len(value.splitlines()) == 1, key, "must be one line")
    return value


def programs_of(raw):
    """The programs: each its name in the table, and where its text comes from."""
    if isinstance(raw, list):
        raw = dict(zip(values(raw, "programs"), raw))
    need(isinstance(raw, dict) and raw, "programs", "must be a list of files or a table with names")
    for name, source in raw.items():
        need(isinstance(source, str), f"programs.{name}", "must be a text")
    return raw


def axes_of(raw, programs):
    """The varied names with their values, in the order of the file."""
    axes = {}

    def add(name, its_values, key):
        need(name not in axes, key, "is a column already")
        axes[name] = its_values

    for table in raw:
        if table == "programs":
            add("program", list(programs), "vary.program")
        elif table == "traffic":
            known(raw[table], TRAFFIC, table)
            need(("rate" in raw[table]) != ("think" in raw[table]), "traffic", "give either rate or think")
            for name, it in raw[table].items():
                add(name, load_values(name, it), f"vary.{name}")
        elif table == "vary":
            need(isinstance(raw[table], dict), table, "must be a table")
            for name, it in raw[table].items():
                key, one = f"vary.{name}", setting if name in SETTINGS else parameter
                add(name, [one(name, value, key) for value in values(it, key)], key)
    return axes


def fixed_of(raw, axes):
    """The names with one value each, without `initial`."""
    fixed = raw.get("fixed", {})
    need(isinstance(fixed, dict), "fixed", "must be a table")
    fixed = {name: value for name, value in fixed.items() if name != "initial"}
    for name, value in fixed.items():
        key, one = f"fixed.{name}", setting if name in SETTINGS else parameter
        one(name, value, key)
        need(name not in axes, key, "is varied too")
    need("stages" in fixed or "stages" in axes, "fixed.stages", "is missing")
    return fixed


def initial_of(raw):
    """The cells that don't begin with 0, as pairs of an address and a value."""
    found = raw.get("fixed", {}).get("initial", [])
    is_good = isinstance(found, list) and all(isinstance(it, list) and [*map(type, it)] == [int, int] for it in found)
    need(is_good, "fixed.initial", "must be a list of pairs [address, value]")
    for address, value in found:
        need(0 <= address < 2**18, "fixed.initial", f"there is no cell {address}")
        need(0 <= value < 2**32, "fixed.initial", f"{value} isn't below 4294967296")
    need(len({address for address, _ in found}) == len(found), "fixed.initial", "has a cell twice")
    return found


def parameters_of(raw):
    """Of `fixed` and of `vary`, the names that aren't settings."""
    return {table: [it for it in raw.get(table, {}) if it not in SETTINGS and it != "initial"] for table in ("fixed", "vary")}


def hot_cells_of(raw):
    cells = raw.get("hot_cells", [])
    is_good = isinstance(cells, list) and all(type(it) is int and 0 <= it < 2**18 for it in cells)
    need(is_good, "hot_cells", "must be a list of cells")
    return cells


def seeds_of(raw, axes, fixed):
    """The seeds with which each point is run: 1 to K, or none where `seeds` isn't there."""
    if "seeds" not in raw:
        return []
    count = raw["seeds"]
    need(type(count) is int and 2 <= count <= MOST_SEEDS, "seeds", f"must be 2 to {MOST_SEEDS}")
    need("seed" not in axes and "seed" not in fixed, "seeds", "there is a seed too")
    return list(range(1, count + 1))


def warm_up_of(raw, axes, fixed):
    """The cycles at the start that aren't measured."""
    cycles = raw.get("warm_up", 0)
    most = SETTINGS["cycles"][1] - 1
    need(type(cycles) is int and 0 <= cycles <= most, "warm_up", f"must be 0 to {most}")
    for it in axes.get("cycles", [fixed.get("cycles", DEFAULT_CYCLES)]):
        need(cycles < it, "warm_up", f"isn't below cycles = {it}")
    return cycles


def percentiles_of(raw):
    """The whole percentages for which the latency is wanted that so many of the answers don't exceed."""
    found = values(raw["percentiles"], "percentiles") if "percentiles" in raw else []
    need(all(type(it) is int and 1 <= it <= 100 for it in found), "percentiles", "must be numbers from 1 to 100")
    return found


def columns_of(raw):
    columns = raw.get("columns", {})
    need(isinstance(columns, dict), "columns", "must be a table")
    for name in columns:
        need(name.isidentifier(), f"columns.{name}", "must be a name")
    return {name: formula(it, f"columns.{name}") for name, it in columns.items()}


def study_of(bytes_):
    """The study that a file describes. Raises StudyFault."""
    try:
        raw = tomllib.loads(bytes_.decode())
    except (tomllib.TOMLDecodeError, UnicodeDecodeError) as fault:
        raise StudyFault("not toml", str(fault).splitlines()[0]) from None
    known(raw, TOP, "")
    need(("programs" in raw) != ("traffic" in raw), "programs", "give either programs or traffic")
    need("before" not in raw or "programs" in raw, "before", "there are no programs")
    programs = programs_of(raw["programs"]) if "programs" in raw else {}
    axes = axes_of(raw, programs)
    fixed = fixed_of(raw, axes)
    study = Study(
        title=text(raw, "title", "title"), axes=axes, fixed=fixed, programs=programs, before=text(raw, "before", "before", ""),
        parameters=parameters_of(raw), initial=initial_of(raw), seeds=seeds_of(raw, axes, fixed),
        warm_up=warm_up_of(raw, axes, fixed), percentiles=percentiles_of(raw), hot_cells=hot_cells_of(raw), columns=columns_of(raw),
        where=formula(raw["where"], "where", axes) if "where" in raw else None,
        plots=plots_of(raw, axes),
    )
    points = study.points()
    need(points, "where", "leaves no point")
    for it in study.plots:
        it.check(points, study.hot_cells)
    return study
