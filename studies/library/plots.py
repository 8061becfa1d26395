"""Plots of a table by gnuplot, as SVG and PNG."""

import subprocess

from library.drawn import drawn_curves, lines_of
from library.expressions import number
from library.keys import StudyFault
from library.plot_keys import Distribution, Heat

COLORS = ("#1b6ca8", "#c8553d", "#3a7d44", "#7b4b94", "#d4a017", "#4f4f4f", "#008b8b", "#a0522d")
POINTS = (4, 6, 8, 10, 12, 5, 7, 9)
HEAT = "'#f4f4f4', 0.02 '#fde6c4', 0.5 '#dd6b20', 1 '#5a1a0a'"  # what isn't zero differs from zero


def terminals(height):
    """The terminals of gnuplot by the ending of the picture; `height` is that of the SVG."""
    return {
        "svg": f"svg size 900,{height} font 'DejaVu Sans,14' background 'white'",
        "png": f"pngcairo size 1100,{height * 11 // 9} font 'DejaVu Sans,13'",
    }


def quoted(text):
    return "'" + text.replace("'", "''") + "'"


def looks(lines):
    """How each line looks. A dashed line has the color of the line with the same values of `by`, else it is black."""
    solid = [it for it in lines if not it.is_dashed]
    groups = [it.group for it in solid]
    for line in lines:
        if line.is_dashed:
            color = COLORS[groups.index(line.group) % len(COLORS)] if line.group in groups else "#000000"
            yield f"with {'steps' if line.is_curve else 'lines'} lc rgb '{color}' lw 2 dt 2"
            continue
        place = solid.index(line)
        if line.is_curve:
            yield f"with steps lc rgb '{COLORS[place % len(COLORS)]}' lw 2"
        else:
            kind = "yerrorlines" if line.has_bars() else "linespoints"
            yield f"with {kind} lc rgb '{COLORS[place % len(COLORS)]}' lw 2 pt {POINTS[place % len(POINTS)]} ps 0.9"


def axes(plot, lines):
    """The ranges and marks of the axes."""
    values = sorted({point[0] for line in lines for point in line.points})
    text = ["set logscale y 10\nset format y '%g'" if "y" in plot.log else "set yrange [0:*]\nset offsets 0, 0, graph 0.04, 0"]
    if "x" in plot.log and isinstance(plot, Distribution):
        text.append(f"set logscale x 10\nset xrange [{max(values[0], 1)}:{values[-1] * 1.05}]")
    elif "x" in plot.log:
        text.append(f"set logscale x 2\nset xrange [{values[0] * 0.95}:{values[-1] * 1.05}]")
        text.append("set xtics (" + ", ".join(f"'{it}' {it}" for it in values) + ")")
    else:
        text.append(f"set xrange [0:{values[-1] * 1.02}]")
    return text


def head(plot):
    """The title and the names of the axes."""
    return [
        f"set title {quoted(plot.title)} noenhanced", f"set xlabel {quoted(plot.x_label)} noenhanced",
        f"set ylabel {quoted(plot.y_label)} noenhanced", "set border 3", "set tics nomirror",
    ]


def outputs(plot, drawn, height):
    """The lines that draw the same into NAME.svg and NAME.png."""
    text = []
    for ending, terminal in terminals(height).items():
        text.append(f"set terminal {terminal}\nset output {quoted(f'{plot.name}.{ending}')}\n{drawn}")
    return text


def block(name, points):
    return f"${name} << END\n" + "".join(" ".join(map(str, it)) + "\n" for it in points) + "END"


def script(plot, lines):
    """The gnuplot script that draws the lines."""
    text = [block(f"line{index}", line.points) for index, line in enumerate(lines)]
    text += [
        *head(plot), "set grid lt 1 lw 1 lc rgb '#dddddd'",
        "set key below noenhanced Left reverse spacing 1.2 maxcols 2 width 2", *axes(plot, lines),
    ]
    parts = []
    for index, (line, look) in enumerate(zip(lines, looks(lines))):
        parts.append(f"$line{index} using {'1:2:3' if line.has_bars() else '1:2'} {look} title {quoted(line.label)}")
    return "\n".join([*text, *outputs(plot, "plot " + ", \\\n    ".join(parts), 560)]) + "\n"


def places_of(heat, queues):
    """The position, the stage and the value of each queue of the point that a heat map shows."""
    found = []
    for row in queues:
        if heat.where.value({it: number(row[it]) for it in heat.where.names}):
            value = heat.value.value({it: number(row[it]) for it in heat.value.names})
            if not isinstance(value, (int, float)):
                raise StudyFault(f"{heat.key}.value", "can't be calculated")
            found.append((int(row["position"]), int(row["stage"]), value))
    return found


def heat_script(heat, places):
    """The gnuplot script of a heat map. The stages are drawn upward, from the PEs to the memory."""
    positions, stages = (max(it[axis] for it in places) + 1 for axis in (0, 1))
    text = [
        block("map", places), *head(heat), f"set xrange [-0.5:{positions - 0.5}]", f"set yrange [-0.5:{stages - 0.5}]",
        f"set ytics 0,1,{stages - 1}", f"set palette defined (0 {HEAT})", f"set cblabel {quoted(heat.label)} noenhanced",
        f"set cbrange [0:{heat.most or max(it[2] for it in places) or 1}]", "set tics out",
    ]
    return "\n".join([*text, *outputs(heat, "plot $map using 1:2:3 with image pixels notitle", 360)]) + "\n"


def run_gnuplot(name, folder):
    """Draws the pictures of NAME.gp. None is left where that fails: half a picture would pass for a whole one."""
    try:
        ran = subprocess.run(["gnuplot", f"{name}.gp"], cwd=folder, capture_output=True, text=True)
        if ran.returncode:
            lines = [it for it in ran.stderr.splitlines() if it.strip()] or ["gnuplot failed"]
            raise StudyFault(f"plot {name}", lines[-1].strip())
    except FileNotFoundError:
        raise
    except BaseException:
        for ending in ("svg", "png"):
            (folder / f"{name}.{ending}").unlink(missing_ok=True)
        raise


def scripts(study, rows, histograms, queues):
    """The gnuplot script of each plot, by its name."""
    found = {}
    for plot in study.plots:
        if isinstance(plot, Heat):
            found[plot.name] = heat_script(plot, places_of(plot, queues))
        else:
            drawn = drawn_curves(plot, rows, histograms) if isinstance(plot, Distribution) else lines_of(plot, rows)
            found[plot.name] = script(plot, drawn)
    return found


def draw(texts, folder):
    """Draws each script into the folder. False where there is no gnuplot. Raises StudyFault."""
    for name, text in texts.items():
        (folder / f"{name}.gp").write_text(text)
        try:
            run_gnuplot(name, folder)
        except FileNotFoundError:
            return False
    return True
