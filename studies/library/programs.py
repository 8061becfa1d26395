"""The programs of a study: loads, what `ultra lib` writes, and files, in which `$NAME` is a value of the point."""

import re
import subprocess
from dataclasses import dataclass
from string import Template

from library.keys import StudyFault
from library.load import LoadFault, program
from library.pieces import stored, sum_of
from library.question import PieceFault, output_of
from library.study_file import DEFAULT_CELLS, SETTINGS, TRAFFIC

LINE = re.compile(r"line (\d+)")


@dataclass(frozen=True)
class Source:
    """A text of a study: its key, where it comes from, and what it is. That of a file may have names to fill in."""

    key: str
    source: str
    text: str
    is_file: bool
    sum: str = ""  # of the bytes of the file

    def fault(self, line, what):
        return StudyFault(self.key, f"{self.source}: line {line}: {what}")

    def line_of(self, place):
        return self.text.count("\n", 0, place) + 1

    def names(self):
        """The names that are to be filled in, each with its first line. Raises StudyFault."""
        found = {}
        for it in Template.pattern.finditer(self.text) if self.is_file else ():
            if it["invalid"] is not None:
                raise self.fault(self.line_of(it.start()), "a $ without a name (a $ alone is written $$)")
            if it["escaped"] is None:
                found.setdefault(it["named"] or it["braced"], self.line_of(it.start()))
        return found

    def filled(self, values):
        """The text with these values in place of the names."""
        return Template(self.text).substitute(values) if self.is_file else self.text


def library_text(key, source, ultra):
    """What `ultra lib` writes."""
    ran = subprocess.run([ultra, *source.split()], capture_output=True, text=True)
    if ran.returncode:
        raise StudyFault(key, (ran.stderr.splitlines() or ["refused"])[0])
    return ran.stdout


def file_of(key, source, folder):
    try:
        path = folder / source
        return Source(key, source, path.read_text(), True, sum_of(path.read_bytes()))
    except (OSError, UnicodeDecodeError):
        raise StudyFault(key, f"cannot read {source}") from None


def sources_of(study, folder, ultra):
    """The programs of a study by their names, and what comes before each. Raises StudyFault."""
    found = {}
    for name, source in study.programs.items():
        key = f"programs.{name}"
        if source.startswith("lib "):
            found[name] = Source(key, source, library_text(key, source, ultra), False)
        else:
            found[name] = file_of(key, source, folder)
    return found, file_of("before", study.before, folder) if study.before else None


def check_names(study, sources):
    """Refuses a name in a text that nothing fills in, and a parameter that no text has."""
    used = set()
    for source in sources:
        for name, line in source.names().items():
            used.add(name)
            if name not in study.axes and name not in study.fixed and (name != "seed" or not study.seeds):
                raise source.fault(line, f"${name} is neither varied nor fixed")
    if study.seeds and sources and "seed" not in used:
        raise StudyFault("seeds", "no program has $seed")
    for table in ("fixed", "vary"):
        for name in study.parameters[table]:
            if name not in used:
                raise StudyFault(f"{table}.{name}", "unknown key")


def load_text(point):
    """The program of a load."""
    try:
        return program(**{it: point[it] for it in TRAFFIC if it in point})
    except LoadFault as fault:
        raise StudyFault(f"traffic.{fault.args[0]}", fault.args[1]) from None


def settings_text(study, point):
    """The settings of a point as TOML. Refuses a cell in `initial` that the machine doesn't have."""
    settings = {it: value for it, value in {**study.fixed, **point}.items() if it in SETTINGS}
    lines = [f"{it} = {settings[it]}\n" for it in SETTINGS if it in settings]
    if study.initial:
        stages, cells = settings["stages"], settings.get("cells", DEFAULT_CELLS)
        for address, _ in study.initial:
            if address >= 2**stages * cells:
                raise StudyFault("fixed.initial", f"there is no cell {address} where stages = {stages} and cells = {cells}")
        lines.append(f"initial = {study.initial}\n")
    return "".join(lines)


def program_text(before, source, values):
    """A program with what comes before it, each with its names filled in."""
    start = before.filled(values) if before else ""
    return start + ("\n" if start and not start.endswith("\n") else "") + source.filled(values)


def machines_of(study, sources, before, points):
    """The settings and the program of each point, as texts. A load is made once for its values."""
    loads, found = {}, []
    for point in points:
        if sources:
            text = program_text(before, sources[point["program"]], {**study.fixed, **point})
        else:
            key = tuple(point.get(it) for it in TRAFFIC)
            text = loads[key] if key in loads else loads.setdefault(key, load_text(point))
        found.append((settings_text(study, point), text))
    return found


def fault_of(before, source, message, values):
    """The fault of a program that the simulator refuses, by the line of its own file or of what comes before it."""
    line = LINE.match(message)
    lines = len(before.filled(values).splitlines()) if before else 0
    if line and lines:
        number = int(line[1])
        source, number = (before, number) if number <= lines else (source, number - lines)
        message = f"line {number}{message[line.end():]}"
    shown = [f"{it} = {values[it]}" for it in sorted(source.names())]
    return StudyFault(source.key, f"{source.source}: {message}{', where ' if shown else ''}{', '.join(shown)}")


def check_texts(study, sources, before, points, machines, folder, ultra):
    """Has the simulator read each program that is a file. One that it refuses is named by its file and line."""
    checked = set()
    for point, (_, text) in zip(points, machines) if sources else ():
        source = sources[point["program"]]
        if text in checked or not (source.is_file or before):
            continue
        checked.add(text)
        path = stored(folder, "programs", "s", text)
        try:
            output_of(ultra, ["list", path], folder)
        except PieceFault as fault:
            start = f"ultra: {path}: "
            if not str(fault).startswith(start):
                raise
            raise fault_of(before, source, str(fault).removeprefix(start), {**study.fixed, **point}) from None
