"""Points as jobs, and the answers to them. A *piece* is a file of jobs that is named by its content.

A job is the paths of its settings and of its program, which are named by their content too. So an answer counts
whatever file its job was in.
"""

import csv
import hashlib
import io
import os
import tempfile
import tomllib
from dataclasses import dataclass
from pathlib import Path

from library.question import answers_of

MOST_JOBS = 256
csv.field_size_limit(2**31 - 1)  # a histogram is one field


@dataclass(frozen=True)
class Piece:
    """A file of jobs: its name, and its jobs."""

    name: str
    jobs: list


def sum_of(bytes_):
    return hashlib.sha256(bytes_).hexdigest()


def digest(text):
    return sum_of(text.encode())


def digest_of_program(ultra):
    """A digest of the simulator, since another one may give other answers. Empty where its file can't be read.

    The script `ultra` of a tree only starts the program that was built there.
    """
    path = Path(ultra).resolve()
    built = path.parent / "crates" / "ultra" / "out" / "ultra"
    try:
        return sum_of((built if path.name == "ultra" and built.is_file() else path).read_bytes())
    except OSError:
        return ""


def write(path, text):
    """Writes a file in such a way that it is there as a whole, or not at all."""
    path.parent.mkdir(parents=True, exist_ok=True)
    handle, part = tempfile.mkstemp(dir=path.parent, prefix=path.name, suffix=".part")
    try:
        with os.fdopen(handle, "w") as file:
            file.write(text)
        os.chmod(part, 0o644)
        os.replace(part, path)
    except BaseException:
        Path(part).unlink(missing_ok=True)
        raise


def stored(folder, kind, ending, text):
    """Stores a text under the name of its content, and gives its path below the folder."""
    path = f"{kind}/{digest(text)[:16]}.{ending}"
    if not (folder / path).is_file() or (folder / path).read_text() != text:
        write(folder / path, text)
    return path


def jobs_of(folder, machines):
    """Writes the settings and the programs of machines, pairs of texts. Each gives a job; some may be the same."""
    return [(stored(folder, "settings", "toml", conf), stored(folder, "programs", "s", prog)) for conf, prog in machines]


def jobs_text(jobs):
    return "\n".join(f'[[job]]\nconf = "{conf}"\nprog = "{prog}"\n' for conf, prog in jobs)


def pieces_of(folder, jobs, size, asked):
    """Writes files of at most `size` jobs for a question."""
    pieces = []
    for start in range(0, len(jobs), size):
        part = jobs[start:start + size]
        text = jobs_text(part)
        name = f"{asked}-{digest(text)[:16]}"
        path = folder / "jobs" / f"{name}.toml"
        if not path.is_file() or path.read_text() != text:
            write(path, text)
        pieces.append(Piece(name, part))
    return pieces


def answer_path(folder, name):
    return folder / "answers" / f"{name}.csv"


def rows_in(path):
    """The answers in a file: a row for each job. Empty if the file is missing, broken or half-written."""
    try:
        text = path.read_text()
    except (OSError, UnicodeDecodeError):
        return {}
    body, end, last = text.rpartition("complete,")
    if not end or last != digest(body) + "\n":
        return {}
    return {(it.pop("conf"), it.pop("prog")): it for it in csv.DictReader(io.StringIO(body))}


def answers(folder, asked):
    """All answers to a question that are there as a whole, by their jobs."""
    found = {}
    for path in sorted((folder / "answers").glob(f"{asked}-*.csv")):
        found |= rows_in(path)
    return found


def is_answered(folder, piece):
    return set(piece.jobs) <= set(rows_in(answer_path(folder, piece.name)))


def run_piece(folder, name, ultra, asked, workers):
    """Asks a question about the jobs of a file, and stores the answers."""
    path = Path("jobs") / f"{name}.toml"
    jobs = [(it["conf"], it["prog"]) for it in tomllib.loads((folder / path).read_text())["job"]]
    found = answers_of(asked, ultra, folder, str(path), jobs, workers)
    rows = [{"conf": conf, "prog": prog, **it} for (conf, prog), it in zip(jobs, found, strict=True)]
    body = io.StringIO()
    table = csv.DictWriter(body, list(rows[0]), lineterminator="\n")
    table.writeheader()
    table.writerows(rows)
    write(answer_path(folder, name), f"{body.getvalue()}complete,{digest(body.getvalue())}\n")
