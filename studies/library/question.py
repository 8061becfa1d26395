"""What is asked of each run, and the answers of the simulator as texts, by their columns."""

import csv
import hashlib
import io
import subprocess
from collections import Counter
from dataclasses import dataclass

from library.latencies import text_of

QUEUE_COLUMNS = (
    "from", "to", "stage", "position", "requests", "combined", "request_queue_sum", "request_queue_most", "request_queue_full",
    "records_sum", "records_most", "full_waits", "replies", "reply_queue_sum", "reply_queue_most", "reply_queue_full",
)


class PieceFault(Exception):
    """Why a file of jobs couldn't be run, in one line."""


@dataclass(frozen=True)
class Question:
    """The measures of a run after its warm-up, how long its requests took, or what its queues held."""

    warm_up: int = 0
    hot_cells: tuple = ()
    has_latencies: bool = False
    is_of_queues: bool = False

    def name(self, simulator):
        """A name for it and for the simulator that is asked: answers to another question don't count."""
        asked = f"{self.warm_up} {self.hot_cells} {self.has_latencies} {self.is_of_queues} {simulator}"
        return hashlib.sha256(asked.encode()).hexdigest()[:16]

    def words(self):
        """The arguments of `studies/piece` that ask it."""
        found = ["--warm-up", str(self.warm_up)] if self.warm_up else []
        found += ["--hot-cells", ",".join(map(str, self.hot_cells))] if self.hot_cells else []
        return [*found, *(["--latencies"] if self.has_latencies else []), *(["--queues"] if self.is_of_queues else [])]


def output_of(ultra, arguments, folder):
    ran = subprocess.run([ultra, *arguments], cwd=folder, capture_output=True, text=True)
    if ran.returncode != 0:
        lines = ran.stderr.strip().splitlines() or [f"ultra ended with status {ran.returncode}"]
        raise PieceFault(lines[0])
    return ran.stdout


def window(asked):
    return ["--from", str(asked.warm_up)] if asked.warm_up else []


def measures(asked, ultra, folder, path, jobs, workers):
    """The measures of the jobs of a file. They are empty for a run that ends in the warm-up."""
    sizes = ["--workers", str(workers), "--at-once", str(workers)]
    table = csv.DictReader(io.StringIO(output_of(ultra, ["sweep", path, *sizes, "--measure", *window(asked)], folder)))
    found = {int(it.pop("job")): it for it in table}
    names = [it for it in table.fieldnames if it != "job"]
    return [found.get(it, dict.fromkeys(names, "")) for it in range(len(jobs))]


def latencies(asked, ultra, folder, job):
    """How many requests took how long, by the column: all, and those to hot and to other cells."""
    found = {}
    if asked.has_latencies:
        rows = csv.DictReader(io.StringIO(output_of(ultra, ["latencies", *job, *window(asked)], folder)))
        found["latencies"] = text_of({int(it["latency"]): int(it["answered"]) for it in rows})
    if asked.hot_cells:
        log = output_of(ultra, ["requests", *job], folder)
        found |= {f"{kind}_latencies": text_of(it) for kind, it in latencies_by_cell(log, asked.hot_cells, asked.warm_up).items()}
    return found


def latencies_by_cell(log, hot_cells, begin):
    """How many of the requests that were answered from a cycle on took how long, for hot and for other cells."""
    found, hot = {"hot": Counter(), "other": Counter()}, {str(it) for it in hot_cells}
    for line in log.splitlines()[1:]:
        _, _, _, cell, _, issued, answered, _ = line.split(",")
        if answered and int(answered) >= begin:
            found["hot" if cell in hot else "other"][int(answered) - int(issued)] += 1
    return found


def queues(asked, ultra, folder, job):
    """What each queue held: the rows of the simulator's table."""
    head, *rows = output_of(ultra, ["queues", *job, *window(asked)], folder).splitlines()
    if head != ",".join(QUEUE_COLUMNS):
        raise PieceFault("ultra queues has other columns")
    return {"queues": ";".join(rows)}


def answers_of(asked, ultra, folder, path, jobs, workers):
    """The answers to a question about the jobs of a file, each a dict of texts."""
    if asked.is_of_queues:
        return [queues(asked, ultra, folder, job) for job in jobs]
    measured = measures(asked, ultra, folder, path, jobs, workers)
    return [{**it, **latencies(asked, ultra, folder, job)} for it, job in zip(measured, jobs)]
