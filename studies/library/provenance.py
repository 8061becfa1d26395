"""What a table was made from: `provenance.json` beside `results.csv`."""

import datetime
import json
import subprocess

from library.pieces import digest_of_program, sum_of


def files_of(folder, paths):
    """The sums of files by their paths."""
    return {path: sum_of((folder / path).read_bytes()) for path in sorted(paths)}


def seeds_of(study):
    """The seeds of the runs. That of traffic for which none is asked is 1."""
    return study.seeds or study.axes.get("seed", [1] if "rate" in study.axes or "think" in study.axes else [])


def provenance(study, given, sources, ultra, folder, jobs, tables):
    """The text of `provenance.json`.

    `given` is the study's file with its bytes, and `sources` are the texts of programs. `jobs` are the paths of settings
    and programs, `tables` those of the tables.
    """
    version = subprocess.run([ultra, "--version"], capture_output=True, text=True).stdout.strip()
    found = {
        "date": datetime.datetime.now(datetime.UTC).strftime("%Y-%m-%dT%H:%M:%SZ"),
        "study": {name: sum_of(bytes_) for name, bytes_ in given.items()},
        "results": files_of(folder, tables),
        "ultra": {"version": version, "sha256": digest_of_program(ultra)},
        "seeds": seeds_of(study),
        "sources": {it.source: it.sum for it in sources if it.is_file},
        "settings": files_of(folder, {conf for conf, _ in jobs}),
        "programs": files_of(folder, {prog for _, prog in jobs}),
    }
    return json.dumps(found, indent=1) + "\n"
