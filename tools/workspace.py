"""The crates of crates.txt, and rooms in which one of them is proved beside others.

Two runs of rt in one tree wait for each other, since each locks the folders of all libraries below its crate. So each
works in its own room: a copy of a crate's sources and of the libraries that it depends on, as built so far.
"""

import os
import shutil
import sys
import time
from pathlib import Path

ROOT = Path(__file__).resolve().parent.parent
SOURCES = ("src", "specs", "proofs", "data", "args", "stdout", "stdin", "status")
# The memory that a check takes for each of its jobs, in bytes: more than most do.
MEMORY_OF_A_JOB = 3_000_000_000


def lines_listed():
    """Each crate of crates.txt, with all libraries that it names."""
    listed = {}
    for line in (ROOT / "crates.txt").read_text().splitlines():
        name, colon, used = line.partition("#")[0].partition(":")
        if colon:
            listed[name.split()[0]] = used.split()
    return listed


def crates_listed():
    """Each crate of crates.txt, with the crates of the workspace that it names."""
    listed = lines_listed()
    return {name: [it for it in used if it in listed] for name, used in listed.items()}


def libraries_of_kit(name):
    """The libraries of the kit that a crate names."""
    listed = lines_listed()
    return [it for it in listed[name] if it not in listed]


def handles_allowed():
    """The handles that the file HANDLES lets the program take."""
    return set((ROOT / "HANDLES").read_text().partition(":")[2].replace(",", " ").replace(".", " ").split())


def with_all_below(listed, names):
    """The crates named and all that they depend on, lowest first."""
    order = []

    def visit(name):
        if name not in order:
            for below in listed[name]:
                visit(below)
            order.append(name)

    for name in names:
        visit(name)
    return order


def below(listed, name):
    """All crates that this one depends on, lowest first."""
    return with_all_below(listed, [name])[:-1]


def lines_of(name, parts=("src", "specs", "proofs")):
    """The lines of a crate's sources, definitions and proofs, or of some of these parts."""
    folders = [ROOT / "crates" / name / part for part in parts]
    files = [it for folder in folders for it in folder.rglob("*") if it.is_file()]
    return sum(it.read_bytes().count(b"\n") for it in files)


def is_program(name):
    return (ROOT / "crates" / name / "src" / "main.rt").is_file()


def has_tests(name):
    return any("#[test]" in it.read_text() for it in (ROOT / "crates" / name / "src").rglob("*.rt"))


def processors():
    """How many jobs may run at once: one a processor, as memory allows."""
    memory = os.sysconf("SC_PHYS_PAGES") * os.sysconf("SC_PAGE_SIZE")
    return max(1, min(len(os.sched_getaffinity(0)), memory // MEMORY_OF_A_JOB))


def lanes_asked(words):
    """How many jobs may run at once, by the option `--jobs N` or else by the machine, and the words that follow."""
    if words[:1] == ["--jobs"] and words[1:2] and words[1].isdigit():
        return max(1, int(words[1])), words[2:]
    return processors(), words


def furnish(room, listed, name):
    """Makes a room for the crate: its sources, and the libraries that it depends on, as far as they are built."""
    shutil.rmtree(room, ignore_errors=True)
    names = [*below(listed, name), name]
    for it in names:
        source, copy = ROOT / "crates" / it, room / "crates" / it
        copy.mkdir(parents=True)
        for part in SOURCES:
            if (source / part).is_dir():
                shutil.copytree(source / part, copy / part)
            elif (source / part).is_file():
                shutil.copy2(source / part, copy / part)
        built = source / "out" / "rlib"
        if it != name and built.is_dir():
            shutil.copytree(built, copy / "out" / "rlib", copy_function=os.link)
    lines = (ROOT / "crates.txt").read_text().splitlines(True)
    (room / "crates.txt").write_text("".join(it for it in lines if it.split(":")[0] in names))
    shutil.copy2(ROOT / "HANDLES", room / "HANDLES")


class Clock:
    """Says on standard error what goes on, and how long it has taken."""

    def __init__(self):
        self.began = time.monotonic()

    def say(self, text):
        seconds = int(time.monotonic() - self.began)
        print(f"ultra: {seconds // 60}:{seconds % 60:02} {text}", file=sys.stderr, flush=True)
