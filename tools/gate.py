"""The test command, by the name .ci/run.

usage: .ci/run

It works on a copy of the tree. First `rt ci` proves all crates, tries the edits that must be refused, runs the tests
of the crates, and runs the program as two compilers build it. It keeps beside the toolchain what has passed on this
machine: the first run proves everything from scratch, and a later one only what has changed and the crates above that.
Then come the other parts, side by side. The commit's sum chooses one crate, whose wrong bodies are all tried, and a
share of the refused allocations and of the broken inputs.

A part has passed where it ends with status 0, and its last line says that something passed, that nothing failed, and
that it was no less than tests/counts says. What this machine can't run is named at the end, and counts for nothing.
Each file of tests has to be one that a part has read, and `rt ci` has to refuse each edit in must-fail/. The last line
counts all parts: 'N passed, M failed'.
"""

import ctypes
import os
import re
import resource
import shutil
import signal
import subprocess
import tempfile
import time
from contextlib import suppress
from dataclasses import dataclass
from pathlib import Path
from threading import Thread

from testing import FILES_READ, LEFT_OUT, ROOT, end, start, turn

PROOFS, WRONG_BODIES = "proofs", "wrong_bodies"
LAST_LINE = re.compile(r"(\d+) (?:passed|refused), (\d+) (?:failed|not)")
LEFT_OUT_LINE = re.compile(r"left out: (.*)")
# What `rt ci` says of an edit in must-fail/ that is as it should be, and what it says of one that it couldn't try.
REFUSED_EDIT = re.compile(r"^rt: must-fail (\S+): refused, as it must be", re.MULTILINE)
BAD_EDIT = re.compile(r"^.*\b(?:BAD EDIT|NOT TRIED)\b.*$", re.MULTILINE)
# The folders each of whose files has to be read by a part, and those that only a test by hand reads.
FOLDERS_OF_TESTS = re.compile(
    r"(?:tests/cases|examples|crates/[^/]+/(?:must-fail|wrong-bodies)|(?:viewer|studies)/tests)/"
)
BY_HAND = re.compile(r"viewer/tests/browser/")
# A file of these that no part notes may be a script or a program that a noted one names.
HELPERS = re.compile(r"(?:viewer|studies)/tests/(?!test_|[^/]*\.test\.js$)[^/]+")
# The folder whose files aren't read where a part is left out.
FOLDER_OF_PART = {"viewer": "viewer/tests/"}
# How long a part may take behind the proofs; each of its calls has a limit, too.
SECONDS_OF_PART = 3600
# How long the parts have to end by themselves once they are asked to.
SECONDS_TO_END = 5
SET_CHILD_SUBREAPER = 36


class Clock:
    def __init__(self):
        self.began = time.monotonic()

    def text(self, form):
        return form.format(*divmod(int(time.monotonic() - self.began), 60))


class Part:
    """A command in the copy of the tree. What it prints is shown, each line with the time, and kept as its log."""

    def __init__(self, name, words, clock, **how):
        self.name, self.lines = name, []
        self.process = subprocess.Popen(
            words, stdin=subprocess.DEVNULL, stdout=subprocess.PIPE, stderr=subprocess.STDOUT, text=True,
            encoding="utf-8", errors="replace", start_new_session=True, **how,
        )
        self._reader = Thread(target=self._read, args=[clock], daemon=True)
        self._reader.start()

    def _read(self, clock):
        for line in self.process.stdout:
            self.lines.append(line.rstrip("\n"))
            with suppress(BrokenPipeError):
                print(clock.text("{:3}:{:02} ") + self.lines[-1], flush=True)

    def wait(self, seconds=None):
        """Waits for the end of the part, or kills it after its time."""
        with suppress(subprocess.TimeoutExpired):
            self.process.wait(seconds)
        # what it has started and left would keep its output open
        self.signal(signal.SIGKILL)
        self.process.wait()
        self._reader.join(SECONDS_TO_END)

    def signal(self, number):
        """Sends a signal to the part and to what it has started, as far as that is in its session's first group."""
        with suppress(ProcessLookupError):
            os.killpg(self.process.pid, number)

    @property
    def is_running(self):
        return self.process.poll() is None

    @property
    def log(self):
        return "\n".join(self.lines)

    @property
    def last_line(self):
        return next((it for it in reversed(self.lines) if it.strip()), "")


class Parts:
    """The parts that were started in a copy of the tree. When this is closed, nothing that they started is left."""

    def __init__(self, tree, clock):
        self.tree, self.clock, self.all = tree, clock, []
        self.notes = tree.parent / "files_read"
        self.notes.touch()
        self._places = {**os.environ, "ULTRA": str(tree / "crates/ultra/out/ultra"), FILES_READ: str(self.notes)}
        # what a part leaves behind becomes a child of this process
        ctypes.CDLL(None).prctl(SET_CHILD_SUBREAPER, 1, 0, 0, 0)

    def start(self, name, *words):
        try:
            part = Part(name, words, self.clock, cwd=self.tree, env=self._places)
        except OSError as fault:
            part = Part(name, ["false"], self.clock)
            part.lines.append(str(fault))
        self.all.append(part)
        return part

    def wait(self):
        for it in self.all:
            it.wait(None if it.name == WRONG_BODIES else SECONDS_OF_PART)

    def __enter__(self):
        return self

    def __exit__(self, *_):
        for it in (signal.SIGTERM, signal.SIGINT, signal.SIGHUP):
            signal.signal(it, signal.SIG_IGN)
        for it in self.all:
            if it.is_running:
                it.signal(signal.SIGTERM)
        last = time.monotonic() + SECONDS_TO_END
        while any(it.is_running for it in self.all) and time.monotonic() < last:
            time.sleep(0.05)
        while kill_children():
            time.sleep(0.01)


def kill_children():
    """Kills all children of this process, and gives whether there were any. Their own children become its children."""
    found = False
    for file in Path("/proc").glob("[0-9]*/stat"):
        with suppress(OSError):
            process, parent = int(file.parent.name), int(file.read_text().rpartition(")")[2].split()[1])
            if parent == os.getpid():
                os.kill(process, signal.SIGKILL)
                os.waitpid(process, 0)
                found = True
    return found


def copy_tree(to):
    """Copies the files of the tree that git knows, as they are now, and gives their paths."""
    listed = subprocess.run(["git", "ls-files", "-z"], cwd=ROOT, check=True, capture_output=True, text=True).stdout
    files = [it for it in listed.split("\0") if it and os.path.lexists(ROOT / it)]
    for it in files:
        (to / it).parent.mkdir(parents=True, exist_ok=True)
        shutil.copy2(ROOT / it, to / it, follow_symlinks=False)
    return files


def run_parts(parts, crate, number):
    """Runs all parts, those that take the processors first."""
    proofs = parts.start(PROOFS, "rt", "ci")
    # The program is proved last, by one processor. The wrong bodies, which don't need it, fill the others.
    while proofs.is_running and not (parts.tree / "crates/ultra/out").is_dir():
        time.sleep(0.2)
    parts.start(WRONG_BODIES, "tests/wrong-bodies", "--built", crate)
    proofs.wait()
    # what is packed is what these proofs have passed
    log = str(parts.tree.parent / "proofs.log")
    Path(log).write_text(proofs.log)
    # these leave the processors idle half of the time, so they go beside each other
    for name, *words in (
        ("gate", "tests/gate"),
        ("edits", "tests/edits"),
        ("judge", "tests/judge"),
        ("answers", "tests/answers"),
        ("documents", "tests/documents"),
        ("wrapper", "tests/wrapper"),
        ("export", "tests/export"),
        ("package", "tests/package", "--short", "--proofs", log),
        ("viewer", "viewer/tests/run"),
        ("studies", "studies/tests/run"),
        ("real_system", "tests/real_system"),
        ("memory", "tests/memory"),
        ("refuse_memory", "tests/refuse_memory", "--turn", number),
        ("broken_inputs", "tests/broken_inputs", "--cases", "4000", "--seed", number),
    ):
        parts.start(name, *words)
    parts.wait()


@dataclass
class Least:
    """The least number of tests of a part, and how many of them may be left out on a machine that can't run them."""

    number: int
    left_out: int
    # whether it is another number in each run
    varies: bool


def stored_counts(tree):
    """The least number of tests of each part, as tests/counts has it."""
    lines = [it.partition("#")[0].split() for it in (tree / "tests/counts").read_text().splitlines()]
    return {name: least_of(*numbers) for name, *numbers in filter(None, lines)}


def least_of(number, left_out="0"):
    return Least(int(number.removesuffix("+")), int(left_out), number.endswith("+"))


class Report:
    """What became of the parts: how many tests have passed and failed, and what else is wrong. That counts as failed."""

    def __init__(self, tree, files, parts, crate):
        self.tree, self.files, self.parts, self.crate = tree, files, parts, crate
        self.passed = self.failed = 0
        self.faults, self.notes, self.left_out = [], [], []

    def judge(self):
        least = stored_counts(self.tree)
        for it in self.parts.all:
            self.judge_part(it, least.pop(it.name, None))
        self.faults += [f"tests/counts has '{it}', which is no part" for it in least]
        self.faults += [*self.faults_of_edits(), *self.faults_of_files()]

    def judge_part(self, part, least):
        """Judges a part by its status, its last line, and its number in tests/counts."""
        status, last = part.process.returncode, LAST_LINE.fullmatch(part.last_line)
        left_out = [it[1] for it in map(LEFT_OUT_LINE.fullmatch, part.lines) if it]
        self.notes += [f"left out: {part.name}: {it}" for it in left_out]
        if least and least.left_out == least.number and status == LEFT_OUT and LEFT_OUT_LINE.fullmatch(part.last_line):
            self.left_out.append(part.name)
            return
        passed, failed = map(int, last.groups()) if last else (0, 0)
        self.notes.append(f"{'FAILED: ' if failed else ''}{part.name}: {part.last_line}")
        self.passed, self.failed = self.passed + passed, self.failed + failed
        self.faults += [f"{part.name} {why}" for is_so, why in (
            (status < 0, f"was ended by signal {-status}"),
            (status > 0 and not failed, f"ended with status {status}"),
            (not last, "ended without its last line"),
            (last and not passed and not failed, "passed nothing"),
            (not least, "has no number in tests/counts"),
        ) if is_so]
        if last and least:
            self.compare(part.name, passed + failed + min(len(left_out), least.left_out), least)

    def compare(self, name, found, least):
        """Compares how many tests a part has with its number in tests/counts."""
        if found < least.number:
            self.faults.append(f"{name} has {found} tests, fewer than the {least.number} of tests/counts")
        elif found > least.number and not least.varies:
            self.notes.append(f"{name} has {found} tests: raise its {least.number} in tests/counts")

    def log_of(self, name):
        return next(it.log for it in self.parts.all if it.name == name)

    def edits(self, pattern):
        """The edits of a kind, each as `CRATE/NAME`."""
        found = (re.fullmatch(rf"crates/({pattern})/([^/]+\.edit)", it) for it in self.files)
        return [f"{it[1].partition('/')[0]}/{it[2]}" for it in found if it]

    def faults_of_edits(self):
        """What `rt ci` didn't refuse of the edits in must-fail/, and which wrong bodies nobody has judged."""
        log, judged = self.log_of(PROOFS), self.log_of(WRONG_BODIES)
        refused, bad = set(REFUSED_EDIT.findall(log)), BAD_EDIT.findall(log)
        yield from bad
        for it in self.edits("[^/]+/must-fail"):
            if it not in refused and not any(it in line for line in bad):
                yield f"rt ci didn't refuse the must-fail edit {it}"
        for it in self.edits(f"{self.crate}/wrong-bodies"):
            if it not in judged:
                yield f"tests/wrong-bodies says nothing of {it}"

    def faults_of_files(self):
        """Which files of tests no part has read."""
        read = set(self.parts.notes.read_text().splitlines())
        named = "\n".join((self.tree / it).read_text() for it in read if it.startswith(("viewer/", "studies/")))
        for it in self.files:
            is_left_out = any(it.startswith(FOLDER_OF_PART.get(name, "-")) for name in self.left_out)
            is_named = HELPERS.fullmatch(it) and Path(it).name in named
            if FOLDERS_OF_TESTS.match(it) and it not in read and not (is_left_out or is_named or BY_HAND.match(it)):
                yield f"no part has read {it}"


def main(_):
    clock = Clock()
    asked = [ROOT / "tests/wrong-bodies", "--turn"]
    crate = subprocess.run(asked, check=True, stdout=subprocess.PIPE, text=True).stdout.strip()
    with tempfile.TemporaryDirectory(prefix="ultra-gate-", ignore_cleanup_errors=True) as room:
        tree = Path(room).resolve() / "tree"
        files = copy_tree(tree)
        with Parts(tree, clock) as parts:
            run_parts(parts, crate, str(turn()))
        report = Report(tree, files, parts, crate)
        report.judge()
    print("".join(f"{it}\n" for it in [*report.notes, *(f"FAILED: {it}" for it in report.faults)]), end="")
    used = resource.getrusage(resource.RUSAGE_CHILDREN)
    print(f"processor time: {minutes(used.ru_utime)} user, {minutes(used.ru_stime)} system")
    print(clock.text("elapsed: {} min {} s"))
    return end(report.passed, report.failed + len(report.faults))


def minutes(seconds):
    return "{:.0f}m{:.3f}s".format(*divmod(seconds, 60))


if __name__ == "__main__":
    start(main)
