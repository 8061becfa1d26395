"""What the scripts that test share: the program, calls with a time limit, the count of cases, and the last line.

A part of the test command ends with the line 'N passed, M failed', and with status 0 only where N isn't 0 and M is.
"""

import os
import signal
import subprocess
import sys
from contextlib import suppress
from pathlib import Path

ROOT = Path(__file__).resolve().parent.parent
# The program that is tested: what the variable ULTRA names, or as it is built.
PROGRAM = Path(os.environ.get("ULTRA", ROOT / "crates" / "ultra" / "out" / "ultra")).absolute()
# How long a call may take, where no other limit is given.
SECONDS = 120
# The status of a part that can't run on this machine, whose last line is then 'left out: WHY'.
LEFT_OUT = 77
# This variable names a file, to which each part adds the files of tests that it has read.
FILES_READ = "FILES_READ"


def start(main):
    """Calls `main` with the arguments, and ends with its status. A signal to end raises, so what is open is closed."""
    for it in (signal.SIGTERM, signal.SIGINT, signal.SIGHUP):
        signal.signal(it, lambda number, _: sys.exit(128 + number))
    sys.exit(main(sys.argv[1:]))


def call(words, seconds=SECONDS, **how):
    """Runs a command as `subprocess.run` does, with its output captured where `how` says nothing else.

    After its time it is killed with all that it has started, and `subprocess.TimeoutExpired` is raised. So it is where
    this call ends early for another reason.
    """
    given = how.pop("input", None)
    how = {"stdin": subprocess.DEVNULL if given is None else subprocess.PIPE, "stdout": subprocess.PIPE,
           "stderr": subprocess.PIPE, "process_group": 0, **how}
    with subprocess.Popen(words, **how) as started:
        try:
            out, err = started.communicate(given, timeout=seconds)
        except BaseException:
            with suppress(ProcessLookupError):
                os.killpg(started.pid, signal.SIGKILL)
            raise
    return subprocess.CompletedProcess(words, started.returncode, out, err)


class Tally:
    """How many cases passed and how many failed. What is wrong with a case is printed at once."""

    def __init__(self):
        self.passed = self.failed = 0

    def count(self, name, fault=None):
        """Counts a case, which has failed where a fault is given."""
        if fault is None:
            self.passed += 1
        else:
            self.failed += 1
            print(f"{name}: {fault}", flush=True)

    def attempt(self, name, fault_of, *given):
        """Counts a case by the fault that this call finds, or None. What takes too long is a fault, too."""
        try:
            fault = fault_of(*given)
        except subprocess.TimeoutExpired as late:
            fault = f"takes more than {late.timeout} s"
        self.count(name, fault)

    def end(self):
        """Prints the last line, and gives the status."""
        return end(self.passed, self.failed)


def end(passed, failed):
    """Prints the last line of a part, and gives its status: 0 only where something passed and nothing failed."""
    print(f"{passed} passed, {failed} failed", flush=True)
    return 0 if passed and not failed else 1


def turn():
    """A number that is another one with each commit, and the same in all clones: what has its turn depends on it."""
    found = subprocess.run(["git", "rev-parse", "HEAD"], cwd=ROOT, capture_output=True, text=True)
    return int(found.stdout[:8], 16) if found.returncode == 0 else 0


def left_out(why):
    """Prints the last line of a part that can't run on this machine, and gives its status."""
    print(f"left out: {why}", flush=True)
    return LEFT_OUT


def is_built():
    """Whether the program is there. If it isn't, this prints so, and the last line."""
    if not PROGRAM.is_file():
        print(f"there is no program {PROGRAM}: ./ultra --help builds it")
        end(0, 1)
    return PROGRAM.is_file()


def note_read(*files):
    """Notes that these files of tests, in this tree, were read."""
    if FILES_READ in os.environ:
        with open(os.environ[FILES_READ], "a") as notes:
            notes.write("".join(f"{Path(it).resolve().relative_to(ROOT)}\n" for it in files))
