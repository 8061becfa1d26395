"""What the scripts that measure this simulator beside another one share."""

import os
import resource
import subprocess
import sys
from pathlib import Path
from statistics import geometric_mean

HERE = Path(__file__).resolve().parent
sys.path.insert(0, str(HERE.parent / "tools"))

from testing import PROGRAM

BENCH = HERE / "../crates/bench/out/bench"
# the most cycles that settings may ask for
MOST_CYCLES = 1_000_000


def build():
    """Proves and builds the program `bench`."""
    ran = subprocess.run([HERE / "../tools/prove", "--once", "bench"], capture_output=True, text=True)
    if ran.returncode:
        sys.exit("\n".join((ran.stdout + ran.stderr).splitlines()[-20:]))


def compare(simulator, *words):
    """Ends the script where another simulator doesn't write what this one does."""
    mine, other = (subprocess.run([it, *words], stdout=subprocess.PIPE) for it in (PROGRAM, simulator))
    if mine.returncode or not mine.stdout:
        sys.exit(f"{PROGRAM} ends with status {mine.returncode}: {' '.join(map(str, words))}")
    if (mine.returncode, mine.stdout) != (other.returncode, other.stdout):
        sys.exit(f"{simulator} doesn't write what {PROGRAM} does: {' '.join(map(str, words))}")


def compare_in_rows(rows, simulator, folder):
    """Compares what another simulator writes for each row, if there is one."""
    for row in rows if simulator else []:
        row.compare(simulator, folder)


def processor_seconds(command):
    """The processor seconds that a command takes."""
    before = seconds_of_children()
    subprocess.run(command, check=True, stdout=subprocess.DEVNULL)
    return seconds_of_children() - before


def seconds_of_children():
    used = resource.getrusage(resource.RUSAGE_CHILDREN)
    return used.ru_utime + used.ru_stime


def measure_in_rounds(rows, simulator, folder):
    """Measures all rows, several times.

    A round goes through all of them, so a minute in which the machine is slow spoils one round of some rows, and no row.
    """
    for _ in range(int(os.environ.get("ROUNDS", "10"))):
        for row in rows:
            row.measure(simulator, folder)


def print_table(head, rows, simulator):
    """Prints a table, and with another simulator the mean of the ratios and the lowest."""
    print(head)
    print(*rows, sep="\n")
    if simulator:
        ratios = [it.ratio for it in rows]
        print(f"geometric mean {geometric_mean(ratios):.3f}, lowest {min(ratios):.2f}")
