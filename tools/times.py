"""How many processor minutes a proof takes: a stored table, and how fast this machine is beside it.

usage: tools/times.py       says how long `./ultra --unproved` takes until the program begins

The table is tools/crate_times. `tools/prove --once --store-times` and `tools/prove --store-times`, each in a fresh tree,
make it anew. How fast a machine is, its pace, is what it took for crates by what the table says of them. It is kept in
a tree for the next call.
"""

from stamps import PROGRAM
from workspace import ROOT

TABLE = ROOT / "tools" / "crate_times"
PACE = ROOT / "crates" / PROGRAM / "out" / "pace"
# The columns of the table, in seconds: a proof by `tools/prove --once`, and one that is kept for the next.
COLUMNS = ("once", "kept")
# The row of a run without a proof.
UNPROVED = "--unproved"
# A crate that took a smaller part than this of its time in the table wasn't proved from scratch.
LEAST_PART = 0.2


def lines_of_table():
    """The lines of the table, comments too, each as its words."""
    return [it.split() for it in TABLE.read_text().splitlines()] if TABLE.is_file() else []


def pace_kept():
    """How many times as long as in the table an earlier call in this tree took, or None where there was none."""
    try:
        return float(PACE.read_text())
    except (OSError, ValueError):
        return None


class Times:
    """What crates take by a column of the table, and what those took that this call has proved."""

    def __init__(self, column):
        self.at = 1 + COLUMNS.index(column)
        rows = [it for it in lines_of_table() if it and not it[0].startswith("#")]
        self.stored = {it[0]: float(it[self.at]) for it in rows}
        self.taken = {}

    def note(self, name, seconds):
        """Notes what a crate took, where it was proved from scratch."""
        if seconds > LEAST_PART * self.stored.get(name, 0):
            self.taken[name] = seconds

    def pace(self):
        """How many times as long as in the table this machine has taken so far, or None where nobody knows."""
        known = [it for it in self.taken if it in self.stored]
        stored = sum(self.stored[it] for it in known)
        return sum(self.taken[it] for it in known) / stored if stored else pace_kept()

    def left(self, names, lanes):
        """Says how long crates take at most, if so many are proved side by side."""
        seconds = sum(self.stored.get(it, 0) for it in names) * (self.pace() or 1)
        return f"at most {minutes(seconds)} are left, {minutes(seconds / lanes, '')} on {number_of(lanes, 'processor')}"

    def keep_pace(self):
        if self.taken and self.pace() and PACE.parent.is_dir():
            PACE.write_text(f"{self.pace():.3f}\n")

    def store(self):
        """Stores what the crates took in the table. Their other column stays."""
        lines, named = lines_of_table(), set()
        for it in lines:
            if it and it[0] in self.taken:
                it[self.at] = f"{self.taken[it[0]]:.0f}"
                named.add(it[0])
        for name in self.taken.keys() - named:
            lines.append([name, *(f"{self.taken[name]:.0f}" for _ in COLUMNS)])
        TABLE.write_text("".join(" ".join(it) + "\n" for it in lines))


def number_of(count, noun):
    return f"{count} {noun}{'' if count == 1 else 's'}"


def minutes(seconds, kind="processor "):
    """Says a time in minutes, with a digit behind the point where it is short."""
    count = seconds / 60
    return f"{count:.1f} {kind}minutes" if count < 9.95 else f"{count:.0f} {kind}minutes"


def main():
    seconds = Times("once").stored.get(UNPROVED, 0) * (pace_kept() or 1)
    print(f"about {minutes(seconds)}")


if __name__ == "__main__":
    main()
