"""The stamp of the program: what it was built from, by contents.

`tools/prove` writes it beside the program, and `./ultra` and `tools/package` read it. It names the toolchain, the last
line of the prover for the program, its crates, and the sum of all sources. Then come the sums of the sources, as
`sha256sum` writes them, ordered by path: the sum of these lines is that of all sources. The last line is that of the
program.
"""

import hashlib
import re

from workspace import ROOT, below, crates_listed

# The program that users run, and where it and its stamp are.
PROGRAM = "ultra"
BUILT = f"crates/{PROGRAM}/out/{PROGRAM}"
STAMP = f"{BUILT}.proved"
# What it is made from: these folders of its crates, and these files of the tree.
FOLDERS = ("src", "specs", "proofs")
LISTS = ("HANDLES", "crates.txt")
VERDICT = re.compile(r"^logic=proved .*", re.MULTILINE)
SUM_LINE = re.compile(r"([0-9a-f]{64})  (.+)")


def verdict_in(said):
    """The last line in which the prover says that a crate is proved, or an empty text where there is none."""
    return (VERDICT.findall(said) or [""])[-1]


def crates_of_program():
    return [*below(crates_listed(), PROGRAM), PROGRAM]


def sum_of(text):
    return hashlib.sha256(text).hexdigest()


def sums_of_sources():
    """A line for each source of the program, its sum and its path, ordered by path."""
    folders = [ROOT / "crates" / name / part for name in crates_of_program() for part in FOLDERS]
    files = [it for folder in folders for it in folder.rglob("*") if it.is_file()] + [ROOT / it for it in LISTS]
    paths = sorted(str(it.relative_to(ROOT)) for it in files)
    return "".join(f"{sum_of((ROOT / it).read_bytes())}  {it}\n" for it in paths)


def write(sources, toolchain, verdict):
    """Writes the stamp of the program as it is built, from sources with these lines."""
    named = {"toolchain": toolchain, "verdict": verdict, "crates": " ".join(crates_of_program())}
    head = "".join(f"{name} {text}\n" for name, text in named.items())
    new = ROOT / f"{STAMP}.new"
    program = sum_of((ROOT / BUILT).read_bytes())
    new.write_text(f"{head}sources {sum_of(sources.encode())}\n{sources}{program}  {BUILT}\n")
    new.replace(ROOT / STAMP)


def read():
    """What the stamp names, and its sums by path. Both are empty where there is no stamp."""
    file = ROOT / STAMP
    lines = file.read_text().splitlines() if file.is_file() else []
    sums = {it[2]: it[1] for it in map(SUM_LINE.fullmatch, lines) if it}
    return dict(it.split(" ", 1) for it in lines if not SUM_LINE.fullmatch(it)), sums


def fault():
    """Why the program isn't the proved one of the sources as they are, or None. Each file is read."""
    named, sums = read()
    if not (ROOT / BUILT).is_file():
        return "the program isn't built"
    if not named.get("verdict"):
        return "nothing says what the program was built from"
    sources = sums_of_sources()
    now = {BUILT: sum_of((ROOT / BUILT).read_bytes())}
    now.update((it[2], it[1]) for it in map(SUM_LINE.fullmatch, sources.splitlines()))
    changed = next((it for it in sorted({*now, *sums}) if now.get(it) != sums.get(it)), None)
    if changed:
        return f"{changed} {'is gone' if changed not in now else 'is new' if changed not in sums else 'has changed'}"
    return None if named.get("sources") == sum_of(sources.encode()) else "the stamp has another sum of all sources"
