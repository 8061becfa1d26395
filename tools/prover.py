"""Crates proved from scratch, by the prover itself, over the statements of the libraries below them.

The command rt keeps what it has proved, function by function, and reads each library below a crate with its proofs. A
first run has nothing kept. So here a library holds its statements alone, and several crates are proved at once in one
tree. Nothing is kept for later changes.
"""

import hashlib
import os
import re
import shutil
import subprocess
import sys
from collections import Counter
from pathlib import Path

from stamps import sum_of, verdict_in
from workspace import ROOT, below, handles_allowed, has_tests, is_program, libraries_of_kit, with_all_below

# The words of the prover's last line for which `rt ci` refuses a crate. A test may have some of them.
REFUSED = {"foreign", "hides", "partial", "may-abort", "may-serve", "bugs"}


def folder_of_kit():
    """The folder of the toolchain. Where the command rt isn't found, nothing can be proved, so the call ends."""
    command = shutil.which("rt")
    if not command:
        print("ultra: the command rt of the Rattle toolchain is not on the path", file=sys.stderr)
        sys.exit(2)
    return Path(command).resolve().parent.parent


KIT = folder_of_kit()
# The processor seconds that the commands run here have taken, by the crate in whose folder they ran.
seconds_taken = Counter()


def toolchain():
    """The toolchain's line, as `rt version` prints it."""
    return (KIT / "KIT-ID").read_text().strip()


def library(name):
    """The path of the library of a crate."""
    return ROOT / "crates" / name / "out" / "statements" / f"{name}.rlib"


def stamp_of(listed, name):
    """A sum of all that a crate's library or program is made from: its sources, and the libraries below as they were built.

    A library below may be older than its sources, where these were edited since. Its stamp says what it was built from.
    """
    total = hashlib.sha256((KIT / "KIT-ID").read_bytes())
    total.update(repr([(it, stamp_kept(it)) for it in below(listed, name)]).encode())
    total.update(repr((name, listed[name], libraries_of_kit(name))).encode())
    folders = [ROOT / "crates" / name / part for part in ("src", "specs", "proofs")]
    for file in sorted(it for folder in folders for it in folder.rglob("*") if it.is_file()):
        total.update(repr((str(file.relative_to(ROOT)), file.read_bytes())).encode())
    return total.hexdigest()


def stamp_file(name):
    """Where the sum is kept of what a library or program was built from."""
    return library(name).parent / "stamp"


def verdict_file(name):
    """Where the sum of a program is kept as it was built, and the last line of the prover for it."""
    return library(name).parent / "verdict"


def verdict_kept(name):
    """The last line of the prover for a program, or an empty text where it isn't the one that was proved."""
    file = verdict_file(name)
    total, _, verdict = file.read_text().partition("\n") if file.is_file() else ("", "", "")
    is_same = product(name).is_file() and sum_of(product(name).read_bytes()) == total
    return verdict if is_same and not refusal(verdict) else ""


def stamp_kept(name):
    """The sum of what a library or program was built from, or `none` where none is built."""
    file = stamp_file(name)
    return file.read_text() if file.is_file() else "none"


def product(name):
    """The path of the library or program that a crate is built as."""
    return ROOT / "crates" / name / "out" / name if is_program(name) else library(name)


def is_current(listed, name):
    """Whether a crate's library or program is built from its sources of now, over the libraries below as they are built."""
    is_whole = verdict_kept(name) if is_program(name) else product(name).exists()
    return bool(is_whole) and stamp_kept(name) == stamp_of(listed, name)


def crates_built(listed, names):
    """Those of the crates named and of all below them that are built from the sources of now: their own and those below."""
    built = set()
    for name in with_all_below(listed, names):
        if built.issuperset(listed[name]) and is_current(listed, name):
            built.add(name)
    return built


def words_for(listed, name, jobs, library):
    """The arguments with which the prover is called for a crate, given the path of the library of each crate below."""
    words = ["--crate-name", name, "src/main.rt" if is_program(name) else "src/lib.rt"]
    for it in ["std", *libraries_of_kit(name)]:
        words += ["--extern", f"{it}={KIT}/rlibs/{it}.rlib"]
    words += ["-L", f"dependency={KIT}/rlibs"]
    for it in listed[name]:
        words += ["--extern", f"{it}={library(it)}"]
    for it in below(listed, name):
        words += ["-L", f"dependency={library(it).parent}"]
    words += ["--antt-project", f"{KIT}/rattle/logic/antt-project.json", "--logic-built", f"{KIT}/logic_built"]
    return [*words, "--jobs", str(jobs), "--links", f"{name}="]


def run(folder, words, gives_way=False):
    """Runs a command, which may give way to others, and gives whether it ended well and what it said."""
    words = ["nice", *words] if gives_way else words
    ran = subprocess.Popen(
        [str(it) for it in words], cwd=folder, stdin=subprocess.DEVNULL, stdout=subprocess.PIPE,
        stderr=subprocess.STDOUT, text=True, errors="replace",
    )
    with ran.stdout:
        said = ran.stdout.read()
    # unlike `wait`, this says what the command took
    _, status, used = os.wait4(ran.pid, 0)
    ran.returncode = os.waitstatus_to_exitcode(status)
    seconds_taken[folder.name] += used.ru_utime + used.ru_stime
    return ran.returncode == 0, said


def prove(listed, name, jobs, gives_way=False):
    """Proves one crate and builds its library or program, and gives whether it is proved and what was said.

    The crates below it have been proved before. The tests of a crate are proved, built and run too. Where it gives way,
    its proof leaves the processors to others.
    """
    if is_current(listed, name):
        return True, ""
    folder, stamp, now = ROOT / "crates" / name, stamp_file(name), stamp_of(listed, name)
    # first the stamp, so that a call which is killed leaves none beside half a library
    stamp.unlink(missing_ok=True)
    shutil.rmtree(stamp.parent, ignore_errors=True)
    stamp.parent.mkdir(parents=True)
    words = words_for(listed, name, jobs, library)
    build = build_program if is_program(name) else build_library
    is_well, said = build(folder, product(name), words, gives_way)
    if is_well and is_program(name):
        verdict_file(name).write_text(f"{sum_of(product(name).read_bytes())}\n{verdict_in(said)}")
    if is_well and refusal(said):
        remove(product(name))
        return False, said + refusal(said)
    if is_well and has_tests(name):
        tests = folder / "out" / f"{name}_tests"
        is_well, said = build_program(folder, tests, [*words, "--test"], gives_way)
        if is_well:
            is_well, said = run(folder, [KIT / "bin" / "rattle-test", "--seconds", "60", tests])
    # after an edit in the meantime nobody knows which text was proved
    if is_well and now == stamp_of(listed, name):
        stamp.write_text(now)
    return is_well, said


def refusal(said):
    """A line on what `rt ci` refuses in a crate that is proved and isn't a test's, or an empty text where that is nothing.

    For example, a function that may end the process is proved up to that alone.
    """
    lines = re.findall(r"^logic=proved .*", said, re.MULTILINE)
    words = [it.partition("=")[::2] for line in lines for it in line.split()]
    handles = {it for word, value in words if word == "main" for it in value.split("+") if it}
    handles |= {"Wait" for word, _ in words if word == "may-wait"}
    found = sorted(({word for word, _ in words} & REFUSED) | (handles - handles_allowed()))
    return f"ultra: rt ci refuses this crate, for its last line has {', '.join(found)}" if found else ""


def remove(built):
    """Removes what was built of a crate that is refused, so that nobody takes it for proved."""
    if built.is_dir():
        shutil.rmtree(built)
    else:
        built.unlink(missing_ok=True)


def build_library(folder, built, words, gives_way):
    return run(folder, [KIT / "bin" / "rattle", "build", *words, "--statements", "-o", built], gives_way)


def build_program(folder, built, words, gives_way):
    """Proves and links a program, or the tests of a crate, which are a program too."""
    toolchain, code = ["--toolchain", KIT / "toolchain"], built.with_suffix(".o")
    proof = [KIT / "bin" / "rattle", "build", *words, *toolchain, "--backend", "llvm", "-o", code]
    is_proved, said = run(folder, proof, gives_way)
    if not is_proved:
        return False, said
    system = [KIT / "c" / "libos_c.a", KIT / "c" / "liblibc_c.a"]
    link = [KIT / "bin" / "rattle-link", "--target", "x86_64-unknown-linux-gnu", *toolchain, "-o", built, code, *system]
    is_linked, more = run(folder, link)
    return is_linked, said + more
