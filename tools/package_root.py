"""The package in a fresh Debian: installed, tried by a user who isn't root, and removed. For tests/package, as root.

The root is made by mmdebstrap from the packages of the system alone. What is done in it is shown as a transcript.
"""

import os
import re
import shutil
import subprocess
import tempfile
import time
from pathlib import Path

from testing import ROOT, call

SUITE = "bookworm"
# What a user may have who looks at traces, reads manual pages and runs studies.
WITH = ["python3", "man-db", "bash-completion", "chromium", "gnuplot-nox", "fonts-dejavu-core"]
USER = "visitor"
HOME = f"/home/{USER}"
SECONDS = 1800


class Root:
    """A folder with a fresh Debian, which is made where it isn't there."""

    def __init__(self, folder):
        self.folder = folder
        self.mounts = ("proc", "dev")

    def __enter__(self):
        if not (self.folder / "usr").is_dir():
            words = ["mmdebstrap", "--variant=minbase", "--mode=root", f"--include={','.join(WITH)}", SUITE, self.folder]
            print("#", *words, flush=True)
            made = call([str(it) for it in words], SECONDS, text=True)
            if made.returncode:
                raise AssertionError(f"mmdebstrap: {made.stderr}")
        for it in self.mounts:
            call(["mount", "--bind", f"/{it}", self.folder / it]).check_returncode()
        return self

    def __exit__(self, *_):
        for it in self.mounts:
            call(["umount", self.folder / it])

    def run(self, command, user="root", folder="/"):
        """Runs a command of bash in the root, shows it with what it says, and gives that and its status."""
        inside = f"cd {folder} && {command}"
        switch = [] if user == "root" else ["setpriv", f"--reuid={user}", f"--regid={user}", "--clear-groups"]
        home = "/root" if user == "root" else HOME
        places = {"PATH": "/usr/local/bin:/usr/bin:/bin:/usr/sbin:/sbin", "HOME": home, "LANG": "C.UTF-8", "TERM": "dumb",
                  "USER": user, "DEBIAN_FRONTEND": "noninteractive"}
        words = ["chroot", str(self.folder), *switch, "bash", "-c", inside]
        ran = call(words, SECONDS, env=places, text=True, stderr=subprocess.STDOUT, errors="replace")
        print(f"{'#' if user == 'root' else '$'} {command}\n{ran.stdout}", end="", flush=True)
        return ran.stdout, ran.returncode

    def files(self):
        """All files of the root but those of its logs and of the system's kernel."""
        skipped = {"proc", "dev", "sys", "run", "tmp"}
        found = set()
        for top in sorted(self.folder.iterdir()):
            if top.name not in skipped:
                found |= {str(it.relative_to(self.folder)) for it in [top, *top.rglob("*")] if not it.is_dir() or it.is_symlink()}
        # what the system notes of packages, and of users that come and go
        notes = r"var/(log|cache|lib/(dpkg|apt|systemd|man-db))/|etc/(ld.so.cache|passwd|group|g?shadow|sub[ug]id)"
        return {it for it in found if not re.match(notes, it)}


def fault_of_install(root, deb):
    """Whether the package can't be installed, or the first trace takes more than seconds from there on."""
    shutil.copy(deb, root.folder / "tmp" / deb.name)
    root.run(f"useradd --create-home --shell /bin/bash {USER}")
    if root.run("command -v rt rattle cc gcc")[0]:
        return "there is a toolchain"
    began = time.monotonic()
    _, status = root.run(f"dpkg --install /tmp/{deb.name}")
    commands = "cp -r /usr/share/ultra/examples . && cd examples/combined_pair && ultra run conf.toml prog.s > trace.txt"
    _, ran = root.run(commands, USER, HOME)
    seconds = time.monotonic() - began
    print(f"(from the package to the first trace: {seconds:.1f} s)")
    trace = root.folder / HOME.lstrip("/") / "examples/combined_pair/trace.txt"
    is_whole = trace.is_file() and trace.read_text() == (ROOT / "examples/combined_pair/expected").read_text()
    return None if status == ran == 0 and is_whole and seconds < 30 else f"status {status} and {ran}, after {seconds:.1f} s"


def fault_of_tour(root, shown):
    """Whether a command of the README answers something else to a user in another folder."""
    for _, command, lines in shown.shown((root.folder / "usr/share/doc/ultra/README.md").read_text()):
        printed, _ = root.run(command, USER, HOME)
        if not shown.agrees(printed, lines):
            return f"'{command}' prints:\n{printed}"
    return None


def fault_of_manual(root):
    """Whether a manual page can't be read."""
    text, status = root.run("MANWIDTH=80 man ultra-run | col -b | head -n 24", USER, HOME)
    return None if status == 0 and "ultra run [OPTIONS] <CONF> <PROG>" in text else "there is no page"


def fault_of_completion(root):
    """Whether an interactive bash doesn't complete a word."""
    script = "source /usr/share/bash-completion/bash_completion; _completion_loader ultra; COMP_WORDS=(ultra me); " \
             "COMP_CWORD=1; _ultra; echo ${COMPREPLY[@]}"
    return None if root.run(f"bash -c '{script}'", USER, HOME)[0] == "measure\n" else "it completes nothing"


def fault_of_page(root):
    """Whether Chromium doesn't show the page of traces, or the page draws nothing."""
    browser = "chromium --headless=new --no-sandbox --disable-gpu --virtual-time-budget=8000 --dump-dom"
    root.run(f"printf '#!/bin/sh\\nexec {browser} \"file://$1\" 2>/dev/null\\n' > show && chmod +x show", USER, HOME)
    # only a page that has read the trace and drawn the machine has these
    command = "BROWSER=$PWD/show ultra-view examples/combined_pair/trace.txt | grep -o '<text[^>]*>[^<]*</text>' | head -n 8"
    text, _ = root.run(command, USER, HOME)
    return None if "PE 1</text>" in text and "module 1</text>" in text else "the page shows no machine"


def fault_of_study(root):
    """Whether the smallest study has another table than the one that is packed."""
    study = "/usr/share/ultra/studies/coordination"
    command = f"ultra-study {study}/study.toml --out study && cmp study/results.csv {study}/results.csv && ls study"
    text, status = root.run(command, USER, HOME)
    return None if status == 0 and "turns.svg" in text else "the study failed"


def fault_of_removal(root, before):
    """Whether anything of the package is left once it is removed."""
    root.run("dpkg --purge ultra")
    root.run(f"userdel --remove {USER}")
    left = sorted(root.files() - before)
    print("".join(f"{it} is left\n" for it in left), end="")
    return f"this is left: {left[:20]}" if left else None


def try_root(tally, deb, shown, made):
    """Installs the package in a fresh root, or in one that was made before, tries it there, and removes it."""
    if os.geteuid() or not (made or shutil.which("mmdebstrap")):
        print("left out: a fresh Debian: this needs mmdebstrap, and to be root")
        return
    with tempfile.TemporaryDirectory(prefix="ultra-root-") as folder:
        room = made or Path(folder) / "root"
        Path(folder).chmod(0o755)
        with Root(room) as root:
            before = root.files()
            tally.attempt("install it", fault_of_install, root, deb)
            tally.attempt("the tour of a user", fault_of_tour, root, shown)
            tally.attempt("read a manual page", fault_of_manual, root)
            tally.attempt("complete a word", fault_of_completion, root)
            tally.attempt("open the page in Chromium", fault_of_page, root)
            tally.attempt("run the smallest study", fault_of_study, root)
            tally.attempt("remove it", fault_of_removal, root, before)
