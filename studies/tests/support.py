"""What the tests share: where the tree is, the scripts as modules, and a study of a script in place of `ultra`."""

import contextlib
import importlib.machinery
import importlib.util
import io
import os
import shutil
import signal
import sys
import tempfile
import unittest
import unittest.mock
from collections import namedtuple
from pathlib import Path

STUDIES = Path(__file__).resolve().parent.parent
ROOT = STUDIES.parent
sys.path.insert(0, str(STUDIES))


def script(name):
    """A script of the folder studies/ as a module, without running it and without leaving a file beside it."""
    loader = importlib.machinery.SourceFileLoader(name, str(STUDIES / name))
    module = importlib.util.module_from_spec(importlib.util.spec_from_loader(name, loader))
    exec(compile(loader.get_data(loader.path), loader.path, "exec"), module.__dict__)
    return module


study = script("study")
Ran = namedtuple("Ran", "returncode stdout stderr")
SMALL = """
title = "Small"
[vary]
stages = [1, 2]
wait_places = [0, 4]
[programs]
short = "short.s"
long = "long.s"
"""


class InFolder(unittest.TestCase):
    """Tests in a new folder, with a script in place of `ultra`."""

    def setUp(self):
        self.folder = Path(tempfile.mkdtemp())
        self.addCleanup(shutil.rmtree, self.folder)
        (self.folder / "short.s").write_text("halt\n")
        (self.folder / "long.s").write_text("fence\nhalt\n")
        self.calls, self.dies = self.folder / "calls", self.folder / "dies"

    def study(self, text, *arguments, ultra=STUDIES / "tests" / "fake_ultra"):
        (self.folder / "study.toml").write_text(text)
        self.calls.write_text("")
        names = {"ULTRA": str(ultra), "FAKE_CALLS": str(self.calls), "FAKE_DIES": str(self.dies)}
        out, err = io.StringIO(), io.StringIO()
        with (unittest.mock.patch.dict(os.environ, names), contextlib.chdir(self.folder),
              contextlib.redirect_stdout(out), contextlib.redirect_stderr(err)):
            try:
                status = study.main(["study.toml", *arguments])
            except SystemExit as end:
                status = end.code
        return Ran(status, out.getvalue(), err.getvalue())

    def bare_path(self):
        """A PATH that has nothing but Python."""
        tools = self.folder / "bare"
        tools.mkdir()
        (tools / "python3").symlink_to(sys.executable)
        return unittest.mock.patch.dict(os.environ, {"PATH": str(tools)})

    def tool(self, command, body):
        """Puts a script in the place of a command. Gives the PATH that finds it first."""
        tools = self.folder / "tools"
        tools.mkdir(exist_ok=True)
        head = "#!/usr/bin/env python3\nimport os, signal, subprocess, sys\nwords = sys.argv[1:]\n"
        note = f"open({str(self.folder / f'{command}.words')!r}, 'w').write(' '.join(words))\n"
        (tools / command).write_text(head + note + body)
        (tools / command).chmod(0o755)
        return unittest.mock.patch.dict(os.environ, {"PATH": f"{tools}:{os.environ['PATH']}"})

    def words(self, command):
        """The arguments of the last call of a script in the place of a command."""
        return (self.folder / f"{command}.words").read_text()

    def catch_interrupts(self):
        """Has an interrupt end a study, also where the tests run in the background of a shell, which ignores it."""
        self.addCleanup(signal.signal, signal.SIGINT, signal.signal(signal.SIGINT, signal.default_int_handler))

    def table(self):
        return (self.folder / "out" / "results.csv").read_text().splitlines()

    def answer_files(self):
        return sorted((self.folder / "out").glob("answers/*.csv"))

    def sweeps(self):
        return [it for it in self.calls.read_text().splitlines() if it.startswith("sweep")]
