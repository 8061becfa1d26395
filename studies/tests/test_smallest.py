"""The smallest studies, by the program itself: their tables are the ones beside them."""

import os
import shutil
import subprocess
import tempfile
import unittest
from pathlib import Path

from support import ROOT, STUDIES

BUILT = ROOT / "crates" / "ultra" / "out" / "ultra"


@unittest.skipUnless("ULTRA" in os.environ or BUILT.is_file(), "the program isn't built: ./ultra --help builds it")
class Smallest(unittest.TestCase):
    def check(self, name):
        folder = tempfile.mkdtemp()
        self.addCleanup(shutil.rmtree, folder)
        environment = {"ULTRA": str(BUILT), **os.environ}
        ran = subprocess.run(
            [STUDIES / "study", STUDIES / name / "study.toml", "--out", folder], env=environment, capture_output=True, text=True,
        )
        self.assertEqual(ran.returncode, 0, ran.stderr)
        found = (Path(folder) / "results.csv").read_bytes()
        self.assertEqual(found, (STUDIES / name / "results.csv").read_bytes())

    def test_coordination(self):
        self.check("coordination")

    def test_passable(self):
        self.check("passable")


if __name__ == "__main__":
    unittest.main()
