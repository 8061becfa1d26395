"""tests/cluster: what it refuses, and that it ends what it started. The rest of it needs root, hosts and Slurm."""

import subprocess
import sys
import unittest
import unittest.mock

from support import ROOT, script

cluster = script("../tests/cluster")


class Cluster(unittest.TestCase):
    def test_an_unknown_word(self):
        ran = subprocess.run([ROOT / "tests" / "cluster", "slurm", "cloud"], capture_output=True, text=True)
        self.assertEqual((ran.returncode, ran.stdout), (2, ""))
        self.assertIn("\nusage: tests/cluster [parallel] [slurm]\n", ran.stderr)

    def test_where_slurm_does_not_answer_all_processes_are_ended(self):
        room = cluster.Room()
        (room.folder / "slurm").mkdir()
        (room.folder / "slurm" / "slurm.conf").write_text("")
        room.start(sys.executable, "-c", "import time; time.sleep(60)")
        with unittest.mock.patch.object(room, "call", side_effect=subprocess.TimeoutExpired("scancel", 300)):
            room.close()
        self.assertFalse(room.folder.exists())


if __name__ == "__main__":
    unittest.main()
