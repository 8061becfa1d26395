"""studies/rows: the rows and columns that it prints, and what it refuses."""

import subprocess
import tempfile
import unittest
from pathlib import Path

from support import STUDIES


TABLE = b"name,pes,mean\na,2,1.5\nlonger,4,\nb,8,10.25\n"


class Rows(unittest.TestCase):
    def rows(self, *words, table=TABLE):
        with tempfile.TemporaryDirectory() as folder:
            (Path(folder) / "t.csv").write_bytes(table)
            ran = subprocess.run([STUDIES / "rows", *words], cwd=folder, capture_output=True, text=True)
        return ran.returncode, ran.stdout, ran.stderr

    def test_rows(self):
        self.assertEqual(self.rows("t.csv", "pes > 2", "pes", "name", "mean"), (0, "pes  name    mean\n4    longer\n8    b       10.25\n", ""))
        self.assertEqual(self.rows("t.csv", "mean > 99", "name"), (0, "name\n", ""))

    def test_refusals(self):
        self.assertEqual(self.rows("t.csv", "pes >", "pes"), (2, "", "rows: FORMULA isn't a formula\n"))
        self.assertEqual(self.rows("t.csv", "pes > 1", "acts"), (2, "", "rows: there is no column acts\n"))
        self.assertEqual(self.rows("t.csv", "acts > 1", "pes"), (2, "", "rows: there is no column acts\n"))
        self.assertEqual(self.rows("none.csv", "pes > 1", "pes"), (2, "", "rows: cannot read none.csv\n"))
        self.assertEqual(self.rows("t.csv")[0], 2)

    def test_a_table_with_a_head_only(self):
        head = TABLE.splitlines()[0] + b"\n"
        self.assertEqual(self.rows("t.csv", "pes > 2", "pes", "name", table=head), (0, "pes  name\n", ""))
        self.assertEqual(self.rows("t.csv", "pes > 1", "acts", table=head), (2, "", "rows: there is no column acts\n"))
        self.assertEqual(self.rows("t.csv", "pes > 1", "pes", table=b""), (2, "", "rows: there is no column pes\n"))

    def test_what_is_not_a_table(self):
        for table in (b"\xff\xfe\0\1", b"pes\n" + b"1" * 200_000 + b"\n"):
            self.assertEqual(self.rows("t.csv", "pes > 1", "pes", table=table), (2, "", "rows: t.csv isn't a table\n"))
        for row in (b"c,16\n", b"c,16,1,1\n"):
            fault = "rows: t.csv: row 4 has another number of values than the head\n"
            self.assertEqual(self.rows("t.csv", "pes > 1", "mean", table=TABLE + row), (2, "", fault))


if __name__ == "__main__":
    unittest.main()
