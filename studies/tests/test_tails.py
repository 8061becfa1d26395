"""Warm-up, percentiles, distributions and heat maps: the library's parts, and studies by a script in place of `ultra`."""

import csv
import shutil
import unittest
from collections import Counter

from support import SMALL, STUDIES, InFolder

from library.expressions import Formula
from library.keys import StudyFault
from library.latencies import histogram_of, mean, percentile, shares_above, text_of
from library.plots import heat_script, places_of
from library.question import latencies_by_cell
from library.study_file import study_of

LOG = "pe,number,op,cell,word,issued,answered,reply\n0,0,load,0,,1,6,0\n1,0,faa,3,1,2,10,0\n1,1,faa,3,1,2,11,1\n0,1,load,0,,9,,\n"
TRAFFIC = 'title = "t"\n[fixed]\nstages = 1\n[traffic]\nrate = [5, 6]\n'


class Latencies(unittest.TestCase):
    def test_texts(self):
        self.assertEqual(text_of({15: 3, 7: 1}), "7:1 15:3")
        self.assertEqual((histogram_of("7:1 15:3"), histogram_of("")), (Counter({15: 3, 7: 1}), Counter()))

    def test_percentiles(self):
        # 100 requests: 1 to 100 cycles
        even = Counter(range(1, 101))
        self.assertEqual([percentile(even, it) for it in (1, 50, 90, 99, 100)], [1, 50, 90, 99, 100])
        few = Counter({5: 1, 9: 1})
        self.assertEqual([percentile(few, it) for it in (1, 50, 51, 99)], [5, 5, 9, 9])
        self.assertIsNone(percentile(Counter(), 50))

    def test_means_are_rounded_down(self):
        self.assertEqual([mean(Counter(it)) for it in ({5: 2, 6: 1}, {5: 1, 6: 2}, {})], ["5.333", "5.666", ""])

    def test_shares(self):
        self.assertEqual(shares_above(Counter({5: 3, 9: 1})), [(4, 1.0), (5, 0.25), (9, 0.0)])
        self.assertEqual(shares_above(Counter()), [])

    def test_hot_and_other_cells(self):
        self.assertEqual(latencies_by_cell(LOG, (0,), 0), {"hot": Counter({5: 1}), "other": Counter({8: 1, 9: 1})})
        # an answer counts from the cycle of its delivery on
        self.assertEqual(latencies_by_cell(LOG, (3,), 10), {"hot": Counter({8: 1, 9: 1}), "other": Counter()})
        self.assertEqual(latencies_by_cell(LOG, (3,), 11), {"hot": Counter({9: 1}), "other": Counter()})


class Running(InFolder):
    def further(self, name):
        with open(self.folder / "out" / name, newline="") as file:
            return list(csv.DictReader(file))

    def test_warm_up(self):
        self.assertEqual(self.study("warm_up = 7\n" + SMALL).returncode, 0)
        self.assertTrue(self.sweeps()[0].endswith(" --measure --from 7"))
        self.assertEqual(self.study(SMALL).returncode, 0)
        self.assertTrue(self.sweeps()[0].endswith(" --measure"))

    def test_a_run_that_ends_in_the_warm_up(self):
        ran = self.study("warm_up = 100\n" + SMALL)
        fault = "study: study.toml: warm_up: the run ends before it does, where stages = 1, wait_places = 0, program = short\n"
        self.assertEqual((ran.returncode, ran.stderr.splitlines(True)[-1]), (3, fault))

    def test_percentiles(self):
        self.assertEqual(self.study("percentiles = [99, 100]\nwarm_up = 7\n" + SMALL).returncode, 0)
        self.assertEqual(self.table()[0], "stages,wait_places,program,pes,to,answered,latency_mean,p99,p100")
        # a short program: 192 requests took 5 cycles, and one 10
        self.assertEqual(self.table()[1:3], ["1,0,short,2,100,5,,5,10", "1,0,long,2,100,11,,11,22"])
        self.assertEqual(sum(it.startswith("latencies ") and it.endswith(" --from 7") for it in self.calls.read_text().splitlines()), 8)

    def test_percentiles_of_hot_and_other_cells(self):
        self.assertEqual(self.study("hot_cells = [0]\npercentiles = [50]\nwarm_up = 11\n" + SMALL).returncode, 0)
        found = dict(zip(*(it.split(",") for it in self.table()[:2])))
        self.assertEqual([found[it] for it in ("p50", "hot_p50", "other_p50")], ["5", "", "9"])
        self.assertEqual([found[it] for it in ("hot_answered", "hot_latency_mean", "other_answered", "other_latency_mean")], ["0", "", "1", "9.000"])

    def test_percentiles_of_seeds(self):
        self.assertEqual(self.study("seeds = 3\npercentiles = [50]\n" + TRAFFIC).returncode, 0)
        found = dict(zip(*(it.split(",") for it in self.table()[:2])))
        sizes = sorted(len(it.read_text()) for it in (self.folder / "out" / "programs").iterdir() if "--rate 5 " in it.read_text())
        self.assertEqual([found["p50_least"], found["p50_greatest"]], [str(sizes[0]), str(sizes[-1])])

    CURVES = """
[[plot]]
kind = "distribution"
name = "p"
title = "t"
log = "y"
by = ["wait_places"]
where = "program == 'short' and stages == 1"
"""

    def test_distributions(self):
        ran = self.study(SMALL + self.CURVES)
        self.assertEqual(ran.returncode, 0, ran.stderr)
        keys = {"stages": "1", "program": "short", "of": "all"}
        self.assertEqual(self.further("latencies.csv"), [
            keys | {"wait_places": places, "latency": latency, "answered": answered}
            for places in "04" for latency, answered in (("5", "199"), ("10", "1"))
        ])
        script = (self.folder / "out" / "p.gp").read_text()
        self.assertIn("$line0 << END\n4 1.0\n5 0.005\n10 0.005\nEND\n", script)
        self.assertIn("$line1 using 1:2 with steps ", script)

    def test_distributions_of_seeds_are_of_all_runs_together(self):
        self.study("seeds = 3\nhot_cells = [0]\n" + TRAFFIC + '[[plot]]\nkind = "distribution"\ntitle = "t"\nof = "other"\nwhere = "rate == 5"\n')
        found = [(it["rate"], it["of"], it["latency"], it["answered"]) for it in self.further("latencies.csv")]
        self.assertEqual(found, [("5", "other", "8", "3"), ("5", "other", "9", "3")])

    HEAT = '[[plot]]\nkind = "heat"\nname = "h"\ntitle = "t"\nvalue = "requests / (to - from)"\nwhere = "stages == 2 and wait_places == 4 and program == \'short\'"\n'

    def test_heat(self):
        ran = self.study("warm_up = 20\n" + SMALL + self.HEAT)
        self.assertEqual(ran.returncode, 0, ran.stderr)
        self.assertIn("study: 1 of 1 points, 0 s left\n", ran.stderr)
        self.assertEqual(sum(it.startswith("queues ") and it.endswith(" --from 20") for it in self.calls.read_text().splitlines()), 1)
        found = self.further("queues.csv")
        self.assertEqual([(it["program"], it["stage"], it["position"], it["requests"]) for it in found][3:6], [
            ("short", "0", "3", "3"), ("short", "1", "0", "10"), ("short", "1", "1", "11"),
        ])
        self.assertEqual(len(found), 8)
        script = (self.folder / "out" / "h.gp").read_text()
        for it in ("\n3 0 0.0375\n0 1 0.125\n", "set xrange [-0.5:3.5]\nset yrange [-0.5:1.5]\n", "set cbrange [0:0.1625]\n"):
            self.assertIn(it, script)
        self.assertEqual(self.study("warm_up = 20\n" + SMALL + self.HEAT, "--workers", "2").returncode, 0)
        self.assertNotIn("queues ", self.calls.read_text())

    def test_heat_of_seeds_is_their_mean(self):
        plot = '[[plot]]\nkind = "heat"\ntitle = "t"\nvalue = "requests"\nwhere = "rate == 5"\n'
        self.assertEqual(self.study("seeds = 3\n" + TRAFFIC + plot).returncode, 0)
        found = self.further("queues.csv")
        self.assertEqual([(it["rate"], it["position"], it["requests"], it["to"]) for it in found], [("5", "0", "0", "100"), ("5", "1", "1", "100")])

    def test_other_tables_are_compared_and_noted_too(self):
        self.study(SMALL + self.CURVES + self.HEAT)
        for name in ("latencies.csv", "queues.csv"):
            shutil.copy(self.folder / "out" / name, self.folder)
        (self.folder / "queues.csv").write_text("")
        ran = self.study(SMALL + self.CURVES + self.HEAT)
        self.assertIn("latencies.csv is the same as ", ran.stderr)
        self.assertIn("queues.csv differs from ", ran.stderr)
        self.assertIn('"latencies.csv": ', (self.folder / "out" / "provenance.json").read_text())

    @unittest.skipUnless(shutil.which("gnuplot"), "gnuplot isn't installed")
    def test_pictures(self):
        self.assertEqual(self.study(SMALL + self.CURVES + self.HEAT).returncode, 0)
        for name in "ph":
            self.assertIn("</svg>", (self.folder / "out" / f"{name}.svg").read_text())

    def test_engines_are_handed_the_question(self):
        parallel = 'names = words[words.index(":::") + 1:]\nfor name in names:\n    subprocess.run(["bash", "-c", words[words.index(":::") - 1].replace("{}", name)])\n'
        text = "hot_cells = [0]\npercentiles = [50]\nwarm_up = 7\n" + SMALL + self.HEAT
        with self.tool("parallel", parallel):
            ran = self.study(text, "--with", "parallel", "--out", "far")
        self.assertEqual(ran.returncode, 0, ran.stderr)
        self.study(text)
        for name in ("results.csv", "queues.csv"):
            self.assertEqual((self.folder / "far" / name).read_text(), (self.folder / "out" / name).read_text())


class Heat(unittest.TestCase):
    def test_a_value_that_cannot_be_calculated(self):
        plot = study_of((SMALL + Running.HEAT.replace("to - from", "combined")).encode()).plots[0]
        row = {"stages": "2", "wait_places": "4", "program": "short", "stage": "0", "position": "0", "requests": "1", "combined": "0"}
        with self.assertRaisesRegex(StudyFault, r"^plot\[0\]\.value: can't be calculated$"):
            places_of(plot, [row])
        self.assertIn("set cbrange [0:1]\n", heat_script(plot, [(0, 0, 0)]))
        plot = study_of((SMALL + Running.HEAT + "most = 0.5\n").encode()).plots[0]
        self.assertIn("set cbrange [0:0.5]\n", heat_script(plot, [(0, 0, 0)]))

    def test_the_column_from(self):
        formula = Formula("to - from + ('from' == name)")
        self.assertEqual((formula.names, formula.value({"from": 3, "to": 10, "name": "from"})), ({"from", "to", "name"}, 8))


class Refusals(InFolder):
    def refusal(self, text):
        ran = self.study(text)
        self.assertEqual((ran.returncode, self.sweeps()), (3, []))
        return ran.stderr.removeprefix("study: study.toml: ").rstrip()

    def test_keys(self):
        most = "warm_up: must be 0 to 999999"
        for text, fault in (
            ("warm_up = -1\n" + SMALL, most), ("warm_up = 1000000\n" + SMALL, most), ("warm_up = true\n" + SMALL, most),
            ("warm_up = 1000\n" + SMALL, "warm_up: isn't below cycles = 1000"),
            ("warm_up = 50\n" + SMALL.replace("[vary]", "[vary]\ncycles = [60, 50]"), "warm_up: isn't below cycles = 50"),
            ("warm_up = 50\n" + SMALL + "[fixed]\ncycles = 9\n", "warm_up: isn't below cycles = 9"),
            ("percentiles = 50\n" + SMALL, "percentiles: must be a list with a value"),
            ("percentiles = [0]\n" + SMALL, "percentiles: must be numbers from 1 to 100"),
            ("percentiles = [99.9]\n" + SMALL, "percentiles: must be numbers from 1 to 100"),
            ("percentiles = [50, 50]\n" + SMALL, "percentiles: has a value twice"),
            ("percentiles = [50]\n" + SMALL + '[columns]\na = "hot_p50"\n', "columns.a: there is no column hot_p50"),
            ("percentiles = [50]\n" + SMALL + '[columns]\np50 = "to"\n', "columns.p50: is a column already"),
        ):
            self.assertEqual(self.refusal(text), fault)

    def test_plots(self):
        curves, heat = SMALL + Running.CURVES, SMALL + Running.HEAT
        for text, fault in (
            (curves.replace("distribution", "cake"), "plot[0].kind: must be lines, distribution or heat"),
            (curves + 'of = "cold"\n', "plot[0].of: must be all, hot or other"),
            (curves + 'of = "hot"\n', "plot[0].of: there are no hot_cells"),
            (curves + '[[plot.line]]\nof = "hot"\n', "plot[0].line[0].of: there are no hot_cells"),
            (curves + 'y = "to"\n', "plot[0].y: unknown key"),
            (curves.replace('["wait_places"]', '["none"]'), "plot[0].by: there is no column none"),
            (curves.replace("stages == 1", "none == 1"), "plot[0].where: there is no column none"),
            (curves + 'label = "{none}"\n', "plot[0].label: there is no column none"),
            (curves.replace("wait_places =", "of = [1]\nwait_places ="), "vary.of: is a column already"),
            (heat.replace("requests", "answered"), "plot[0].value: there is no column answered"),
            (heat.replace("stages == 2", "to == 2"), "plot[0].where: there is no column to"),
            (heat.replace("stages == 2", "stages > 0"), "plot[0].where: must hold for one point, not for 2"),
            (heat.replace("stages == 2", "stages > 2"), "plot[0].where: must hold for one point, not for 0"),
            (heat + "most = 0\n", "plot[0].most: must be a number above 0"),
            (heat + "most = true\n", "plot[0].most: must be a number above 0"),
            (heat + 'by = ["stages"]\n', "plot[0].by: unknown key"),
            (heat.replace('value = "requests / (to - from)"\n', ""), "plot[0].value: must be a formula in quotes"),
        ):
            self.assertEqual(self.refusal(text), fault)

    def test_a_curve_of_two_points(self):
        ran = self.study(SMALL + Running.CURVES.replace('by = ["wait_places"]\n', ""))
        self.assertEqual(ran.stderr.splitlines()[-1], "study: study.toml: plot[0].by: a curve has more than one point of the study")

    def test_queues_with_other_columns(self):
        other = self.folder / "ultra"
        other.write_text((STUDIES / "tests" / "fake_ultra").read_text().replace("from,to,stage", "from,stage"))
        other.chmod(0o755)
        ran = self.study(SMALL + Running.HEAT, ultra=other)
        self.assertEqual(ran.returncode, 1)
        self.assertTrue(ran.stderr.endswith(": ultra queues has other columns\n"))


if __name__ == "__main__":
    unittest.main()
