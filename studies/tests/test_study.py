"""studies/study and its parts: the grid, names, answers, joining, starting again, plots and each line of an error."""

import hashlib
import json
import os
import re
import shutil
import signal
import subprocess
import time
import unittest
import unittest.mock
from pathlib import Path

from support import SMALL, STUDIES, InFolder, study

from library.drawn import Drawn, lines_of
from library.expressions import Formula, FormulaFault, number
from library.intervals import student, summary
from library.keys import StudyFault
from library.pieces import Piece, answer_path, digest_of_program, is_answered, jobs_of, jobs_text, pieces_of, rows_in, write
from library.plots import COLORS, looks, script as gnuplot_script
from library.question import Question
from library.study_file import study_of
from library.table import joined


class Grid(unittest.TestCase):
    def points(self, text):
        return study_of(text.encode()).points()

    def test_it_is_the_product_in_the_order_of_the_file(self):
        points = self.points(SMALL)
        self.assertEqual(len(points), 8)
        self.assertEqual(points[0], {"stages": 1, "wait_places": 0, "program": "short"})
        self.assertEqual(points[1], {"stages": 1, "wait_places": 0, "program": "long"})
        self.assertEqual(points[2], {"stages": 1, "wait_places": 4, "program": "short"})
        self.assertEqual(points[7], {"stages": 2, "wait_places": 4, "program": "long"})

    def test_a_list_of_programs_and_traffic(self):
        points = self.points('title = "t"\nprograms = ["a.s", "b.s"]\n[fixed]\nstages = 1\n')
        self.assertEqual(points, [{"program": "a.s"}, {"program": "b.s"}])
        points = self.points('title = "t"\n[traffic]\nrate = [1, 2]\nhot = [0]\n[fixed]\nstages = 1\n')
        self.assertEqual(points, [{"rate": 1, "hot": 0}, {"rate": 2, "hot": 0}])

    def test_where_leaves_points_out(self):
        points = self.points('where = "stages == 1 or\\n wait_places > 0 and program != \'long\'"' + SMALL)
        self.assertEqual(len(points), 5)


class Formulas(unittest.TestCase):
    def test_values(self):
        row = {"a": 6, "b": 4, "c": None, "d": "x", "e": "%q"}
        for text, value in (
            ("a + b * 2 - 1", 13), ("-a / b", -1.5), ("a // b + a % b", 3), ("1 < b < a", True), ("b > a or d == 'x'", True),
            ("not a == 6", False), ("a / (b - 4)", None), ("a + c", None), ("(a > 1) + (b > 9)", 1),
        ):
            self.assertEqual(Formula(text).value(row), value)

    def test_values_that_cannot_be_calculated(self):
        row = {"a": 6, "d": "x", "e": "%q"}
        for text in ("e % a", "d * 99999999999999", "d + d", "-d", f"{10**400} / 1", f"{10**400}", f"{10**400} * 1.5", "1e999 - 1e999"):
            self.assertIsNone(Formula(text).value(row), text)

    def test_levels(self):
        self.assertEqual(Formula("+".join(["a"] * 200)).value({"a": 1}), 200)
        text = "a"
        for level in range(99):
            text = f"(a < {text})" if level % 2 else f"(a and {text})"
        self.assertEqual(Formula(text).value({"a": 1}), False)
        for text in ("+".join(["a"] * 201), "-" * 5000 + "1", "-" * 50_000 + "1", "not " * 201 + "1"):
            with self.assertRaisesRegex(FormulaFault, "^is nested too deeply$"):
                Formula(text)

    def test_a_text_has_no_arithmetic(self):
        for text in ("'%q' % pes", "'a' * 99999999999999", "2 * 'a'", "'a' + 'b'", "-'a'"):
            with self.assertRaisesRegex(FormulaFault, "^has arithmetic with a text$"):
                Formula(text)

    def test_refusals(self):
        for text in ("a +", "f(a)", "a.b", "[1]", "a if b else c", "a ** b", "lambda: 1", "a := 1", "a) or (b"):
            with self.assertRaises(FormulaFault):
                Formula(text)

    def test_numbers(self):
        self.assertEqual([number(it) for it in ("12", "1.5", "", "quiet")], [12, 1.5, None, "quiet"])


class Intervals(unittest.TestCase):
    def test_student(self):
        # 95 % on both sides, as printed tables have it
        for freedom, t in (
            (1, 12.706), (2, 4.303), (3, 3.182), (4, 2.776), (5, 2.571), (9, 2.262), (10, 2.228), (19, 2.093), (30, 2.042), (60, 2.000),
        ):
            self.assertAlmostEqual(student(freedom), t, delta=0.0005)

    def test_summary(self):
        # the variance is 10, so the half width is 2.776 * (10 / 5) ** 0.5
        mean, least, greatest, width = summary([3, 5, 7, 9, 11])
        self.assertEqual((mean, least, greatest), (7, 3, 11))
        self.assertAlmostEqual(width, 3.926, delta=0.001)
        self.assertEqual(summary([4, 4, 4]), [4, 4, 4, 0])
        self.assertEqual(summary([4, None, 4]), [None] * 4)
        self.assertEqual(summary([4, "quiet"]), [None] * 4)


class Names(InFolder):
    MACHINES = [("stages = 1\n", "halt\n"), ("stages = 2\n", "halt\n"), ("stages = 3\n", "halt\n")]

    def names(self, machines, size=2, simulator="0123", **question):
        asked = Question(**question).name(simulator)
        return [it.name for it in pieces_of(self.folder, jobs_of(self.folder, machines), size, asked)]

    def test_they_follow_from_the_content(self):
        names = self.names(self.MACHINES)
        self.assertEqual(len(names), 2)
        self.assertEqual(names, self.names(self.MACHINES))
        self.assertEqual(self.names([*self.MACHINES[:2], ("stages = 4\n", "halt\n")])[0], names[0])
        for others in ([("stages = 1\nopen = 1\n", "halt\n")], [("stages = 1\n", "fence\n")]):
            self.assertNotEqual(self.names(others + self.MACHINES[1:])[0], names[0])
        for other in ({"hot_cells": (0,)}, {"warm_up": 5}, {"has_latencies": True}, {"is_of_queues": True}, {"simulator": "4567"}):
            self.assertNotEqual(self.names(self.MACHINES, **other)[0], names[0])

    def test_the_script_of_a_tree_is_the_program_built_there(self):
        script_of_tree, built = self.folder / "ultra", self.folder / "crates" / "ultra" / "out" / "ultra"
        built.parent.mkdir(parents=True)
        script_of_tree.write_text("script")
        built.write_text("one")
        link = self.folder / "link"
        link.symlink_to(script_of_tree)
        one = digest_of_program(built)
        self.assertEqual([digest_of_program(it) for it in (script_of_tree, link)], [one, one])
        built.write_text("two")
        self.assertNotIn(digest_of_program(script_of_tree), (one, ""))
        self.assertEqual(digest_of_program(self.folder / "none"), "")

    def test_files_of_jobs(self):
        self.names(self.MACHINES * 100, size=256)
        self.assertEqual(sorted(it.read_text().count("[[job]]") for it in self.folder.glob("jobs/*")), [44, 256])
        self.assertEqual(len(list((self.folder / "settings").iterdir())), 3)
        self.assertEqual(len(list((self.folder / "programs").iterdir())), 1)
        self.assertEqual(jobs_text([("a", "b")]), '[[job]]\nconf = "a"\nprog = "b"\n')

    def test_a_changed_file_is_written_again(self):
        self.names(self.MACHINES)
        files = [*self.folder.glob("*/*.*")]
        texts = [it.read_text() for it in files]
        for path in files:
            path.write_text("broken")
        self.names(self.MACHINES)
        self.assertEqual([it.read_text() for it in files], texts)


class Running(InFolder):
    HEADER = "stages,wait_places,program,pes,to,answered,latency_mean"

    def test_the_table(self):
        ran = self.study(SMALL, "--jobs", "3")
        self.assertEqual(ran.returncode, 0, ran.stderr)
        self.assertEqual(self.table()[0], self.HEADER)
        self.assertEqual(self.table()[1:3], ["1,0,short,2,100,5,", "1,0,long,2,100,11,"])
        self.assertEqual(self.table()[8], "2,4,long,4,100,11,")
        self.assertEqual(len(self.sweeps()), 3)
        self.assertIn("study: 8 of 8 points, 0 s left\n", ran.stderr)

    def test_columns_and_latencies(self):
        columns = '[columns]\nshare = "answered / to / pes"\nis_small = "pes < 3"\nnothing = "latency_mean + 1"\n'
        ran = self.study("hot_cells = [0]\n" + SMALL + columns)
        self.assertEqual(ran.returncode, 0, ran.stderr)
        added = ",hot_answered,hot_latency_mean,other_answered,other_latency_mean,share,is_small,nothing"
        self.assertEqual(self.table()[0], self.HEADER + added)
        self.assertEqual(self.table()[1], "1,0,short,2,100,5,,1,5.000,2,8.500,0.02500,1,")

    def test_started_again_it_runs_only_what_is_not_there(self):
        self.study(SMALL, "--jobs", "2")
        table = self.table()
        ran = self.study(SMALL, "--jobs", "2")
        self.assertEqual((ran.returncode, self.sweeps(), self.table()), (0, [], table))
        self.assertIn("study: 8 of 8 points are there\n", ran.stderr)
        self.answer_files()[0].unlink()
        self.study(SMALL, "--jobs", "2")
        self.assertEqual((len(self.sweeps()), self.table()), (1, table))

    def test_another_number_of_jobs_runs_nothing_again(self):
        self.study(SMALL, "--jobs", "2")
        table = self.table()
        self.assertEqual((self.study(SMALL, "--jobs", "3").returncode, self.sweeps(), self.table()), (0, [], table))
        self.answer_files()[0].unlink()
        ran = self.study(SMALL, "--jobs", "8")
        self.assertIn("study: 6 of 8 points are there\n", ran.stderr)
        self.assertEqual((len(self.sweeps()), self.table()), (1, table))

    def test_more_points_run_only_what_is_new(self):
        self.study(SMALL)
        ran = self.study(SMALL.replace("[0, 4]", "[4, 8, 0]"))
        self.assertIn("study: 8 of 12 points are there\n", ran.stderr)
        self.assertEqual([it.split(",")[1] for it in self.table()[1:7:2]], ["4", "8", "0"])

    def test_points_with_the_same_machine_and_program_run_once(self):
        (self.folder / "long.s").write_text("halt\n")
        ran = self.study(SMALL)
        self.assertIn("study: 4 of 4 points, 0 s left\n", ran.stderr)
        self.assertEqual(self.table()[1:3], ["1,0,short,2,100,5,", "1,0,long,2,100,5,"])

    def test_answers_of_another_simulator_do_not_count(self):
        other = Path(shutil.copy(STUDIES / "tests" / "fake_ultra", self.folder / "ultra"))
        for changes, sweeps in (("", 1), ("", 0), ("# another timing\n", 1)):
            other.write_text(other.read_text() + changes)
            self.assertEqual(self.study(SMALL, ultra=other).returncode, 0)
            self.assertEqual(len(self.sweeps()), sweeps)

    def test_a_table_that_was_interrupted_is_not_there(self):
        def half(file, rows):
            file.write("stages,")
            raise KeyboardInterrupt

        with unittest.mock.patch.object(study, "write_table", half):
            self.assertEqual(self.study(SMALL).returncode, 1)
        self.assertEqual(list((self.folder / "out").glob("results.csv*")), [])
        with self.assertRaises(UnicodeEncodeError):
            write(self.folder / "out" / "results.csv", "stages,\ud800")
        self.assertEqual(list((self.folder / "out").glob("results.csv*")), [])

    def test_a_broken_or_half_written_answer_is_run_again(self):
        self.study(SMALL, "--jobs", "2")
        table = self.table()
        for spoil in (lambda it: it[:len(it) // 2], lambda it: it[:-1], lambda it: it.replace("100", "101"), lambda it: "", lambda it: "\0"):
            path = self.answer_files()[0]
            path.write_text(spoil(path.read_text()))
            self.study(SMALL, "--jobs", "2")
            self.assertEqual((len(self.sweeps()), self.table()), (1, table))

    def test_a_file_of_answers_has_all_its_jobs(self):
        self.study(SMALL, "--jobs", "2")
        path = self.answer_files()[0]
        name, rows = path.stem, rows_in(path)
        self.assertEqual(len(rows), 2)
        self.assertTrue(is_answered(self.folder / "out", Piece(name, list(rows))))
        self.assertFalse(is_answered(self.folder / "out", Piece(name, [*rows, ("settings/a.toml", "programs/b.s")])))
        self.assertEqual(answer_path(self.folder, "q-n"), self.folder / "answers" / "q-n.csv")

    def test_parts_of_dead_runs_are_removed(self):
        self.study(SMALL)
        part = self.folder / "out" / "answers" / "0123.csv.part"
        part.write_text("job,")
        self.study(SMALL)
        self.assertFalse(part.exists())

    def test_a_program_that_fails(self):
        self.dies.write_text("")
        ran = self.study(SMALL)
        self.assertEqual(ran.returncode, 1)
        self.assertRegex(ran.stderr, r"\nstudy: jobs/[0-9a-f]{16}-[0-9a-f]{16}\.toml: ultra: no memory\n$")
        self.dies.unlink()
        self.assertEqual(self.study(SMALL).returncode, 0)

    def test_it_compares_with_the_table_beside_the_study(self):
        self.study(SMALL)
        shutil.copy(self.folder / "out" / "results.csv", self.folder)
        self.assertIn("results.csv is the same as ", self.study(SMALL).stderr)
        (self.folder / "results.csv").write_text("")
        self.assertIn("results.csv differs from ", self.study(SMALL).stderr)

    def test_programs_of_lib(self):
        ran = self.study('title = "t"\n[programs]\nwait = "lib barrier 4"\n[fixed]\nstages = 1\n')
        self.assertEqual((ran.returncode, self.table()[1]), (0, "wait,1,2,100,5,"))

    def test_names_in_a_program_are_filled_in(self):
        (self.folder / "loop.s").write_text("li r5 $rounds ; ${rounds}, $$5\n$what r1 r0 r0\nli r2 $stages\n")
        text = 'title = "t"\nprograms = ["loop.s", "short.s"]\n[vary]\nrounds = [7, 11]\n[fixed]\nstages = 1\nwhat = "faa"\n'
        ran = self.study(text)
        self.assertEqual(ran.returncode, 0, ran.stderr)
        programs = {it.read_text() for it in (self.folder / "out" / "programs").iterdir()}
        filled = {f"li r5 {it} ; {it}, $5\nfaa r1 r0 r0\nli r2 1\n" for it in (7, 11)}
        self.assertEqual(programs, {"halt\n", *filled})
        self.assertEqual([it.split(",")[:3] for it in self.table()], [
            ["program", "rounds", "stages"], ["loop.s", "7", "1"], ["loop.s", "11", "1"], ["short.s", "7", "1"], ["short.s", "11", "1"],
        ])

    def test_what_comes_before_each_program(self):
        (self.folder / "start.s").write_text("li r1 $seed\n$op r2 r2")
        text = 'title = "t"\nbefore = "start.s"\nseeds = 2\n[programs]\na = "short.s"\nb = "lib barrier 4"\n[fixed]\nstages = 1\nop = "faa"\n'
        ran = self.study(text)
        self.assertEqual(ran.returncode, 0, ran.stderr)
        programs = {it.read_text() for it in (self.folder / "out" / "programs").iterdir()}
        self.assertEqual(programs, {f"li r1 {seed}\nfaa r2 r2\nhalt\n" for seed in (1, 2)})
        self.assertEqual(sorted(self.provenance()["sources"]), ["short.s", "start.s"])
        self.assertEqual(self.study(text.replace("faa", "frobnicate")).stderr, (
            "study: study.toml: before: start.s: line 2: unknown word, where op = frobnicate, seed = 1\n"
        ))
        (self.folder / "short.s").write_text("halt\nfrobnicate\n")
        self.assertEqual(self.study(text).stderr, "study: study.toml: programs.a: short.s: line 2: unknown word\n")

    def test_initial_cells(self):
        self.assertEqual(self.study(SMALL + "[fixed]\ncells = 2\ninitial = [[0, 5], [3, 4294967295]]\n").returncode, 0)
        settings = {it.read_text() for it in (self.folder / "out" / "settings").iterdir()}
        self.assertIn("stages = 1\nwait_places = 4\ncells = 2\ninitial = [[0, 5], [3, 4294967295]]\n", settings)

    # of ten programs nine have 8 bytes and one has 9, so the half width is 2.262 * 0.1
    SEEDS = 'title = "t"\nseeds = 10\nprograms = ["seed.s"]\n[fixed]\nstages = 1\n[columns]\nbytes = "answered * 2"\nsize = "pes * 3"\n'

    def test_seeds(self):
        (self.folder / "seed.s").write_text("li r1 $seed\n")
        self.assertEqual(self.study(self.SEEDS).returncode, 0)
        head, row = (it.split(",") for it in self.table())
        self.assertEqual(head[:5], ["program", "stages", "pes", "to", "to_least"])
        found = dict(zip(head, row))
        for name, expected in (
            ("to", ["100.00000", "100", "100", "0.00000"]), ("answered", ["8.10000", "8", "9", "0.22622"]),
            ("bytes", ["16.20000", "16", "18", "0.45243"]), ("latency_mean", [""] * 4),
        ):
            self.assertEqual([found[name], *(found[f"{name}_{it}"] for it in ("least", "greatest", "ci"))], expected)
        self.assertEqual((len(head), found["size"]), (3 + 4 * 4 + 1, "6"))
        self.assertEqual(self.provenance()["seeds"], list(range(1, 11)))

    def test_seeds_of_traffic(self):
        ran = self.study('title = "t"\nseeds = 3\n[fixed]\nstages = 1\n[traffic]\nrate = [5, 6]\n')
        self.assertIn("study: 6 of 6 points, 0 s left\n", ran.stderr)
        programs = [it.read_text() for it in (self.folder / "out" / "programs").iterdir()]
        self.assertEqual(sorted(it.split(" --seed ")[1][0] for it in programs), list("112233"))
        self.assertEqual([it.split(",")[0] for it in self.table()], ["rate", "5", "6"])

    def provenance(self):
        return json.loads((self.folder / "out" / "provenance.json").read_text())

    def test_provenance(self):
        self.study(SMALL)
        found, table = self.provenance(), self.table()
        out = self.folder / "out"

        def sums(folder, *paths):
            return {it: hashlib.sha256((folder / it).read_bytes()).hexdigest() for it in paths}

        self.assertRegex(found["date"], r"^\d{4}-\d\d-\d\dT\d\d:\d\d:\d\dZ$")
        self.assertEqual(found["ultra"]["version"], "ultra fake")
        self.assertEqual([found["ultra"]["sha256"]], [*sums(STUDIES / "tests", "fake_ultra").values()])
        self.assertEqual(found["study"] | found["sources"], sums(self.folder, "study.toml", "short.s", "long.s"))
        self.assertEqual(found["results"], sums(out, "results.csv"))
        for kind in ("settings", "programs"):
            self.assertEqual(found[kind], sums(out, *(f"{kind}/{it.name}" for it in (out / kind).iterdir())))
        self.assertEqual((len(found["settings"]), len(found["programs"]), found["seeds"]), (4, 2, []))
        (self.folder / "long.s").write_text("fence\nfence\n")
        self.study(SMALL)
        self.assertEqual(self.provenance()["sources"], sums(self.folder, "short.s", "long.s"))
        self.assertNotEqual(self.provenance()["results"], found["results"])
        self.assertEqual(self.table()[0], table[0])

    def test_provenance_of_traffic(self):
        text = 'title = "t"\n[fixed]\nstages = 1\n[traffic]\nrate = [1]\n'
        for seeds, expected in (("", [1]), ("seed = [3, 5]\n", [3, 5])):
            self.study(text + seeds)
            self.assertEqual((self.provenance()["seeds"], self.provenance()["sources"]), (expected, {}))

    def test_a_table_without_its_provenance_is_not_whole(self):
        self.study(SMALL)
        with unittest.mock.patch.object(study, "write_table", side_effect=KeyboardInterrupt):
            self.study(SMALL)
        self.assertFalse((self.folder / "out" / "provenance.json").exists())

    def test_where_it_is_written(self):
        self.study(SMALL, "--out", "elsewhere")
        self.assertTrue((self.folder / "elsewhere" / "results.csv").is_file())


class Engines(InFolder):
    """Scripts in place of the engines: how they are called. tests/cluster runs the real ones."""

    PARALLEL = """
names = words[words.index(":::") + 1:]
for name in names:
    subprocess.run(["bash", "-c", words[words.index(":::") - 1].replace("{}", name)])
"""
    INTERRUPTED = """
print("sbatch: note 5\\nSubmitted batch job 77", flush=True)
os.kill(os.getppid(), signal.SIGINT)
"""
    SBATCH = """
last = next(it for it in words if it.startswith("--array=0-")).removeprefix("--array=0-")
for task in range(int(last) + 1):
    subprocess.run(["bash", words[-1]], env={**os.environ, "SLURM_ARRAY_TASK_ID": str(task)})
"""

    def by(self, engine, command, body, *arguments):
        with self.tool(command, body):
            return self.study("hot_cells = [0, 3]\n" + SMALL, "--jobs", "2", "--out", engine, "--with", engine, *arguments)

    def tables(self, engine):
        self.study("hot_cells = [0, 3]\n" + SMALL, "--jobs", "2")
        return (self.folder / engine / "results.csv").read_text(), (self.folder / "out" / "results.csv").read_text()

    def test_parallel(self):
        ran = self.by("parallel", "parallel", self.PARALLEL, "--workers", "3", "--engine-args", "--sshlogin 'a,b'")
        self.assertEqual(ran.returncode, 0, ran.stderr)
        self.assertEqual(*self.tables("parallel"))
        self.assertIn("--jobs 3 --retries 3 ", self.words("parallel"))
        self.assertIn(" --sshlogin a,b ", self.words("parallel"))
        self.assertIn("study: 8 of 8 points, 0 s left\n", ran.stderr)

    def test_slurm(self):
        ran = self.by("slurm", "sbatch", self.SBATCH, "--engine-args=--partition=all")
        self.assertEqual(ran.returncode, 0, ran.stderr)
        self.assertEqual(*self.tables("slurm"))
        self.assertIn(" --partition=all ", self.words("sbatch"))

    def test_a_second_array_has_its_own_files(self):
        with unittest.mock.patch("library.engines.MOST_TASKS", 3):
            ran = self.by("slurm", "sbatch", self.SBATCH)
        self.assertEqual(ran.returncode, 0, ran.stderr)
        self.assertEqual(*self.tables("slurm"))
        files = sorted(it.name for it in (self.folder / "slurm").iterdir() if it.suffix in (".sh", ".log"))
        self.assertEqual(files, ["array_0.sh", "array_1.sh", "sbatch_0.log", "sbatch_1.log"])
        self.assertIn("/slurm_1_%a.log ", self.words("sbatch"))

    def test_an_interrupt_takes_the_array_off_the_cluster(self):
        self.catch_interrupts()
        self.tool("scancel", "")
        ran = self.by("slurm", "sbatch", self.INTERRUPTED)
        self.assertEqual((ran.returncode, ran.stderr.splitlines()[1]), (1, "study: interrupted: start again to run the rest"))
        self.assertEqual(self.words("scancel"), "77")
        self.by("slurm", "sbatch", self.INTERRUPTED.replace("77", "78 on cluster far"))
        self.assertEqual(self.words("scancel"), "--clusters=far 78")
        self.tool("scancel", "sys.exit(1)")
        ran = self.by("slurm", "sbatch", self.INTERRUPTED)
        self.assertEqual(ran.stderr.splitlines()[1], "study: scancel 77 failed: the job may still be on the cluster")
        ran = self.by("slurm", "sbatch", self.INTERRUPTED.replace("Submitted", "Sent"))
        log = self.folder.resolve() / "slurm" / "sbatch_0.log"
        self.assertEqual(ran.stderr.splitlines()[1], f"study: {log} names no job: squeue shows whether one is still on the cluster")

    def test_an_engine_that_fails(self):
        ran = self.by("slurm", "sbatch", "\nsys.exit(3)\n")
        self.assertEqual(ran.returncode, 1)
        log = self.folder.resolve() / "slurm" / "sbatch_0.log"
        self.assertEqual(ran.stderr.splitlines()[-2:], [
            f"study: sbatch ended with status 3; its messages are in {log}",
            "study: 8 of 8 points have no answer: start again to run them",
        ])
        self.assertEqual(self.by("slurm", "sbatch", self.SBATCH).returncode, 0)


class Killed(InFolder):
    """A study that is killed while two of its files of jobs run."""

    def is_running(self, number):
        try:
            state = Path(f"/proc/{number}/stat").read_text().rpartition(")")[2].split()[0]
        except (FileNotFoundError, ProcessLookupError):
            return False
        return state not in "ZX"

    def wait_for(self, holds):
        end = time.monotonic() + 30
        while not holds():
            self.assertLess(time.monotonic(), end)
            time.sleep(0.02)

    def killed(self, by):
        """Kills a study, and waits until its simulators have ended. Gives its status and its last line."""
        asleep = self.folder / f"asleep_{by}"
        (self.folder / "study.toml").write_text(SMALL)
        names = {"ULTRA": str(STUDIES / "tests" / "fake_ultra"), "FAKE_CALLS": str(self.calls), "FAKE_DIES": str(self.dies)}
        running = subprocess.Popen(
            [STUDIES / "study", "study.toml", "--jobs", "2", "--workers", "2"], cwd=self.folder,
            env={**os.environ, **names, "FAKE_SLEEPS": str(asleep)}, stderr=subprocess.PIPE, text=True,
        )
        self.wait_for(lambda: asleep.exists() and asleep.read_text().count("\n") == 2)
        simulators = asleep.read_text().split()
        self.assertTrue(all(map(self.is_running, simulators)))
        running.send_signal(by)
        self.wait_for(lambda: not any(map(self.is_running, simulators)))
        lines = running.communicate()[1].splitlines()
        self.assertEqual(asleep.read_text().split(), simulators)
        return running.returncode, lines[-1]

    def test_what_it_started_ends(self):
        interrupted = 1, "study: interrupted: start again to run the rest"
        self.assertEqual(self.killed(signal.SIGTERM), interrupted)
        self.assertEqual(self.killed(signal.SIGKILL), (-signal.SIGKILL, "study: 0 of 8 points are there"))

    def test_an_engine_ends_with_it(self):
        self.catch_interrupts()
        numbers = self.folder / "numbers"
        body = f"""
child = subprocess.Popen(["sleep", "60"])
open({str(numbers)!r}, "w").write(f"{{os.getpid()}} {{child.pid}}")
os.kill(os.getppid(), signal.SIGINT)
child.wait()
"""
        with self.tool("parallel", body):
            ran = self.study(SMALL, "--with", "parallel")
        self.assertEqual((ran.returncode, ran.stderr.splitlines()[-1]), (1, "study: interrupted: start again to run the rest"))
        self.wait_for(lambda: not any(map(self.is_running, numbers.read_text().split())))


class Plots(InFolder):
    PLOT = '[[plot]]\nname = "p"\ntitle = "It\'s"\nx = "pes"\ny = "answered"\nby = ["wait_places"]\nwhere = "program == \'long\'"\n'

    def drawn(self, plot):
        asked = study_of((SMALL + plot).encode())
        answers = [{"pes": str(2**it["stages"]), "to": "9", "answered": "7"} for it in asked.points()]
        return asked.plots[0], lines_of(asked.plots[0], joined(asked, asked.points(), answers))

    def test_lines(self):
        _, lines = self.drawn(self.PLOT)
        found = [(it.label, it.group, it.is_dashed, it.points) for it in lines]
        self.assertEqual(found, [("wait_places 0", ("0",), False, [(2, 7), (4, 7)]), ("wait_places 4", ("4",), False, [(2, 7), (4, 7)])])

    def test_lines_with_labels(self):
        line = '[[plot]]\ntitle = "t"\nx = "pes"\n[[plot.line]]\ny = "answered"\nby = ["program", "wait_places"]\nlabel = "{program} {pes}-"\ndashed = true\n'
        _, lines = self.drawn(line)
        self.assertEqual([(it.label, it.is_dashed) for it in lines], [("short 2-", True), ("long 2-", True)] * 2)

    def test_colors(self):
        solid, dashed = (Drawn("", it, False, []) for it in "ab"), (Drawn("", it, True, []) for it in "bc")
        colors = [re.search("#[0-9a-f]+", it)[0] for it in looks([*solid, *dashed])]
        self.assertEqual(colors, [COLORS[0], COLORS[1], COLORS[1], "#000000"])

    def test_a_plot_without_a_point(self):
        with self.assertRaisesRegex(StudyFault, r"^plot\[0\]: has no point$"):
            self.drawn(self.PLOT.replace("'long'", "'none'"))

    def test_the_script(self):
        plot, lines = self.drawn(self.PLOT + 'log = "xy"\n')
        text = gnuplot_script(plot, lines)
        for it in ("set title 'It''s' noenhanced", "$line1 << END\n2 7\n4 7\nEND\n", "set logscale x 2", "set output 'p.svg'", "set output 'p.png'"):
            self.assertIn(it, text)

    def test_error_bars(self):
        plot = study_of((SMALL + '[[plot]]\ntitle = "t"\nx = "a"\ny = "b"\n[[plot.line]]\ny = "b"\ndashed = true\n').encode()).plots[0]
        rows = [{"a": "1", "b": "3.5", "b_ci": "0.25"}, {"a": "2", "b": "4", "b_ci": "0"}]
        solid, dashed = lines_of(plot, rows)
        self.assertEqual((solid.points, dashed.points), ([(1, 3.5, 0.25), (2, 4, 0)], [(1, 3.5), (2, 4)]))
        text = gnuplot_script(plot, [solid, dashed])
        for it in ("$line0 << END\n1 3.5 0.25\n2 4 0\nEND\n", "$line0 using 1:2:3 with yerrorlines ", "$line1 using 1:2 with lines "):
            self.assertIn(it, text)

    def test_a_column_that_is_not_numbers(self):
        for old, new, column in (('x = "pes"', 'x = "program"', "program"), ('y = "answered"', 'y = "program"', "program")):
            with self.assertRaisesRegex(StudyFault, rf"^plot\[0\]: the column {column} isn't numbers$"):
                self.drawn(self.PLOT.replace(old, new))
        plot = study_of((SMALL + '[[plot]]\ntitle = "t"\nx = "a"\ny = "b"\n').encode()).plots[0]
        self.assertEqual(lines_of(plot, [{"a": "2", "b": "1.5"}, {"a": "1", "b": "3"}])[0].points, [(1, 3), (2, 1.5)])
        for other in ("long", "1" + "0" * 400, "inf", "nan"):
            with self.assertRaisesRegex(StudyFault, r"^plot\[0\]: the column a isn't numbers$"):
                lines_of(plot, [{"a": "2", "b": "1.5"}, {"a": other, "b": "3"}])

    def test_a_gnuplot_that_fails_leaves_no_picture(self):
        self.catch_interrupts()
        for end, status, fault in (
            ("sys.exit('no memory')", 3, "study: study.toml: plot p: no memory"),
            ("os.kill(os.getppid(), signal.SIGINT)", 1, "study: interrupted: start again to run the rest"),
        ):
            with self.tool("gnuplot", f"open('p.svg', 'w').write('<svg')\n{end}\n"):
                ran = self.study(SMALL + self.PLOT)
            self.assertEqual((ran.returncode, ran.stderr.splitlines()[-1]), (status, fault))
            self.assertEqual(list((self.folder / "out").glob("p.[sp]*")), [])

    def test_two_points_with_the_same_x(self):
        with self.assertRaisesRegex(StudyFault, r"^plot\[0\]\.by: a line has two points with the same pes$"):
            self.drawn(self.PLOT.replace('by = ["wait_places"]\n', ""))

    @unittest.skipUnless(shutil.which("gnuplot"), "gnuplot isn't installed")
    def test_pictures(self):
        self.assertEqual(self.study(SMALL + self.PLOT).returncode, 0)
        self.assertTrue((self.folder / "out" / "p.png").read_bytes().startswith(b"\x89PNG"))
        self.assertIn("</svg>", (self.folder / "out" / "p.svg").read_text())

    def test_without_gnuplot(self):
        with self.bare_path():
            ran = self.study(SMALL + self.PLOT)
        self.assertEqual(ran.returncode, 0)
        self.assertTrue(ran.stderr.endswith("study: there is no gnuplot, so no plots are drawn (on Debian: apt-get install gnuplot-nox)\n"))


class Refusals(InFolder):
    HEAD = 'title = "t"\n'
    FIXED = "[fixed]\nstages = 1\n"
    PROGRAM = 'programs = ["short.s"]\n'

    def refusal(self, text):
        ran = self.study(text)
        self.assertEqual((ran.returncode, ran.stdout), (3, ""), ran.stderr)
        line = ran.stderr.splitlines()[-1]
        self.assertTrue(line.startswith("study: study.toml: "), line)
        return line.removeprefix("study: study.toml: ")

    def test_keys(self):
        whole = self.HEAD + self.PROGRAM + self.FIXED
        for text, fault in (
            ("title", "not toml: Expected '=' after a key in a key/value pair (at end of document)"),
            (self.PROGRAM + self.FIXED, "title: must be a text"),
            ("titel = 1\n" + whole, "titel: unknown key"),
            (self.HEAD + self.FIXED, "programs: give either programs or traffic"),
            (whole + "[traffic]\nrate = [1]\n", "programs: give either programs or traffic"),
            (self.HEAD + "programs = 1\n" + self.FIXED, "programs: must be a list of files or a table with names"),
            (self.HEAD + "programs = [1]\n" + self.FIXED, "programs.1: must be a text"),
            (self.HEAD + 'programs = ["a", "a"]\n' + self.FIXED, "programs: has a value twice"),
            (self.HEAD + 'programs = ["none.s"]\n' + self.FIXED, "programs.none.s: cannot read none.s"),
            (self.HEAD + '[programs]\na = "lib gate 65 1"\n' + self.FIXED, "programs.a: ultra: bad parameter"),
            (self.HEAD + self.PROGRAM, "fixed.stages: is missing"),
            ('before = "none.s"\n' + self.HEAD + self.PROGRAM + self.FIXED, "before: cannot read none.s"),
            ('before = "short.s"\n' + self.HEAD + self.FIXED + "[traffic]\nrate = [1]\n", "before: there are no programs"),
            (whole + "speed = 3\n", "fixed.speed: unknown key"),
            (whole + "open = 9\n", "fixed.open: must be 1 to 8"),
            (whole + "open = true\n", "fixed.open: must be 1 to 8"),
            (whole + "[vary]\nopen = [1, 9]\n", "vary.open: must be 1 to 8"),
            (whole + "[vary]\nopen = 1\n", "vary.open: must be a list with a value"),
            (whole + "[vary]\nopen = []\n", "vary.open: must be a list with a value"),
            (whole + "[vary]\nopen = [1, 1]\n", "vary.open: has a value twice"),
            (whole + "[vary]\nopen = [[1]]\n", "vary.open: must be a list of numbers or texts"),
            (whole + "[vary]\nstages = [1]\n", "fixed.stages: is varied too"),
            (whole + "[vary]\nspeed = [1]\n", "vary.speed: unknown key"),
            ("hot_cells = 0\n" + whole, "hot_cells: must be a list of cells"),
            ("hot_cells = [-1]\n" + whole, "hot_cells: must be a list of cells"),
            ("fixed = 1\n" + self.HEAD + self.PROGRAM, "fixed: must be a table"),
            ("vary = 1\n" + whole, "vary: must be a table"),
            ("traffic = 1\n" + self.HEAD + self.FIXED, "traffic: must be a table"),
            ("columns = 1\n" + whole, "columns: must be a table"),
            ("plot = 1\n" + whole, "plot: must be tables [[plot]]"),
            ("plot = [1]\n" + whole, "plot[0]: must be a table"),
            (whole + '[columns]\n"a b" = "1"\n', "columns.a b: must be a name"),
            (whole + '[[plot]]\ntitle = "t"\nx = "pes"\nline = 1\n', "plot[0].line: must be tables [[plot.line]]"),
            (whole + '[[plot]]\ntitle = "t"\nx = "pes"\nline = [1]\n', "plot[0].line[0]: must be a table"),
        ):
            self.assertEqual(self.refusal(text), fault)

    def test_names_in_programs(self):
        (self.folder / "short.s").write_text("halt\nli r1 $rounds\n")
        whole = self.HEAD + self.PROGRAM + self.FIXED
        self.assertEqual(self.refusal(whole), "programs.short.s: short.s: line 2: $rounds is neither varied nor fixed")
        for text, fault in (
            ("rounds = true\n", "fixed.rounds: must be a number or a text"),
            ('rounds = "1\\nhalt"\n', "fixed.rounds: must be one line"),
            ('rounds = ""\n', "fixed.rounds: must be one line"),
            ("rounds = 1\nround = 1\n", "fixed.round: unknown key"),
            ("rounds = 1\n[vary]\nrounds = [1]\n", "fixed.rounds: is varied too"),
            ("[vary]\nrounds = [1]\nprogram = [1]\n", "vary.program: is a column already"),
        ):
            self.assertEqual(self.refusal(whole + text), fault)
        self.assertEqual(self.refusal(self.HEAD + self.FIXED + "[traffic]\nrate = [1]\n[vary]\nrate = [1]\n"), "vary.rate: is a column already")
        for text, line in (("halt\n$ halt", 2), ("$5", 1), ("$$\n\nli r1 $\n", 3)):
            (self.folder / "short.s").write_text(text)
            fault = f"programs.short.s: short.s: line {line}: a $ without a name (a $ alone is written $$)"
            self.assertEqual(self.refusal(whole), fault)

    def test_seeds(self):
        whole, traffic = self.HEAD + self.PROGRAM + self.FIXED, self.HEAD + self.FIXED + "[traffic]\nrate = [1]\n"
        for text, fault in (
            ("seeds = 1\n" + traffic, "seeds: must be 2 to 100"), ("seeds = 101\n" + traffic, "seeds: must be 2 to 100"),
            ("seeds = true\n" + traffic, "seeds: must be 2 to 100"), ("seeds = 3\n" + traffic + "seed = [1]\n", "seeds: there is a seed too"),
            ("seeds = 3\n" + whole + "seed = 1\n", "seeds: there is a seed too"), ("seeds = 3\n" + whole, "seeds: no program has $seed"),
            ("seeds = 3\n" + traffic + '[columns]\na = "to_ci"\n', "columns.a: there is no column to_ci"),
            ("seeds = 3\n" + traffic + '[columns]\nto_ci = "to"\n', "columns.to_ci: is a column already"),
            ("seeds = 3\n" + traffic + '[columns]\na_ci = "pes"\na = "to"\n', "columns.a: a_ci is a column already"),
            ("seeds = 3\n" + traffic + '[[plot]]\ntitle = "t"\nx = "rate_ci"\ny = "to_ci"\n', "plot[0].x: there is no column rate_ci"),
        ):
            self.assertEqual(self.refusal(text), fault)

    def test_initial(self):
        whole = self.HEAD + self.PROGRAM + self.FIXED
        pairs = "fixed.initial: must be a list of pairs [address, value]"
        for text, fault in (
            ("5", pairs), ("[1, 2]", pairs), ("[[1]]", pairs), ("[[1, true]]", pairs), ("[[1, 2, 3]]", pairs),
            ("[[-1, 2]]", "fixed.initial: there is no cell -1"), ("[[1, 4294967296]]", "fixed.initial: 4294967296 isn't below 4294967296"),
            ("[[1, 2], [1, 3]]", "fixed.initial: has a cell twice"),
            ("[[32, 1]]", "fixed.initial: there is no cell 32 where stages = 1 and cells = 16"),
            ("[[4, 1]]\n[vary]\ncells = [4, 2]", "fixed.initial: there is no cell 4 where stages = 1 and cells = 2"),
        ):
            self.assertEqual(self.refusal(f"{whole}initial = {text}\n"), fault)

    def test_traffic(self):
        head = self.HEAD + self.FIXED + "[traffic]\n"
        for text, fault in (
            ("rate = [1]\nthink = [9]\n", "traffic: give either rate or think"),
            ("rate = [1]\nheat = [1]\n", "traffic.heat: unknown key"),
            ("rate = 1\n", "traffic.rate: must be a list with a value"),
            ('rate = ["fast"]\n', "traffic.rate: must be numbers"),
            ("rate = [1]\nhot = [0.5]\n", "traffic.hot: must be numbers"),
            ("rate = [1]\noperation = [1]\n", "traffic.operation: must be texts"),
            ("rate = [1]\npattern = [1]\n", "traffic.pattern: must be texts"),
            ("rate = [1]\npattern = [\"shuffle\"]\nhot = [1]\n", "traffic.hot: is for the pattern uniform"),
            ("rate = [1]\nburst = [0.5]\n", "traffic.burst: must be 1 to 64"),
            ("rate = [20]\n", "traffic.rate: must be 0.04 to 16.32 here"),
            ("rate = [1]\nhot = [2000]\n", "traffic.hot: must be 0 to 1024"),
            ("rate = [1]\noperation = [\"add\"]\n", "traffic.operation: must be load, store, faa or swap"),
        ):
            self.assertEqual(self.refusal(head + text), fault)

    def test_formulas(self):
        for text, fault in (
            ('where = "stages >"' + SMALL, "where: isn't a formula"),
            ("where = 1" + SMALL, "where: must be a formula in quotes"),
            ('where = "open > 1"' + SMALL, "where: there is no column open"),
            ('where = "stages > 2"' + SMALL, "where: leaves no point"),
            (SMALL + '[columns]\na = "print(1)"\n', "columns.a: may only have names, numbers, texts, + - * / // %, comparisons, and, or, not"),
        ):
            self.assertEqual(self.refusal(text), fault)

    def test_plots(self):
        plot, same = SMALL + '[[plot]]\ntitle = "t"\n', 'x = "pes"\ny = "to"\n'
        for text, fault in (
            (SMALL + "plot = 1\n", "programs.plot: must be a text"),
            (SMALL + '[[plot]]\nx = "pes"\ny = "to"\n', "plot[0].title: must be a text"),
            (plot + 'y = "to"\n', "plot[0].x: must be a text"),
            (plot + 'x = "pes"\n', "plot[0].y: must be a text"),
            (plot + 'x = "pes"\ny = "to"\nlog = "z"\n', "plot[0].log: must be x, y or xy"),
            (plot + 'x = "pes"\ny = "to"\nby = "pes"\n', "plot[0].by: must be a list of columns"),
            (plot + 'x = "pes"\ny = "to"\nname = "a/b"\n', "plot[0].name: must be a name"),
            (plot + 'x = "pes"\ny = "to"\ncolor = 1\n', "plot[0].color: unknown key"),
            (plot + 'x = "program"\ny = "to"\nby = ["stages", "wait_places"]\n', "plot[0]: the column program isn't numbers"),
            (plot + 'x = "pes"\n[[plot.line]]\ny = "to"\nwidth = 1\n', "plot[0].line[0].width: unknown key"),
            (plot + 'x = "pes"\n[[plot.line]]\ny = "to"\ndashed = 1\n', "plot[0].line[0].dashed: must be true or false"),
            (plot + same + 'name = "p"\n[[plot]]\ntitle = "t"\nname = "p"\n' + same, "plot[1].name: is that of another plot"),
            (plot + same + 'name = "plot_1"\n[[plot]]\ntitle = "t"\n' + same, "plot[1].name: is that of another plot"),
        ):
            self.assertEqual(self.refusal(text), fault)

    def test_names_are_checked_before_anything_runs(self):
        plot = SMALL + '[[plot]]\ntitle = "t"\n'
        line = plot + 'x = "pes"\ny = "to"\n[[plot.line]]\ny = "to"\n'
        for text, fault in (
            (plot + 'x = "none"\ny = "to"\n', "plot[0].x: there is no column none"),
            (plot + 'x = "pes"\ny = "none"\n', "plot[0].y: there is no column none"),
            (plot + 'x = "pes"\ny = "to"\nby = ["none"]\n', "plot[0].by: there is no column none"),
            (plot + 'x = "pes"\ny = "to"\nwhere = "none > 1"\n', "plot[0].where: there is no column none"),
            (plot + 'x = "pes"\ny = "to"\nlabel = "of {none}"\n', "plot[0].label: there is no column none"),
            (line.replace('line]]\ny = "to"', 'line]]\ny = "none"'), "plot[0].line[0].y: there is no column none"),
            (line + 'where = "none > 1"\n', "plot[0].line[0].where: there is no column none"),
            (line + 'label = "{none}"\n', "plot[0].line[0].label: there is no column none"),
            (SMALL + '[columns]\na = "none + 1"\n', "columns.a: there is no column none"),
            (SMALL + '[columns]\na = "b"\nb = "to"\n', "columns.a: there is no column b"),
            (SMALL + '[columns]\nhot_answered = "to"\na = "other_answered"\n', "columns.a: there is no column other_answered"),
            ("hot_cells = [0]\n" + SMALL + '[columns]\nhot_answered = "to"\n', "columns.hot_answered: is a column already"),
            (SMALL + '[columns]\npes = "to"\n', "columns.pes: is a column already"),
            (SMALL.replace("wait_places", "answered"), "vary.answered: is a column already"),
        ):
            self.assertEqual(self.refusal(text), fault)
            self.assertEqual(self.sweeps(), [])

    def test_a_program_that_is_refused(self):
        (self.folder / "short.s").write_text("halt\n\nfrobnicate r1\n")
        self.assertEqual(self.refusal(SMALL), "programs.short: short.s: line 3: unknown word")
        (self.folder / "short.s").write_text("halt\nli r1 $rounds\n$op r1\n")
        fault = "programs.short: short.s: line 3: unknown word, where op = frobnicate, rounds = 5"
        self.assertEqual(self.refusal(SMALL.replace("[programs]", 'op = ["faa", "frobnicate"]\n[programs]') + "[fixed]\nrounds = 5\n"), fault)
        self.assertEqual(self.sweeps(), [])

    def test_arguments(self):
        for arguments, fault in (
            (["--jobs", "257"], "argument --jobs: must be 1 to 256"), (["--workers", "0"], "argument --workers: must be 1 to 64"),
            (["--with", "cloud"], "argument --with: invalid choice"),
            (["--engine-args='a"], "argument --engine-args: No closing quotation"),
        ):
            ran = self.study(SMALL, *arguments)
            self.assertEqual(ran.returncode, 2)
            self.assertIn(fault, ran.stderr)
        self.assertIn("study: --engine-args is for parallel and slurm\n", self.study(SMALL, "--engine-args", "x").stderr)

    def test_a_missing_file_or_engine(self):
        with self.bare_path():
            ran = self.study(SMALL, "--with", "slurm")
        self.assertEqual((ran.returncode, ran.stderr.splitlines()[-1]), (1, "study: there is no command sbatch"))
        for name, fault in (("/none/ultra", "there is no program /none/ultra"), ("/bin/false", "/bin/false --version failed")):
            ran = self.study(SMALL, ultra=name)
            self.assertEqual((ran.returncode, ran.stderr), (1, f"study: {fault}\n"))
        ran = subprocess.run([STUDIES / "study", "none.toml"], cwd=self.folder, capture_output=True, text=True)
        self.assertEqual((ran.returncode, ran.stderr), (3, "study: cannot read none.toml\n"))


if __name__ == "__main__":
    unittest.main()
