"""The tables in the tree: what must be true of them, whatever the machine did."""

import csv
import unittest

from support import STUDIES


def rows(study, table="results"):
    with open(STUDIES / study / f"{table}.csv", newline="") as file:
        return list(csv.DictReader(file))


class Tables(unittest.TestCase):
    def test_no_machine_is_above_the_bound_of_pfister_and_norton(self):
        found = [it for it in rows("hot_spot") if it["wait_places"] == "0" and it["hot"] != "0"]
        self.assertEqual(len(found), 54)
        for it in found:
            self.assertLessEqual(float(it["references"]) - float(it["references_ci"]), float(it["bound"]), it["hot"])
            # a module acts at most once in a cycle
            self.assertLessEqual(int(it["acts_most_greatest"]), 20_000)

    def test_hot_and_other_answers_are_all(self):
        for study in ("hot_spot", "tails"):
            for it in rows(study):
                self.assertAlmostEqual(float(it["hot_answered"]) + float(it["other_answered"]), float(it["answered"]), places=4)

    def test_the_distributions_are_those_of_the_answers(self):
        table, sums = {(it["wait_places"], it["hot"]): it for it in rows("tails")}, {}
        for it in rows("tails", "latencies"):
            key = it["wait_places"], it["hot"], it["of"]
            sums[key] = sums.get(key, 0) + int(it["answered"])
        self.assertEqual(len(sums), 9)
        for (*point, of), answered in sums.items():
            self.assertAlmostEqual(answered / 5, float(table[tuple(point)][f"{of}_answered"]), places=4)

    def test_the_queues_of_a_stage_have_its_measures(self):
        for study, names in (("tails", ("wait_places", "hot")), ("hot_spot", ("stages", "request_places", "wait_places", "hot"))):
            table, sums = {tuple(it[name] for name in names): it for it in rows(study)}, {}
            for it in rows(study, "queues"):
                for measure in ("combined", "request_queue_sum", "records_sum", "full_waits", "reply_queue_sum"):
                    key = tuple(it[name] for name in names), f"{measure}_{it['stage']}"
                    sums[key] = sums.get(key, 0) + float(it[measure])
            self.assertGreaterEqual(len(sums), 30)
            for (point, column), value in sums.items():
                self.assertAlmostEqual(value, float(table[point][column]), places=3, msg=column)

    def test_percentiles_rise(self):
        for it in rows("tails"):
            for kind in ("", "hot_", "other_"):
                if it[f"{kind}p50"]:
                    found = [float(it[f"{kind}p{percent}"]) for percent in (50, 90, 99)]
                    self.assertEqual(found, sorted(found))


if __name__ == "__main__":
    unittest.main()
