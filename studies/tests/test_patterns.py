"""The tables of the studies *passable* and *patterns* against the theory of the Omega network (Lawrie, 1975)."""

import csv
import unittest
from collections import Counter

from support import STUDIES

PATTERNS = {
    "bit_complement": lambda p, bits: 2**bits - 1 - p,
    "bit_reversal": lambda p, bits: int(f"{p:0{bits}b}"[::-1], 2),
    "transpose": lambda p, bits: rotated(p, bits, bits // 2),
    "shuffle": lambda p, bits: rotated(p, bits, 1),
    "tornado": lambda p, bits: (p + 2**bits // 2 - 1) % 2**bits,
    "neighbour": lambda p, bits: (p + 1) % 2**bits,
}


def rotated(p, bits, places):
    text = f"{p:0{bits}b}"
    return int(text[places:] + text[:places], 2)


def most_paths(modules):
    """The most PEs whose paths share a queue, where PE p refers to the module modules[p] alone.

    After stage s a path is at the position whose number has the low bits of p and then the high s + 1 bits of the module.
    """
    bits = len(modules).bit_length() - 1
    return max(
        max(Counter((p % 2 ** (bits - 1 - stage), module >> (bits - 1 - stage)) for p, module in enumerate(modules)).values())
        for stage in range(bits)
    )


def rows(study):
    with open(STUDIES / study / "results.csv", newline="") as file:
        return list(csv.DictReader(file))


class Theory(unittest.TestCase):
    def test_passable(self):
        table = rows("passable")
        self.assertEqual(len({tuple(it[f"m{p}"] for p in range(4)) for it in table}), 24)
        for row in table:
            is_free = most_paths([int(row[f"m{p}"]) for p in range(4)]) == 1
            self.assertEqual((row["passes"], row["answered"]), ("1" if is_free else "0", "4"))
        # each of the four switches is set in one of two ways
        self.assertEqual(sum(it["passes"] == "1" for it in table), 2**4)

    def test_patterns(self):
        table = rows("patterns")
        self.assertEqual({(it["pattern"], it["stages"]) for it in table}, {(it, str(n)) for it in PATTERNS for n in range(3, 7)})
        for row in table:
            bits = int(row["stages"])
            paths = most_paths([PATTERNS[row["pattern"]](p, bits) for p in range(2**bits)])
            self.assertEqual(int(row["paths"]), paths)
            self.assertEqual(row["wait_greatest"] == "0", paths == 1)
            self.assertEqual(row["wait_least"] == "0", paths == 1)
            self.assertLessEqual(float(row["references_greatest"]), min(1 / paths, 8 / (2 * bits + 3)))


if __name__ == "__main__":
    unittest.main()
