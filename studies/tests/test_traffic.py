"""The programs of studies/traffic: how often they refer, to which cells, and the period of their generator."""

import functools
import subprocess
import unittest
from collections import Counter

from support import STUDIES

from library import load
from library.schedule import Draws

WORD = 2**32
PES = 64


def read(text):
    """A program's instructions with their operands, and the places of its labels."""
    instructions, labels = [], {}
    for line in text.splitlines():
        words = line.split(";")[0].split()
        if words and words[0].endswith(":"):
            labels[words[0][:-1]] = len(instructions)
        elif words:
            instructions.append((words[0], words[1:]))
    return instructions, labels


@functools.cache
def decoded(text):
    """A program's instructions as tuples of a word and numbers: of registers, of places, and those that it has itself."""
    instructions, labels = read(text)

    def value(operand):
        return labels[operand] if operand in labels else int(operand.removeprefix("r"))

    return [(word, *map(value, operands), 0, 0, 0)[:4] for word, operands in instructions]


def references(text, pe, cycles, pes=PES):
    """The references of a PE that is answered at once, with what its register holds: pairs of cycle and cell."""
    instructions, r, place, found = decoded(text), [0] * 16, 0, []
    for cycle in range(cycles):
        word, a, b, c = instructions[place]
        place += 1
        match word:
            case "add":
                r[a] = (r[b] + r[c]) % WORD
            case "addi":
                r[a] = (r[b] + c) % WORD
            case "slt":
                r[a] = int(r[b] < r[c])
            case "jz" | "jnz":
                if (r[a] == 0) == (word == "jz"):
                    place = b
            case "shr":
                r[a] = r[b] >> c
            case "and":
                r[a] = r[b] & r[c]
            case "st":
                found.append((cycle, r[a]))
            case "ld" | "faa" | "swap":
                found.append((cycle, r[b]))
            case "jmp":
                place = a
            case "sub":
                r[a] = (r[b] - r[c]) % WORD
            case "li":
                r[a] = b
            case "pid" | "np":
                r[a] = pe if word == "pid" else pes
            case _:
                assert word == "fence"
    return found


def chi_square(counts, kinds):
    """Pearson's statistic of counts against an even spread over kinds."""
    total = sum(counts.values())
    return sum((counts[it] - total / kinds) ** 2 for it in range(kinds)) * kinds / total


def is_even(counts, kinds):
    """Whether counts are as even as chance makes them: within five standard deviations of the mean of chi-square."""
    return abs(chi_square(counts, kinds) - (kinds - 1)) < 5 * (2 * (kinds - 1)) ** 0.5


def times(left, right):
    return [[sum(a * b for a, b in zip(row, column)) % WORD for column in zip(*right)] for row in left]


def power(matrix, exponent):
    result = [[int(i == j) for j in range(4)] for i in range(4)]
    while exponent:
        if exponent & 1:
            result = times(result, matrix)
        matrix, exponent = times(matrix, matrix), exponent >> 1
    return result


class Generator(unittest.TestCase):
    # x[n] = x[n-4] + x[n-3], on four words from the oldest to the newest
    STEP = [[0, 1, 0, 0], [0, 0, 1, 0], [0, 0, 0, 1], [1, 1, 0, 0]]

    def after(self, state, draws):
        return [row[0] for row in times(power(self.STEP, draws), [[it] for it in state])]

    def test_the_step_is_that_of_the_program(self):
        text = load.program(rate=10)
        for draw in range(load.SLOTS):
            self.assertIn(f"\nadd r{draw % 4} r{draw % 4} r{(draw + 1) % 4}\n", text)

    def test_with_an_odd_word_the_period_is_15_times_2_to_the_31(self):
        period = 15 * 2**31
        for state in ([1, 0, 0, 0], [0, 0, 0, 1], [3, 5, 2, 4294967295], [2654435761, 1, 7, 12345]):
            self.assertEqual(self.after(state, period), state)
            for divisor in (2, 3, 5):
                self.assertNotEqual(self.after(state, period // divisor), state)

    def test_one_of_its_words_is_odd(self):
        self.assertIn("\nadd r3 r3 r3 ", load.program(rate=10))
        self.assertIn("\naddi r3 r3 1\n", load.program(rate=10))


class Spread(unittest.TestCase):
    def cells_of(self, cycles=6000, **parameters):
        text = load.program(**parameters)
        return [[cell for _, cell in references(text, pe, cycles)] for pe in range(PES)]

    def test_cells_are_even(self):
        for seed in (1, 2):
            cells = self.cells_of(rate=16, spread=256, seed=seed)
            self.assertTrue(is_even(Counter(it for pe in cells for it in pe), 256))

    def test_each_pe_is_even(self):
        for cells in self.cells_of(rate=16, spread=64):
            self.assertTrue(is_even(Counter(cells), 64))

    def test_a_cell_says_nothing_about_the_next(self):
        pairs = Counter()
        for cells in self.cells_of(rate=16, spread=16):
            pairs.update(a * 16 + b for a, b in zip(cells, cells[1:]))
        self.assertTrue(is_even(pairs, 256))

    def test_a_cell_says_nothing_about_the_neighbours(self):
        cells, pairs = self.cells_of(rate=16, spread=16), Counter()
        for left, right in zip(cells, cells[1:]):
            pairs.update(a * 16 + b for a, b in zip(left, right))
        self.assertTrue(is_even(pairs, 256))

    def test_a_few_cells_of_most(self):
        for cells in (2, 4096):
            drawn = Counter(it for pe in self.cells_of(rate=10, hot=1, spread=cells) for it in pe)
            self.assertEqual(set(drawn) - set(range(cells)), set())
            self.assertGreater(len(drawn), cells * 9 // 10)

    def test_the_hot_share(self):
        for hot in (32, 512, 1024):
            cells = [it for pe in self.cells_of(rate=10, hot=hot) for it in pe]
            share = hot / 1024 + (1 - hot / 1024) / 1024
            self.assertAlmostEqual(cells.count(0) / len(cells), share, delta=0.01)
            if hot < 1024:
                self.assertTrue(is_even(Counter(it // 16 - 1 for it in cells if it >= 16), 63))

    def test_pes_are_not_in_step(self):
        text = load.program(rate=8)
        cycles = Counter(cycle for pe in range(PES) for cycle, _ in references(text, pe, 4000) if cycle >= 1000)
        self.assertLess(max(cycles.values()), PES // 3)

    def test_another_seed_makes_other_draws(self):
        self.assertNotEqual(self.cells_of(1000, rate=8), self.cells_of(1000, rate=8, seed=2))


class Rate(unittest.TestCase):
    def test_references_in_100_cycles(self):
        for hot, rate in ((0, 1), (0, 8), (0, 16), (64, 1), (64, 10)):
            text = load.program(rate=rate, hot=hot)
            made = sum(len(references(text, pe, 5180)) for pe in range(32))
            self.assertAlmostEqual(made / 32 / 50, rate, delta=0.02 * rate + 0.1)

    def test_pause_of_a_closed_loop(self):
        for think in (10, 40):
            text = load.program(think=think)
            made = sum(len(references(text, pe, 5180)) for pe in range(32))
            self.assertAlmostEqual(32 * 5000 / made - 2, think, delta=0.03 * think)

    def test_the_greatest_rate_is_the_one_that_the_page_names(self):
        self.assertAlmostEqual(100 / load.period_of(1024, 0, False), 16.32, delta=0.01)
        self.assertAlmostEqual(100 / load.period_of(1024, 1, False), 10.95, delta=0.01)


class Permutations(unittest.TestCase):
    # the module of each PE, by the formulas of the page
    MODULES = {
        "bit_complement": [7, 6, 5, 4, 3, 2, 1, 0], "bit_reversal": [0, 4, 2, 6, 1, 5, 3, 7],
        "transpose": [0, 2, 4, 6, 1, 3, 5, 7], "shuffle": [0, 2, 4, 6, 1, 3, 5, 7],
        "tornado": [3, 4, 5, 6, 7, 0, 1, 2], "neighbour": [1, 2, 3, 4, 5, 6, 7, 0],
    }
    MODULES_OF_16 = {
        "transpose": [0, 4, 8, 12, 1, 5, 9, 13, 2, 6, 10, 14, 3, 7, 11, 15],
        "shuffle": [0, 2, 4, 6, 8, 10, 12, 14, 1, 3, 5, 7, 9, 11, 13, 15],
        "bit_reversal": [0, 8, 4, 12, 2, 10, 6, 14, 1, 9, 5, 13, 3, 11, 7, 15],
    }

    def modules(self, pattern, pes, operation="load"):
        """The module of each PE, after a look at its cells: eight of this module, in turn."""
        found, text = [], load.program(pattern=pattern, rate=50, operation=operation)
        for pe in range(pes):
            cells = [cell for _, cell in references(text, pe, 200, pes)]
            module = cells[0] % pes
            self.assertEqual(set(cells), {module + pes * it for it in range(8)})
            self.assertTrue(all(len(set(cells[it:it + 8])) == 8 for it in range(8, len(cells) - 8)))
            found.append(module)
        return found

    def test_modules(self):
        for pattern, expected in self.MODULES.items():
            self.assertEqual(self.modules(pattern, 8), expected, pattern)
        for pattern, expected in self.MODULES_OF_16.items():
            self.assertEqual(self.modules(pattern, 16, "store"), expected, pattern)

    def test_each_module_has_one_pe(self):
        for pattern in self.MODULES:
            for pes in (2, 4, 32, 64):
                self.assertEqual(sorted(self.modules(pattern, pes)), list(range(pes)), pattern)

    def test_a_cell_keeps_its_address(self):
        for operation, line in (("load", "ld r8 r8"), ("faa", "faa r8 r8 r3"), ("swap", "swap r8 r8 r8")):
            instructions, _ = read(load.program(pattern="shuffle", rate=5, operation=operation))
            self.assertIn(("st", ["r8", "r8"]), instructions)
            self.assertIn((line.split()[0], line.split()[1:]), instructions)
            self.assertEqual(("li", ["r3", "0"]) in instructions, operation == "faa")
        self.assertEqual(load.program(pattern="shuffle", rate=5, operation="store").count("st r8 r8\n"), 64)


class Schedule(unittest.TestCase):
    START = 60  # cycles before a PE without drawn cells is in the schedule

    def runs(self, text, pe, cycles, steps):
        """How many references there are without a pause between them: one number for each burst."""
        cycles_of = [cycle for cycle, _ in references(text, pe, cycles)]
        lengths = [1]
        for before, after in zip(cycles_of, cycles_of[1:]):
            if after - before == steps:
                lengths[-1] += 1
            else:
                lengths.append(1)
        return lengths[1:-1]

    def test_references_in_100_cycles(self):
        for rate in (0.5, 5, 50, 95):
            text, turn = load.program(pattern="tornado", rate=rate, operation="store"), round(51200 / rate)
            for pe in (0, 63):
                made = [cycle for cycle, _ in references(text, pe, turn + self.START)]
                self.assertEqual(sum(self.START <= it for it in made), 512)

    def test_a_reference_comes_with_the_same_probability_in_each_cycle(self):
        lengths = self.runs(load.program(pattern="tornado", rate=50, operation="store"), 0, 5000, 1)
        self.assertAlmostEqual(sum(lengths) / len(lengths), 2, delta=0.3)
        self.assertAlmostEqual(lengths.count(1) / len(lengths), 0.5, delta=0.1)

    def test_bursts(self):
        for burst in (1, 4, 32):
            text = load.program(pattern="tornado", rate=20, burst=burst, operation="store")
            lengths = self.runs(text, 0, 8000, 1)
            self.assertAlmostEqual(sum(lengths) / len(lengths), burst, delta=0.15 * burst)
            self.assertEqual(len(set(lengths)) > 1, burst > 1)
        for hot, steps in ((0, 4), (128, 7)):
            text = load.program(rate=5, burst=8, hot=hot)
            lengths = self.runs(text, 3, 10_000, steps)
            self.assertAlmostEqual(sum(lengths) / len(lengths), 8, delta=1.2)
            made = [cell for cycle, cell in references(text, 3, 30_000)]
            self.assertAlmostEqual(len(made) / 300, 5, delta=0.3)
            self.assertAlmostEqual(made.count(0) / len(made), hot / 1024, delta=0.03)

    def test_cells_of_bursts_are_even(self):
        text = load.program(rate=20, burst=8, spread=64)
        cells = Counter(cell for pe in range(PES) for _, cell in references(text, pe, 2000))
        self.assertTrue(is_even(cells, 64))

    def test_no_two_pes_begin_at_the_same_place(self):
        text = load.program(pattern="neighbour", rate=10, operation="store")
        found = {tuple(cycle for cycle, _ in references(text, pe, 400)) for pe in range(PES)}
        self.assertEqual(len(found), PES)
        cycles = Counter(it for pe in found for it in pe)
        self.assertLess(max(cycles.values()), PES // 3)

    def test_another_seed_makes_another_schedule(self):
        first, second = (load.program(pattern="shuffle", rate=10, seed=it) for it in (1, 2))
        self.assertNotEqual(first.split("again:")[1], second.split("again:")[1])

    def test_programs_are_short_enough(self):
        for parameters in (
            {"pattern": "transpose", "rate": 0.01}, {"pattern": "bit_reversal", "rate": 10, "burst": 1}, {"rate": 5, "burst": 1, "hot": 9},
            {"rate": 0.01, "burst": 64, "hot": 1024},
        ):
            self.assertLess(len(read(load.program(**parameters))[0]), 4096)

    def test_parts(self):
        draws, counts = Draws(1), Counter()
        for _ in range(6000):
            counts[tuple(draws.parts(5, 3))] += 1
        self.assertEqual({sum(it) for it in counts}, {5})
        places = {it: index for index, it in enumerate(sorted(counts))}
        self.assertEqual(len(places), 6)
        self.assertTrue(is_even(Counter({places[it]: count for it, count in counts.items()}), 6))


class Text(unittest.TestCase):
    def test_operations(self):
        for operation, word in (("load", "ld r8 r4"), ("store", "st r4 r0"), ("faa", "faa r8 r4 r0"), ("swap", "swap r8 r4 r0")):
            self.assertIn(f"\n{word}\n", load.program(rate=5, operation=operation))

    def test_only_a_closed_loop_waits(self):
        self.assertNotIn("\nfence\n", load.program(rate=5))
        self.assertEqual(load.program(think=20).count("\nfence\n"), load.SLOTS)

    def refusal(self, *arguments):
        ran = subprocess.run([STUDIES / "traffic", *arguments], capture_output=True, text=True)
        self.assertEqual((ran.returncode, ran.stdout), (2, ""))
        return ran.stderr

    def test_refusals(self):
        self.assertEqual(self.refusal("--rate", "17"), "traffic: --rate must be 0.04 to 16.32 here\n")
        self.assertEqual(self.refusal("--rate", "11", "--hot", "1"), "traffic: --rate must be 0.04 to 10.95 here\n")
        self.assertEqual(self.refusal("--rate", "0"), "traffic: --rate must be above 0\n")
        self.assertEqual(self.refusal("--think", "1"), "traffic: --think must be 5.13 to 3202.0 here\n")
        self.assertEqual(self.refusal("--rate", "5", "--hot", "1025"), "traffic: --hot must be 0 to 1024\n")
        self.assertEqual(self.refusal("--rate", "5", "--spread", "48"), "traffic: --spread must be a power of two, 2 to 4096\n")
        self.assertEqual(self.refusal("--rate", "5", "--operation", "add"), "traffic: --operation must be load, store, faa or swap\n")
        names = "uniform, bit_complement, bit_reversal, transpose, shuffle, tornado or neighbour"
        self.assertEqual(self.refusal("--rate", "5", "--pattern", "mesh"), f"traffic: --pattern must be {names}\n")

    def test_refusals_of_permutations_and_bursts(self):
        own = ("--pattern", "shuffle", "--rate")
        self.assertEqual(self.refusal(*own, "99.9"), "traffic: --rate must be 0.01 to 99.8 here\n")
        self.assertEqual(self.refusal(*own, "60", "--burst", "1"), "traffic: --rate must be 0.01 to 50.0 here\n")
        self.assertEqual(self.refusal("--rate", "25", "--burst", "32"), "traffic: --rate must be 0.01 to 24.8 here\n")
        self.assertEqual(self.refusal(*own, "5", "--burst", "65"), "traffic: --burst must be 1 to 64\n")
        self.assertEqual(self.refusal(*own, "5", "--hot", "1"), "traffic: --hot is for the pattern uniform\n")
        self.assertEqual(self.refusal(*own, "5", "--spread", "64"), "traffic: --spread is for the pattern uniform\n")
        fault = "traffic: --think is for the pattern uniform without bursts\n"
        self.assertEqual(self.refusal("--pattern", "shuffle", "--think", "9"), fault)
        self.assertEqual(self.refusal("--think", "9", "--burst", "2"), fault)

    def test_the_program_it_writes(self):
        ran = subprocess.run([STUDIES / "traffic", "--rate", "5"], capture_output=True, text=True)
        self.assertEqual((ran.returncode, ran.stdout), (0, load.program(rate=5.0)))


if __name__ == "__main__":
    unittest.main()
