"""Loads with a schedule: when to refer is drawn as the program is written, and unrolled in its loop.

All PEs share the schedule. Each begins at another place of it, so that no two do the same at once.
"""

import math
import random
from itertools import pairwise

from library.draws import LoadFault, WORD, address, digest_of, draw, generator, hot_bound, noted, reference
from library.permutations import cells, refer

ENTRIES = 64  # places of the schedule at which PEs begin: as many as there can be PEs
LEAST_RATE = 0.01
MOST_BURST = 64
MINUS_ONE = "addi r4 r4 4294967295"


class Draws:
    """Numbers that follow from a seed. Python promises that `random` gives the same in all versions."""

    def __init__(self, seed):
        self._random = random.Random(int.from_bytes(digest_of(seed), "big")).random

    def below(self, bound):
        return int(self._random() * bound)

    def sample(self, count, bound):
        """Different numbers below a bound, in order."""
        found = set()
        while len(found) < count:
            found.add(self.below(bound))
        return sorted(found)

    def parts(self, total, count):
        """A total as a sum of `count` numbers of at least 1. Each sum is as likely as any other."""
        cuts = [0, *(it + 1 for it in self.sample(count - 1, total - 1)), total]
        return [after - before for before, after in pairwise(cuts)]

    def shuffled(self, items):
        items = list(items)
        for last in range(len(items) - 1, 0, -1):
            other = self.below(last + 1)
            items[last], items[other] = items[other], items[last]
        return items


def pauses_of(draws, references, cycles, bursts):
    """The cycles after each reference without one, all together `cycles`. The last pause isn't 0.

    Without bursts each order of references and pauses is as likely as any other. With bursts this is so of their
    lengths, and of the pauses between them.
    """
    if not bursts:
        found = [it - 1 for it in draws.parts(cycles + references, references)]
    else:
        found = []
        for length, pause in zip(draws.parts(references, bursts), draws.parts(cycles, bursts)):
            found += [0] * (length - 1) + [pause]
    last = next(index for index, it in enumerate(found) if it)
    return found[last + 1:] + found[:last + 1]


def pause_lines(cycles, number):
    """The lines that take this many cycles. A long pause counts down, so that the program stays short."""
    turns = (cycles - 1) // 2
    if turns < 2:
        return ["addi r4 r4 0"] * cycles
    rest = ["addi r4 r4 0"] * (cycles - 1 - 2 * turns)
    return [f"li r4 {turns}", f"pause{number}:", MINUS_ONE, f"jnz r4 pause{number}", *rest]


def entry_lines(draws):
    """The lines by which each PE jumps to its entry, all after the same number of cycles."""
    entries = draws.shuffled(range(ENTRIES))

    def below(first, count):
        if count == 1:
            return [f"jmp enter{entries[first]}"]
        half = count // 2
        label = f"pe{first}_{first + half - 1}"
        head = [f"li r5 {first + half}", "slt r5 r4 r5", f"jnz r5 {label}"]
        return [*head, *below(first + half, half), f"{label}:", *below(first, half)]

    return ["pid r4", *below(0, ENTRIES)]


def drawn_cells(operation, hot, spread, seed):
    """The lines that run once, and a function for those of each reference, where a PE draws its cells."""
    bound = noted(f"li r7 {hot_bound(WORD, hot)}", "a draw below this number is hot") if hot else f"li r7 {spread - 1}"

    def one(number):
        register, line = draw(number)
        return [line, *address(register, hot, spread), reference(operation, number, "r4", register)]

    return [*generator(seed), bound], one


def own_cells(pattern, operation):
    """The same where each PE has cells in one module."""
    return cells(pattern, operation), lambda number: [refer(operation, number)]


def paused(rate, steps, references, bursts):
    """How many cycles of the schedule have no reference. Raises LoadFault."""
    greatest = 100 * references / (references * steps + max(bursts, 1))
    if not LEAST_RATE <= rate <= greatest:
        raise LoadFault("rate", f"must be {LEAST_RATE} to {math.floor(100 * greatest) / 100} here")
    return round(references * 100 / rate) - references * steps


def scheduled(pattern, rate, operation, hot, spread, burst, seed):
    """The lines of a program in which PEs refer at a rate by a schedule. Raises LoadFault."""
    if burst is not None and not 1 <= burst <= MOST_BURST:
        raise LoadFault("burst", f"must be 1 to {MOST_BURST}")
    is_drawn = pattern == "uniform"
    once, one = drawn_cells(operation, hot, spread, seed) if is_drawn else own_cells(pattern, operation)
    references = 256 if is_drawn else 512  # with their pauses all fit into a program
    steps, bursts, draws = len(one(0)), round(references / burst) if burst else 0, Draws(seed)
    pauses = pauses_of(draws, references, paused(rate, steps, references, bursts), bursts)
    loop = []
    for number, pause in enumerate(pauses):
        # PEs begin with a pause: with a reference they would all make it in the same cycle
        entry, is_other = divmod(number, references // ENTRIES)
        is_last = number == references - 1  # the jump is a part of its pause
        loop += [*one(number), *([] if is_other else [f"enter{entry}:"]), *pause_lines(pause - is_last, number)]
    return [
        *once, "; each PE goes to its place in the schedule", *entry_lines(draws),
        noted("again:", f"the schedule: {references} references in {references * steps + sum(pauses)} cycles"),
        *loop, "jmp again",
    ]
