"""Programs that make a load for the memory: `studies/traffic` writes them, and a study runs them."""

import math

from library.draws import OPERATIONS, WORD, LoadFault, address, draw, generator, hot_bound, noted, reference
from library.permutations import PERMUTATIONS
from library.schedule import scheduled

PATTERNS = ("uniform", *PERMUTATIONS)
SPREAD = 1024  # cells of a load for which no other number is asked
SLOTS = 8  # chances to refer in one turn of the loop; each has its own register for the answer
DRAW_PARTS = 1024  # a chance is taken with a probability of m / 1024
PAUSE = 3  # instructions of a chance that isn't taken


def steps_of(hot, is_closed):
    """Instructions of a chance that is taken."""
    return 6 + (3 if hot else 0) + (1 if is_closed else 0)


def period_of(parts, hot, is_closed):
    """Cycles from one reference to the next on average, if no answer is waited for."""
    turns = DRAW_PARTS / parts
    return steps_of(hot, is_closed) + PAUSE * (turns - 1) + turns / SLOTS


def parts_of(period, hot, is_closed):
    """The m of the probability m / 1024 whose average period is nearest."""
    turns = (period - steps_of(hot, is_closed) + PAUSE) / (PAUSE + 1 / SLOTS)
    return round(DRAW_PARTS / turns) if turns > 0 else DRAW_PARTS + 1


def bounds(parts, hot, spread):
    """The lines that set what a draw is compared with, where `parts` of 1024 chances are taken."""
    taken = parts * WORD // DRAW_PARTS
    if hot:
        second = noted(f"li r7 {hot_bound(taken, hot)}", f".. and below this one it is hot: {hot} of those 1024")
    else:
        second = noted(f"li r7 {spread - 1}", "the bits of an address")
    first = noted(f"li r6 {min(taken, WORD - 1)}", f"a draw below this number takes its chance to refer: {parts} of 1024")
    return [first, second]


def slot(number, operation, hot, spread, is_closed):
    """One chance to refer."""
    register, line = draw(number)
    lines = [line, f"slt r5 {register} r6", f"jz r5 next{number}"]
    lines += address(register, hot, spread)
    lines.append(reference(operation, number, "r4", register))
    if is_closed:
        lines.append("fence")
    return [*lines, f"next{number}:"]


def checked(pattern, operation, hot, spread, think, burst):
    """Refuses parameters out of their range, and those that don't go together."""
    if pattern not in PATTERNS:
        raise LoadFault("pattern", f"must be {', '.join(PATTERNS[:-1])} or {PATTERNS[-1]}")
    if operation not in OPERATIONS:
        raise LoadFault("operation", "must be load, store, faa or swap")
    if not 0 <= hot <= 1024:
        raise LoadFault("hot", "must be 0 to 1024")
    if spread is not None and (not 2 <= spread <= 4096 or spread & (spread - 1)):
        raise LoadFault("spread", "must be a power of two, 2 to 4096")
    for name, is_given, is_good in (
        ("hot", hot != 0, pattern == "uniform"), ("spread", spread is not None, pattern == "uniform"),
        ("think", think is not None, pattern == "uniform" and burst is None),
    ):
        if is_given and not is_good:
            raise LoadFault(name, "is for the pattern uniform" + (" without bursts" if name == "think" else ""))


def chances_taken(rate, think, hot):
    """How many of 1024 chances to refer are taken, for a rate or for a mean pause."""
    is_closed = think is not None
    if not is_closed and rate <= 0:
        raise LoadFault("rate", "must be above 0")
    # the instruction that refers and the fence aren't part of the pause
    parts = parts_of(think + 2 if is_closed else 100 / rate, hot, is_closed)
    if not 1 <= parts <= DRAW_PARTS:
        least, greatest = (period_of(it, hot, is_closed) for it in (DRAW_PARTS, 1))
        low, high = (least - 2, greatest - 2) if is_closed else (100 / greatest, 100 / least)
        key = "think" if is_closed else "rate"
        raise LoadFault(key, f"must be {math.ceil(100 * low) / 100} to {math.floor(100 * high) / 100} here")
    return parts


def by_chance(rate, think, operation, hot, spread, seed):
    """The lines of a program in which a PE draws whether it refers or pauses."""
    parts, is_closed = chances_taken(rate, think, hot), think is not None
    return [
        *generator(seed),
        *bounds(parts, hot, spread),
        noted("again:", "eight chances to refer; a draw that isn't below r6 is a pause"),
        *(line for it in range(SLOTS) for line in slot(it, operation, hot, spread, is_closed)),
        "jmp again",
    ]


def head(pattern, rate, think, operation, hot, spread, burst, seed):
    """The comments at the beginning: the arguments that write this program, and what kind of load it is."""
    how = f"--rate {rate:g}" if think is None else f"--think {think:g}"
    if pattern != "uniform":
        how = f"--pattern {pattern} {how}"
    where = f" --hot {hot} --spread {spread}" if pattern == "uniform" else ""
    bursts = "" if burst is None else f" --burst {burst:g}"
    waits = "open loop: a PE doesn't wait for answers" if think is None else "closed loop: a PE waits for its answer, then pauses"
    return [f"; studies/traffic {how} --operation {operation}{where}{bursts} --seed {seed}", f"; {waits}"]


def program(*, pattern="uniform", rate=None, think=None, operation="faa", hot=0, spread=None, burst=None, seed=1):
    """The text of the program, where either `rate` or `think` is given. Raises LoadFault."""
    checked(pattern, operation, hot, spread, think, burst)
    spread = SPREAD if spread is None else spread
    if pattern == "uniform" and burst is None:
        body = by_chance(rate, think, operation, hot, spread, seed)
    else:
        body = scheduled(pattern, rate, operation, hot, spread, burst, seed)
    return "\n".join([*head(pattern, rate, think, operation, hot, spread, burst, seed), *body]) + "\n"
