"""What each PE of a load draws for itself: the generator, the address of a reference, and the reference."""

import hashlib

ROUNDS = 16  # rounds that mix the PE's number into its first numbers
OPERATIONS = ("load", "store", "faa", "swap")
ANSWERS = 8  # registers for answers, from this one on; each reference in turn has another
WORD = 2**32


class LoadFault(ValueError):
    """A parameter that a load can't have. Its first argument is the parameter's name."""


def noted(instruction, note):
    return f"{instruction:<24}; {note}"


def digest_of(seed):
    return hashlib.sha256(f"ultra traffic {seed}".encode()).digest()


def first_numbers(seed):
    """Five odd numbers of 32 bits that follow from the seed."""
    digest = digest_of(seed)
    return [int.from_bytes(digest[4 * it:4 * it + 4], "big") | 1 for it in range(5)]


def generator(seed):
    """The lines that run once, before a PE draws a number."""
    numbers = first_numbers(seed)
    return [
        "; r0 to r3 are the generator: each draw adds two of the four words. They begin with numbers that",
        "; come from the seed and the PE's number, so that every PE draws other cells.",
        "pid r0",
        *(f"addi r{it} r{it} {numbers[it]}" for it in range(4)),
        f"li r4 {ROUNDS}",
        noted("mix:", "moves each word on and makes a new first one"),
        "addi r3 r2 0",
        "addi r2 r1 0",
        "addi r1 r0 0",
        "add r5 r0 r0",
        "add r5 r5 r5",
        noted("add r0 r0 r5", "five times the word .."),
        f"addi r0 r0 {numbers[4]}",
        noted("shr r5 r0 15", ".. and its high bits added to the low ones"),
        "add r0 r0 r5",
        "addi r4 r4 4294967295",
        "jnz r4 mix",
        noted("add r3 r3 r3", "one word has to be odd: then the draws repeat after 15 * 2^31"),
        "addi r3 r3 1",
    ]


def hot_bound(taken, hot):
    """The number below which `hot` of 1024 draws are, of those that are below `taken`."""
    return min(taken * hot // 1024, WORD - 1)


def draw(number):
    """The register of a draw, and the line that draws it. Each draw adds two of the four words."""
    register, other = f"r{number % 4}", f"r{(number + 1) % 4}"
    return register, f"add {register} {register} {other}"


def address(register, hot, spread):
    """The lines that put a cell's address into r4, from a draw. r7 is its bits, or the bound of the hot draws."""
    bits = spread.bit_length() - 1
    shift = f"shr r4 {register} {22 - bits}"
    if not hot:
        return [shift, "and r4 r4 r7"]
    return [
        noted(f"slt r5 {register} r7", "1 for the hot cell"),
        noted("addi r5 r5 4294967295", "0 for the hot cell, else all bits .."),
        noted(f"shr r5 r5 {32 - bits}", ".. and then the bits of an address"),
        shift,
        noted("and r4 r4 r5", "cell 0, or any cell"),
    ]


def reference(operation, number, cell, word):
    """The line that refers: `cell` and `word` are registers."""
    register = f"r{ANSWERS + number % ANSWERS}"
    return {
        "load": f"ld {register} {cell}",
        "store": f"st {cell} {word}",
        "faa": f"faa {register} {cell} {word}",
        "swap": f"swap {register} {cell} {word}",
    }[operation]
