"""The permutations of the field, as programs: PE p refers to the cells of module f(p) alone. N is a power of two.

docs/STUDIES.md has the formulas. The lines leave f(p) in r2. They find N in r0 and p in r1, and may change r1 to r7.
"""

from library.draws import noted

MINUS_ONE = 4294967295
CELLS = 8  # each PE refers to this many cells in turn


def rotate(on_small):
    """Lines that rotate the bits of r2 left by one. Where the highest was 0 they jump to a label."""
    return [
        "add r2 r2 r2",
        "slt r4 r2 r0",
        f"jnz r4 {on_small}",
        noted("sub r2 r2 r0", "the highest bit becomes the lowest"),
        "addi r2 r2 1",
    ]


def bit_complement():
    return ["sub r2 r0 r1", noted(f"addi r2 r2 {MINUS_ONE}", "N - 1 - p")]


def bit_reversal():
    return [
        "li r2 0",
        "li r3 1",
        "shr r5 r0 1",
        noted("turn:", "moves the lowest bit of r1 to r2, once for each stage"),
        "add r2 r2 r2",
        "and r4 r1 r3",
        "add r2 r2 r4",
        "shr r1 r1 1",
        "shr r5 r5 1",
        "jnz r5 turn",
    ]


def transpose():
    return [
        "addi r2 r1 0",
        "addi r5 r0 0",
        noted("turn:", "rotates once for each two stages"),
        "shr r5 r5 2",
        "jz r5 turned",
        *rotate("turn"),
        "jmp turn",
        "turned:",
    ]


def shuffle():
    return ["addi r2 r1 0", *rotate("turned"), "turned:"]


def sum_modulo():
    return [noted(f"addi r4 r0 {MINUS_ONE}", "modulo N"), "and r2 r2 r4"]


def tornado():
    return ["shr r4 r0 1", "add r2 r1 r4", noted(f"addi r2 r2 {MINUS_ONE}", "p + N / 2 - 1"), *sum_modulo()]


def neighbour():
    return ["addi r2 r1 1", *sum_modulo()]


PERMUTATIONS = {it.__name__: it for it in (bit_complement, bit_reversal, transpose, shuffle, tornado, neighbour)}


def cells(permutation, operation):
    """The lines that put the cells of a PE into r8 to r15, and their addresses into the cells.

    So an answer is the address of its cell, and a register keeps it.
    """
    lines = ["np r0", "pid r1", *PERMUTATIONS[permutation](), noted("addi r8 r2 0", "r8 to r15 are the PE's cells in module r2")]
    lines += [f"add r{it} r{it - 1} r0" for it in range(9, 8 + CELLS)]
    if operation != "store":
        lines.append("; each cell holds its own address, so an answer leaves its register as it was")
        lines += [f"st r{it} r{it}" for it in range(8, 8 + CELLS)]
        lines.append("fence")
    return [*lines, "li r3 0"] if operation == "faa" else lines


def refer(operation, number):
    """The line of a reference to the PE's cells in turn. Fetch-and-add adds 0: the cell keeps its address."""
    cell = f"r{8 + number % CELLS}"
    return {"load": f"ld {cell} {cell}", "store": f"st {cell} {cell}", "faa": f"faa {cell} {cell} r3", "swap": f"swap {cell} {cell} {cell}"}[operation]
