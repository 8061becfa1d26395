"""Formulas over the columns of a table: arithmetic, comparisons, `and`, `or` and `not`. They are read, never run."""

import ast
import operator
import re
import sys

BINARY = {
    ast.Add: operator.add, ast.Sub: operator.sub, ast.Mult: operator.mul, ast.Div: operator.truediv,
    ast.FloorDiv: operator.floordiv, ast.Mod: operator.mod,
}
COMPARED = {
    ast.Lt: operator.lt, ast.LtE: operator.le, ast.Gt: operator.gt, ast.GtE: operator.ge,
    ast.Eq: operator.eq, ast.NotEq: operator.ne,
}
MOST_LEVELS = 200  # far fewer than the calls that Python lets be open at once
NESTED = "is nested too deeply"
GREATEST = sys.float_info.max
DECIMALS = 5
# `from` is a column, but a word of Python's own
FROM_OR_TEXT = re.compile(r"""\bfrom\b|'[^']*'|"[^"]*\"""")
FROM = "__from__"


class FormulaFault(ValueError):
    """What is wrong with a formula, in a few words."""


def without_texts(*operands):
    """The operands of arithmetic. A text isn't one of them: Python would format or repeat it."""
    if any(isinstance(it, ast.Constant) and isinstance(it.value, str) for it in operands):
        raise FormulaFault("has arithmetic with a text")
    return operands


def calculated(operation, left, right):
    """Arithmetic with the values of columns, of which some may be texts."""
    if isinstance(left, str) or isinstance(right, str):
        raise TypeError("a text has no arithmetic")
    return BINARY[type(operation)](left, right)


class Formula:
    """A formula that was accepted: its text, and the names that occur in it."""

    def __init__(self, text):
        try:
            named = FROM_OR_TEXT.sub(lambda it: FROM if it[0] == "from" else it[0], " ".join(text.split()))
            self._tree = ast.parse(named, mode="eval").body
        except (SyntaxError, ValueError):
            raise FormulaFault("isn't a formula") from None
        except (RecursionError, MemoryError):
            raise FormulaFault(NESTED) from None
        self.text = text
        self.names = set()
        self._accept(self._tree, 1)

    def _accept(self, node, level):
        if level > MOST_LEVELS:
            raise FormulaFault(NESTED)
        parts = []
        match node:
            case ast.Name():
                node.id = "from" if node.id == FROM else node.id
                self.names.add(node.id)
            case ast.Constant(value=int() | float() | str()):
                pass
            case ast.BinOp() if type(node.op) in BINARY:
                parts = without_texts(node.left, node.right)
            case ast.UnaryOp(op=ast.USub()):
                parts = without_texts(node.operand)
            case ast.UnaryOp(op=ast.Not()):
                parts = [node.operand]
            case ast.BoolOp():
                parts = node.values
            case ast.Compare() if all(type(it) in COMPARED for it in node.ops):
                parts = [node.left, *node.comparators]
            case _:
                raise FormulaFault("may only have names, numbers, texts, + - * / // %, comparisons, and, or, not")
        for it in parts:
            self._accept(it, level + 1)

    def value(self, row):
        """Its value in a row. None where it can't be calculated.

        A value that it needs is empty, it calculates with a text, it divides by 0, or its number is too large.
        """
        try:
            found = self._value(self._tree, row)
        except (TypeError, ArithmeticError):
            return None
        if isinstance(found, (int, float)) and not -GREATEST <= found <= GREATEST:
            return None
        return found

    def _value(self, node, row):
        match node:
            case ast.Name():
                return row[node.id]
            case ast.Constant():
                return node.value
            case ast.BinOp():
                return calculated(node.op, self._value(node.left, row), self._value(node.right, row))
            case ast.UnaryOp(op=ast.Not()):
                return not self._value(node.operand, row)
            case ast.UnaryOp():
                return -self._value(node.operand, row)
            case ast.BoolOp(op=ast.And()):
                return all(self._value(it, row) for it in node.values)
            case ast.BoolOp():
                return any(self._value(it, row) for it in node.values)
        values = [self._value(it, row) for it in (node.left, *node.comparators)]
        return all(COMPARED[type(it)](a, b) for it, a, b in zip(node.ops, values, values[1:]))


def number(text):
    """The value of a table's field: a number, a text, or None where it is empty."""
    if text == "":
        return None
    for kind in (int, float):
        try:
            return kind(text)
        except ValueError:
            pass
    return text


def shown(value):
    """A value as a table has it: a number that isn't whole gets five decimals."""
    if value is None:
        return ""
    return f"{value:.{DECIMALS}f}" if isinstance(value, float) else str(value)
