"""The value of an expression and the effect of statements (IEC 61131-3, 3.3)."""

import loading
from loading import fits


class Fault(Exception):
    """A fault of a program's scan; its text is the kind, such as DivZero."""


class View:
    """What an expression sees. `read` gives a variable's value, `flag` and `time` those of a step, `q` that of the action.

    `write` is there for statements alone.
    """

    def __init__(self, read, flag, time, q=False, write=None):
        self.read, self.flag, self.time, self.q, self.write = read, flag, time, q, write


COMPARISONS = {
    "=": lambda left, right: left == right,
    "<>": lambda left, right: left != right,
    "<": lambda left, right: left < right,
    ">": lambda left, right: left > right,
    "<=": lambda left, right: left <= right,
    ">=": lambda left, right: left >= right,
    "AND": lambda left, right: left and right,
    "XOR": lambda left, right: left != right,
    "OR": lambda left, right: left or right,
}


def quotient(left: int, right: int) -> int:
    """Integer division, which goes towards zero."""
    if right == 0:
        raise Fault("DivZero")
    size = abs(left) // abs(right)
    return size if (left < 0) == (right < 0) else -size


def remainder(left: int, right: int) -> int:
    """MOD, which has the sign of its left operand; by zero it gives 0."""
    return 0 if right == 0 else left - right * quotient(left, right)


ARITHMETIC = {
    "+": lambda left, right: left + right,
    "-": lambda left, right: left - right,
    "*": lambda left, right: left * right,
    "/": quotient,
    "MOD": remainder,
}


def in_range(value: int, kind: str) -> int:
    """The value, where its type has it; else the fault Range."""
    if not fits(value, kind):
        raise Fault("Range")
    return value


def value(tree, view: View):
    """The value of an expression. Operands are evaluated left to right, both always."""
    if isinstance(tree, loading.Literal):
        return tree.value
    if isinstance(tree, loading.Variable):
        return view.read(tree.place)
    if isinstance(tree, loading.StepFlag):
        return view.flag(tree.step)
    if isinstance(tree, loading.StepTime):
        return view.time(tree.step)
    if isinstance(tree, loading.ActionQ):
        return view.q
    if isinstance(tree, loading.Not):
        return not value(tree.operand, view)
    if isinstance(tree, loading.Minus):
        return in_range(-value(tree.operand, view), tree.type)
    left = value(tree.left, view)
    right = value(tree.right, view)
    if tree.operator in ARITHMETIC:
        return in_range(ARITHMETIC[tree.operator](left, right), tree.type)
    return COMPARISONS[tree.operator](left, right)


def execute(statements: list, view: View):
    """Does what statements say, one after the other; of an IF the first branch whose condition is true."""
    for statement in statements:
        if isinstance(statement, loading.Assign):
            view.write(statement.place, value(statement.value, view))
        else:
            execute(chosen(statement, view), view)


def chosen(choice, view: View) -> list:
    """The statements that an IF executes; no condition behind the first true one is evaluated."""
    for condition, statements in choice.branches:
        if value(condition, view):
            return statements
    return choice.otherwise
