"""The text of a typed expression, as listings have it (IEC 61131-3, 3.3.1): declared names, typed literals, few parentheses."""

import loading
from lexer import time_text

LEVELS = {"OR": 0, "XOR": 1, "AND": 2, "=": 3, "<>": 3, "<": 4, ">": 4, "<=": 4, ">=": 4, "+": 5, "-": 5, "*": 6, "/": 6, "MOD": 6}
PREFIX = 7


def value_text(kind: str, value) -> str:
    """A value as scripts and outputs have it."""
    if kind == "BOOL":
        return "TRUE" if value else "FALSE"
    return time_text(value) if kind == "TIME" else str(value)


def literal_text(tree) -> str:
    """A literal; a whole number has its type in front."""
    return value_text(tree.type, tree.value) if tree.type in ("BOOL", "TIME") else f"{tree.type}#{tree.value}"


def level(tree) -> int:
    """How tightly an expression binds; all but a binary operator as tightly as NOT and minus."""
    return LEVELS[tree.operator] if isinstance(tree, loading.Operation) else PREFIX


class Lister:
    """Lists the expressions of a program instance."""

    def __init__(self, plant, instance):
        self.plant, self.chart = plant, instance.chart

    def variable(self, place) -> str:
        """The declared name of a variable, without that of its instance."""
        return (self.chart.own if place.own else self.plant.variables)[place.number].name

    def operand(self, tree, wanted: int) -> str:
        """An operand that has to bind as tightly as this level; one that doesn't has parentheses."""
        text = self.text(tree)
        return f"({text})" if level(tree) < wanted else text

    def text(self, tree) -> str:
        """The text of an expression in a condition."""
        if isinstance(tree, loading.Literal):
            return literal_text(tree)
        if isinstance(tree, loading.Variable):
            return self.variable(tree.place)
        if isinstance(tree, loading.StepFlag):
            return self.chart.steps[tree.step] + ".X"
        if isinstance(tree, loading.StepTime):
            return self.chart.steps[tree.step] + ".T"
        if isinstance(tree, (loading.Not, loading.Minus)):
            return ("NOT " if isinstance(tree, loading.Not) else "-") + self.operand(tree.operand, PREFIX)
        own = LEVELS[tree.operator]
        return f"{self.operand(tree.left, own)} {tree.operator} {self.operand(tree.right, own + 1)}"
