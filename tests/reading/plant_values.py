"""Random values, literals and expressions for random plants."""

from random import Random
from typing import NamedTuple

TIMES = [0, 5_000, 10_000, 10_000, 20_000, 20_000, 25_000, 30_000, 40_000, 50_000, 100_000]
ODD_TIMES = [-5_000, 1, 1_500, 9_999, 10_001, 1_000_000, 90_061_001_500]
EDGES = {
    "BOOL": [0, 1],
    "INT": [0, 1, -1, 2, 7, 100, -100, 32_767, -32_768, 32_766],
    "DINT": [0, 1, -1, 3, 1_000, -1_000, 32_768, 2_147_483_647, -2_147_483_648],
}


class Variable(NamedTuple):
    """A variable of a random plant: its name, its type, and the letter of its location or an empty text."""
    name: str
    type: str
    letter: str = ""


def time_literal(rng: Random, microseconds: int) -> str:
    """A duration in one of its spellings."""
    head = rng.choice(["T#", "T#", "T#", "t#", "TIME#", "Time#"])
    sign, rest = ("-", -microseconds) if microseconds < 0 else ("", microseconds)
    millis, micros = divmod(rest, 1_000)
    fraction = f".{micros:03}" if micros else rng.choice(["", "", "", ".0"])
    seconds, left = divmod(millis, 1_000)
    spellings = [f"{millis}{fraction}ms"] * 4 + [f"0s_{millis}{fraction}ms", f"{seconds}s{left}{fraction}MS"]
    if not micros:
        spellings.append(f"{seconds}.{left:03}s")
    return head + sign + rng.choice(spellings)


def integer_literal(rng: Random, value: int, kind: str) -> str:
    """A whole number in one of its spellings; those of a negative one are operands everywhere."""
    plain = [str(value)] * 5 + [f"{kind}#{value}", f"{kind.lower()}#{value}"]
    if value >= 0:
        plain += [f"16#{value:x}", f"2#{value:b}", f"{kind}#8#{value:o}", "0" + str(value)]
    if value >= 1_000:
        plain.append(f"{value // 1_000}_{value % 1_000:03}")
    return rng.choice(plain)


def literal(rng: Random, value, kind: str) -> str:
    """A value in one of its spellings."""
    if kind == "TIME":
        return time_literal(rng, value)
    if kind == "BOOL":
        return rng.choice(["TRUE", "true", "TRUE", "1", "BOOL#1"] if value else ["FALSE", "False", "FALSE", "0", "BOOL#FALSE"])
    return integer_literal(rng, value, kind)


def any_value(rng: Random, kind: str):
    """A value of a type; the ends of INT and DINT come up often."""
    if kind == "TIME":
        return rng.choice(TIMES if rng.random() < 0.9 else ODD_TIMES)
    return rng.choice(EDGES[kind])


def small_value(rng: Random, kind: str):
    """A value that no sum of few brings out of range."""
    return rng.randint(-20, 20) if kind in ("INT", "DINT") else any_value(rng, kind)


class Expressions:
    """Makes expressions over variables and steps; none of them can fault. `action` is a name whose Q may be used, or None."""

    def __init__(self, rng: Random, variables: list, steps: list, action=None):
        self.rng, self.variables, self.steps, self.action = rng, variables, steps, action

    def name(self, kind: str):
        """A variable of a type in some capitals, or None."""
        fitting = [variable.name for variable in self.variables if variable.type == kind]
        return said(self.rng, self.rng.choice(fitting)) if fitting else None

    def step(self, suffix: str) -> str:
        """The flag or the time of a step."""
        return said(self.rng, self.rng.choice(self.steps)) + "." + self.rng.choice([suffix, suffix, suffix.lower()])

    def make(self, kind: str, depth: int) -> str:
        """An expression of a type, with at most so many operators inside each other."""
        if depth <= 0 or self.rng.random() < 0.2:
            return self.operand(kind)
        return {"BOOL": self.boolean, "TIME": self.time}.get(kind, lambda deep: self.whole(kind, deep))(depth - 1)

    def operand(self, kind: str) -> str:
        """A variable, a literal, or something of a step."""
        choices = [lambda: literal(self.rng, small_value(self.rng, kind), kind)]
        choices += [lambda: self.name(kind) or literal(self.rng, small_value(self.rng, kind), kind)] * 4
        if kind == "BOOL" and self.steps:
            choices += [lambda: self.step("X")] * 2
        if kind == "TIME" and self.steps:
            choices += [lambda: self.step("T")] * 3
        if kind == "BOOL" and self.action:
            choices += [lambda: said(self.rng, self.action) + ".Q"] * 3
        return self.rng.choice(choices)()

    def boolean(self, depth: int) -> str:
        """A logical operator or a comparison."""
        rng = self.rng
        how = rng.random()
        if how < 0.2:
            return rng.choice(["NOT ", "not ", "NOT NOT "]) + "(" + self.make("BOOL", depth) + ")"
        if how < 0.55:
            operator = rng.choice(["AND", "&", "OR", "XOR", "and", "or", "=", "<>"])
            return f"({self.make('BOOL', depth)} {operator} {self.make('BOOL', depth)})"
        kind = rng.choice(["INT", "DINT", "TIME", "TIME"])
        operator = rng.choice(["=", "<>", "<", ">", "<=", ">="])
        return f"({self.make(kind, depth)} {operator} {self.make(kind, depth)})"

    def whole(self, kind: str, depth: int) -> str:
        """A sum, a product or a quotient whose operands are kept small, so that it stays in range."""
        rng = self.rng
        left, right = self.make(kind, depth), self.make(kind, depth)
        few = literal(rng, rng.randint(2, 9), kind)
        return rng.choice([
            f"({left}) MOD 100 + ({right}) mod 50",
            f"({left}) mod 90 - ({right}) MOD {few}",
            f"({left}) MOD 10 * (({right}) MOD 10)",
            f"({left}) / {few}",
            f"({left}) MOD 0 + ({right}) MOD 7",
            f"-(({left}) MOD 30)",
            f"- -(({left}) mod 3)",
        ])

    def time(self, depth: int) -> str:
        """A sum or a difference of times."""
        operator = self.rng.choice(["+", "-"])
        return f"({self.operand('TIME')} {operator} {literal(self.rng, any_value(self.rng, 'TIME'), 'TIME')})"


def said(rng: Random, name: str) -> str:
    """A name, now and then in other capitals."""
    return rng.choice([name.upper(), name.lower()]) if rng.random() < 0.1 else name
