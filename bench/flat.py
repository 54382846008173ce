#!/usr/bin/env python3
"""`flat.py STEPS FILE` writes the ring of ring.py as flat C, as a PLC compiler emits a chart: unrolled, a variable for each flag, clock
and flip-flop, and straight-line code for each transition, step, action and body.

The program that it is compiled to does so many scans as its argument says, 10 ms apart, and prints the values of all variables as the
last lines of `sfcmon replay` have them. A scan is one call that leaves all its variables in memory, where inputs and outputs are copied.
"""

import re
import sys

from ring import associations, variables

# Microseconds: the time that a step waits for, and that of timed actions.
WAIT = 20_000
DELAY = 10_000


class Action:
    """The steps with an action, by qualifier."""

    def __init__(self, name: str):
        self.name, self.steps = name, {}

    def input(self, qualifier: str) -> str:
        """Whether a step with this qualifier is active."""
        return " || ".join(f"X{step}" for step in self.steps.get(qualifier, [])) or "false"

    def unless_reset(self, value: str) -> str:
        """A value where no step with R is active."""
        return f"!({self.input('R')}) && {value}" if "R" in self.steps else value

    def flip_flop(self, place: str, qualifier: str) -> str:
        """The flip-flop in a place that the qualifier sets and R resets."""
        return f"{place} = {self.unless_reset(f'({place} || {self.input(qualifier)})')};"

    def on_delay(self, value: str) -> list:
        """The on-delay of a value."""
        return [f"if ({value} && !In_{self.name}) Start_{self.name} = now;", f"In_{self.name} = {value};"]

    def lines(self) -> list:
        """The action's code."""
        name, elapsed = self.name, f"now - Start_{self.name} >= {DELAY}"
        stored = f"Stored_{name}"
        if "N" in self.steps:
            return [f"{name} = {self.input('N')};"]
        if "S" in self.steps:
            return [self.flip_flop(name, "S")]
        if "D" in self.steps:
            return [*self.on_delay(self.input("D")), f"{name} = In_{name} && {elapsed};"]
        if "L" in self.steps:
            return [*self.on_delay(self.input("L")), f"{name} = In_{name} && !({elapsed});"]
        if "SD" in self.steps:
            return [self.flip_flop(stored, "SD"), *self.on_delay(stored), f"{name} = {stored} && {elapsed};"]
        if "SL" in self.steps:
            return [self.flip_flop(stored, "SL"), *self.on_delay(stored), f"{name} = {stored} && !({elapsed});"]
        return [f"const bool edge = ({self.input('P')}) && !In_{name};", f"const bool run = edge || Q_{name};",
                f"In_{name} = {self.input('P')};", f"Q_{name} = edge;", f"if (run) {{ if (Q_{name}) Turns = Turns + 1; }}"]

    def flags(self) -> list:
        """The variables that it keeps beside its own, and of them the clocks."""
        name = self.name
        kept = [f"Stored_{name}"] if {"SD", "SL"} & self.steps.keys() else []
        timed = {"D", "L", "SD", "SL"} & self.steps.keys()
        kept += [f"In_{name}"] if timed or "P" in self.steps else []
        kept += [f"Q_{name}"] if "P" in self.steps else []
        return [*kept, *([f"Start_{name}"] if timed else [])]


def actions(steps: int) -> list:
    """The actions of the ring: the variables in the order of the image, and then the one with a body."""
    found = {name: Action(name) for name in [*variables(steps), "Count"]}
    for step in range(steps):
        for one in associations(step, steps):
            name, qualifier = re.match(r"(\w+)\((\w+)", one).groups()
            found[name].steps.setdefault(qualifier, []).append(step)
    return [action for action in found.values() if action.steps]


def declarations(steps: int, of_ring: list) -> list:
    """The variables."""
    lines = [f"bool X{step}; int64_t T{step}, Since{step};" for step in range(steps)]
    lines += [f"bool {name};" for name in variables(steps)] + ["int32_t Turns;", "bool Begun;"]
    for action in of_ring:
        lines += [f"{'int64_t' if flag.startswith('Start_') else 'bool'} {flag};" for flag in action.flags()]
    return lines


def scan(steps: int, of_ring: list) -> list:
    """A scan."""
    lines = [f"  if (X{step}) T{step} = now - Since{step};" for step in range(steps)]
    lines += [f"  const bool c{step} = X{step} && T{step} >= {WAIT};" for step in range(steps)]
    lines += [f"  if (c{step}) X{step} = false;" for step in range(steps)]
    lines += [f"  if (c{(step - 1) % steps}) {{ X{step} = true; Since{step} = now; T{step} = 0; }}" for step in range(steps)]
    lines += ["  if (!Begun) { Begun = true; X0 = true; Since0 = now; T0 = 0; }"]
    for action in of_ring:
        lines += [f"  {line}" for line in action.lines()]
    return ["__attribute__((noinline)) void scan(int64_t now) {", *lines, "}"]


def program(steps: int) -> str:
    """The text of the program."""
    of_ring = actions(steps)
    printed = [f'  printf("image {name} %s\\n", {name} ? "TRUE" : "FALSE");' for name in variables(steps)]
    lines = ["#include <stdbool.h>", "#include <stdint.h>", "#include <stdio.h>", "#include <stdlib.h>",
             *declarations(steps, of_ring), *scan(steps, of_ring), "int main(int count, char **words) {",
             "  const int64_t scans = count > 1 ? atoll(words[1]) : 0;", "  for (int64_t k = 0; k < scans; k++) scan(10000 * k);",
             *printed, '  printf("image Turns %d\\n", Turns);', "  return 0;", "}"]
    return "\n".join(lines) + "\n"


def main() -> int:
    """Writes the program."""
    words = sys.argv[1:]
    if len(words) != 2 or not words[0].isdigit() or not 2 <= int(words[0]) <= 1_024:
        print("usage: flat.py STEPS FILE", file=sys.stderr)
        return 2
    with open(words[1], "w", encoding="ascii") as file:
        file.write(program(int(words[0])))
    return 0


if __name__ == "__main__":
    sys.exit(main())
