#!/usr/bin/env python3
"""`opening.py STEPS TRANSITIONS INSTANCES CHART` writes a chart that is opened: a program type of so many steps (2 to 1,024) and
transitions (STEPS to 2,048), and so many instances of it (1 to 64).

The steps are a ring, and the transitions beyond it lead from each step in turn to the one that is three behind it. Each step has an
action by N and one by S: BOOL variables of the program, 32 in all, that the steps have in turn. A condition reads one of them and the
time of its step.
"""

import sys

VARIABLES = 32


def step(number: int) -> str:
    """A step."""
    word = "STEP" if number else "INITIAL_STEP"
    return f"  {word} S{number}: V{number % VARIABLES}(N); V{(number + 1) % VARIABLES}(S); END_STEP"


def transition(number: int, steps: int) -> str:
    """A transition."""
    source = number % steps
    target = (source + (1 if number < steps else 3)) % steps
    return f"  TRANSITION FROM S{source} TO S{target} := V{number % VARIABLES} AND S{source}.T >= T#20ms; END_TRANSITION"


def chart(steps: int, transitions: int, instances: int) -> str:
    """The text of the chart."""
    lines = ["PROGRAM Net VAR", *[f"  V{number} : BOOL;" for number in range(VARIABLES)], "END_VAR"]
    lines += [step(number) for number in range(steps)] + [transition(number, steps) for number in range(transitions)]
    lines += ["END_PROGRAM", "CONFIGURATION Bench RESOURCE Cpu ON Plc", "TASK Main(INTERVAL := T#10ms, PRIORITY := 1);"]
    lines += [f"PROGRAM P{number} WITH Main : Net;" for number in range(instances)] + ["END_RESOURCE END_CONFIGURATION"]
    return "\n".join(lines) + "\n"


def main() -> int:
    """Writes the chart."""
    words = sys.argv[1:]
    sizes = [int(word) for word in words[:3] if word.isdigit()]
    if len(words) != 4 or len(sizes) != 3 or not (2 <= sizes[0] <= 1_024 and sizes[0] <= sizes[1] <= 2_048 and 1 <= sizes[2] <= 64):
        print("usage: opening.py STEPS TRANSITIONS INSTANCES CHART", file=sys.stderr)
        return 2
    with open(words[3], "w", encoding="ascii") as file:
        file.write(chart(*sizes))
    return 0


if __name__ == "__main__":
    sys.exit(main())
