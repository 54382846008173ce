"""Charts at the limits: 1,024 steps and 2,048 transitions of a program type."""

import random

STEPS, TRANSITIONS = 1024, 2048
TAIL = """CONFIGURATION C RESOURCE R ON Plc VAR_GLOBAL Go AT %IX0.0 : BOOL; END_VAR TASK T(INTERVAL := T#10ms, PRIORITY := 1);
PROGRAM I WITH T : P; END_RESOURCE END_CONFIGURATION
"""


def chart_of(steps: int, links: list) -> str:
    """A chart with so many steps and these transitions, each from one step to another."""
    text = ["PROGRAM P INITIAL_STEP S0: END_STEP"]
    text += [f"STEP S{number}: END_STEP" for number in range(1, steps)]
    text += [f"TRANSITION FROM S{first} TO S{second} := Go; END_TRANSITION" for first, second in links]
    return "\n".join([*text, "END_PROGRAM", TAIL])


def sequence() -> str:
    """One step behind the other, and back."""
    return chart_of(STEPS, [(number, (number + 1) % STEPS) for number in range(STEPS)])


def ladder() -> str:
    """Two rails with rungs both ways."""
    rails = [(number, number + 2) for number in range(STEPS - 2)]
    rungs = [(number, number ^ 1) for number in range(TRANSITIONS - len(rails)) if number < STEPS]
    return chart_of(STEPS, rails + rungs)


def tangle() -> str:
    """Transitions between any two steps, each of which is reached from an earlier one."""
    rng = random.Random(7)
    tree = [(rng.randrange(number), number) for number in range(1, STEPS)]
    return chart_of(STEPS, tree + [(rng.randrange(STEPS), rng.randrange(STEPS)) for _ in range(TRANSITIONS - len(tree))])


def fan() -> str:
    """All transitions from one step."""
    return chart_of(STEPS, [(0, 1 + number % (STEPS - 1)) for number in range(TRANSITIONS)])


LARGE = {"a sequence of 1,024 steps": sequence(), "a ladder": ladder(), "a tangle": tangle(), "2,048 transitions of one step": fan()}
