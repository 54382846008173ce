"""Plants about steps and transitions: up to 70 steps and now and then 130, actions by N alone, 200 scans.

The conditions are over inputs, flags of steps and step times, so no scan has a fault and the script needs no look at the plant.
"""

from random import Random

from plant_values import time_literal
from plants import Chart

SCANS, INPUTS, SHARED = 200, 12, 4
MILLIS = [0, 10, 10, 20, 20, 30, 50, 100]


def size(rng: Random) -> int:
    """How many steps a chart has; sets of steps are kept in words of 64."""
    how = rng.random()
    return rng.randint(62, 70) if how < 0.5 else rng.randint(1, 61) if how < 0.97 else rng.randint(126, 132)


def condition(rng: Random, steps: list, before: list) -> str:
    """A condition that is true now and then."""
    def part() -> str:
        return rng.choice([
            f"In{rng.randrange(INPUTS)}",
            f"NOT In{rng.randrange(INPUTS)}",
            f"{rng.choice(before)}.T >= T#{rng.choice(MILLIS)}ms",
            f"{rng.choice(steps)}.T < T#{rng.choice(MILLIS)}ms",
            f"{rng.choice(steps)}.X",
            "TRUE",
        ])
    return part() if rng.random() < 0.6 else f"{part()} {rng.choice(['AND', 'OR', 'XOR'])} {part()}"


def step(rng: Random, name: str, is_initial: bool) -> str:
    """A step with no action, one of its own, one that it shares, or both."""
    own = f" Out{name}(N);" if rng.random() < 0.5 else ""
    shared = f" Shared{rng.randrange(SHARED)}();" if rng.random() < 0.3 else ""
    return f"  {'INITIAL_STEP' if is_initial else 'STEP'} {name}:{own}{shared} END_STEP"


def transition(rng: Random, steps: list, link: tuple) -> str:
    """A transition between two sides, with a priority or without."""
    before, after, priority = link
    ranked = "" if priority is None else f" (PRIORITY := {priority})"
    sides = ["(" + ", ".join(side) + ")" for side in (before, after)]
    return f"  TRANSITION{ranked} FROM {sides[0]} TO {sides[1]} := {condition(rng, steps, before)}; END_TRANSITION"


def add_rivals(rng: Random, made: Chart):
    """Steps that stay active, and transitions that share them: one that isn't cleared takes no step from a later one."""
    steps = made.new(rng.randint(3, 6))
    made.initial.update(steps)
    for _ in range(2 * len(steps)):
        some = rng.sample(steps, rng.choice([1, 2, 2, 3]))
        made.link(some, rng.sample(some, len(some)), 0.6)


def chart(rng: Random) -> str:
    """The text of the chart."""
    made = Chart(rng, 10)
    if rng.random() < 0.4:
        add_rivals(rng, made)
    made.grow(size(rng))
    elements = [step(rng, name, name in made.initial) for name in made.steps]
    elements += [transition(rng, made.steps, link) for link in made.links]
    if rng.random() < 0.5:
        rng.shuffle(elements)
    variables = [f"  In{number} AT %IX{number} : BOOL;" for number in range(INPUTS)]
    variables += [f"  Shared{number} : BOOL;" for number in range(SHARED)] + [f"  Out{name} : BOOL;" for name in made.steps]
    lines = ["PROGRAM Net"] + elements + ["END_PROGRAM", "CONFIGURATION Cell RESOURCE Cpu ON Plc VAR_GLOBAL"] + variables
    lines += ["END_VAR TASK Main(INTERVAL := T#10ms, PRIORITY := 1); PROGRAM P WITH Main : Net; END_RESOURCE END_CONFIGURATION"]
    return "\n".join(lines) + "\n"


def script(rng: Random) -> str:
    """The text of the script: each scan at a multiple of 10 ms or a little later, with some inputs before it and seldom a reset."""
    release, lines = 0, []
    for _ in range(SCANS):
        instant = time_literal(rng, release + rng.choice([0, 0, 0, 1, 3_000, 9_999]))
        lines += [f"{instant} INPUT In{rng.randrange(INPUTS)} {rng.randrange(2)}" for _ in range(rng.choice([0, 0, 1, 1, 2, 3]))]
        lines += [f"{instant} RESET P"] if rng.random() < 0.01 else []
        lines.append(f"{instant} SCAN Main")
        release += 10_000 * rng.choice([1] * 8 + [2, 5])
    return "\n".join(lines) + "\n"


def plant(seed: int) -> tuple:
    """The chart and the script of a seed, as texts."""
    rng = Random(seed)
    return chart(rng), script(rng)
