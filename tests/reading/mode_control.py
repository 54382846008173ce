"""Plants about action control: all eleven qualifiers, actions that several steps share, times about as long as scans, 60 scans."""

from random import Random

from plant_scripts import Scripts
from plant_values import time_literal
from plants import Chart, TIMED

UNTIMED = ["N", "R", "S", "P", "P0", "P1"]
TIMES = [-5_000, 0, 0, 5_000, 9_999, 10_000, 10_001, 15_000, 20_000, 20_000, 25_000, 30_000, 40_000]
PAUSES = ["Pause", "Length"]
INPUTS, SCANS = 3, 60


class Action:
    """An action: its name, the qualifiers that it is given, and the network in which those with a time are at home."""

    def __init__(self, rng: Random, name: str, networks: int):
        self.name, self.home = name, rng.randrange(networks)
        self.untimed = rng.sample(UNTIMED, rng.randint(1, 4)) + rng.choice([[], ['R', 'S'], ['R']])
        self.timed = rng.sample(TIMED, rng.choice([1, 1, 2, 3]))


def time(rng: Random) -> str:
    """The time of an association."""
    return rng.choice(PAUSES) if rng.random() < 0.4 else time_literal(rng, rng.choice(TIMES))


def association(rng: Random, actions: list, network: int, given: set) -> str:
    """An association of a step; `given` are the actions to which the step gives a time already, of which it seldom gives two."""
    action = rng.choice(actions)
    may_be_timed = (action.home == network and action not in given) or rng.random() < 0.05
    if may_be_timed and rng.random() < 0.5:
        given.add(action)
        return f"{action.name}({rng.choice(action.timed)}, {time(rng)})"
    return f"{action.name}({rng.choice(action.untimed)})"


def step(rng: Random, name: str, word: str, network: int, actions: list) -> str:
    """A step with its associations."""
    given = set()
    associations = "".join(f" {association(rng, actions, network, given)};" for _ in range(rng.choice([0, 1, 2, 2, 3, 4])))
    return f"  {word} {name}:{associations} END_STEP"


def condition(rng: Random, before: str) -> str:
    """A condition that lets a step be active for a few scans."""
    return rng.choice([
        "TRUE",
        f"{before}.T >= {time_literal(rng, rng.choice(TIMES))}",
        f"{before}.T >= {time_literal(rng, rng.choice(TIMES))}",
        f"In{rng.randrange(INPUTS)}",
        f"NOT In{rng.randrange(INPUTS)}",
        "Flag0",
    ])


def body(name: str, number: int) -> str:
    """A declared action that counts its executions with Q and without; one of them changes a time as well."""
    turn = " IF Pause > T#30ms THEN Pause := T#-10ms; ELSE Pause := Pause + T#10ms; END_IF;" if number == 0 else ""
    counts = f" IF {name}.Q THEN With{number} := With{number} + 1; ELSE Last{number} := Last{number} + 1; END_IF;"
    return f"  ACTION {name}:{counts}{turn} END_ACTION"


def chart(rng: Random) -> str:
    """The text of the chart: one to three networks at once."""
    made, networks = Chart(rng), rng.choice([1, 2, 2, 3])
    declared, plain = [f"Act{number}" for number in range(2)], [f"Flag{number}" for number in range(3)]
    names = rng.sample(declared + plain, rng.randint(1, 5))
    actions = [Action(rng, name, networks) for name in names]
    elements = []
    for network in range(networks):
        known = len(made.steps)
        rng.choice([made.ring, made.ring, made.selection, made.sequences])(rng.randint(1, 6))
        for name in made.steps[known:]:
            elements.append(step(rng, name, "INITIAL_STEP" if name in made.initial else "STEP", network, actions))
    for before, after, _ in made.links:
        sides = ", ".join(before), ", ".join(after)
        elements.append(f"  TRANSITION FROM ({sides[0]}) TO ({sides[1]}) := {condition(rng, rng.choice(before))}; END_TRANSITION")
    elements += [body(name, number) for number, name in enumerate(declared)]
    lines = ["PROGRAM Kind"] + elements + ["END_PROGRAM", "CONFIGURATION Cell RESOURCE Cpu ON Plc VAR_GLOBAL"]
    lines += [f"  In{number} AT %IX{number} : BOOL;" for number in range(INPUTS)] + [f"  {name} : BOOL;" for name in plain]
    lines += [f"  {name} : TIME := {time_literal(rng, rng.choice(TIMES))};" for name in PAUSES]
    lines += ["  With0, With1, Last0, Last1 : DINT;", "END_VAR", "TASK Main(INTERVAL := T#10ms, PRIORITY := 1);"]
    return "\n".join(lines + ["PROGRAM P WITH Main : Kind;", "END_RESOURCE END_CONFIGURATION"]) + "\n"


class ControlScripts(Scripts):
    """Makes scripts of scans with inputs, with forces of times and with resets."""

    def text(self) -> str:
        """The whole script."""
        while sum(event.kind == "SCAN" for event in self.history.events) < SCANS and len(self.lines) < 4 * SCANS:
            self.event()
        return self.end.join(self.lines) + self.end

    def makers(self, faulted: bool) -> list:
        """What may come next, each with its weight; `faulted` says that an instance has a fault."""
        return [(self.scan, 80), (self.input, 10), (self.pause, 4), (self.force, 1), (self.release, 2), (self.reset, 40 if faulted else 1)]

    def pause(self):
        """A force of a TIME variable."""
        self.say("FORCE", self.rng.choice(PAUSES), time_literal(self.rng, self.rng.choice(TIMES)))

    def go_on(self):
        """Lets time go on to the next release, past it, or past some."""
        self.now = self.now // 10_000 * 10_000 + self.rng.choice([10_000] * 6 + [10_001, 15_000, 19_999, 20_000, 30_000, 100_000])


def plant(seed: int) -> tuple:
    """The chart and the script of a seed, as texts."""
    rng = Random(seed)
    text = chart(rng)
    return text, ControlScripts(rng, text).text()
