"""Plants about tasks: sixteen of them, intervals from a microsecond to 2^62, SINGLE by inputs and by programs, instants of all sizes."""

from random import Random

from plant_scripts import Scripts
from plant_values import said, time_literal

MOST = 2 ** 62
INTERVALS = [1, 2, 3, 7, 1_000, 9_999, 10_000, 10_000, 10_000, 10_001, 20_000, 86_400_000_000, 2 ** 31, 2 ** 32 + 1, 2 ** 61, 2 ** 61 + 1,
             MOST - 1, MOST]
PRIORITIES = [0, 1, 1, 1, 2, 2, 3, 4_294_967_295]
INPUTS, FLAGS = [f"In{number}" for number in range(4)], [f"Flag{number}" for number in range(4)]


def program(rng: Random, name: str) -> str:
    """A program type that goes to and fro between two steps, and changes some of the flags."""
    flags = rng.sample(FLAGS, 3)
    wait = rng.choice(["TRUE", "TRUE", "Here.T >= T#10ms", rng.choice(INPUTS), rng.choice(FLAGS)])
    statements = rng.choice([f"{flags[0]} := NOT {flags[0]};", f"{flags[0]} := {rng.choice(INPUTS)} AND NOT {flags[1]};",
                             f"Turns := Turns + 1; {flags[0]} := Turns MOD 3 = 0;",
                             f"{flags[0]} := 1 / (Turns - 3) < 5; Turns := Turns + 1;"])
    plain = rng.choice(["", f" {flags[2]}(N);", f" {flags[2]}(P);"])
    return (f"PROGRAM {name}\n  VAR Turns : INT; END_VAR\n  INITIAL_STEP Here: Change({rng.choice(['N', 'P1'])}); END_STEP\n"
            f"  STEP There:{plain} END_STEP\n  TRANSITION FROM Here TO There := {wait}; END_TRANSITION\n"
            f"  TRANSITION FROM There TO Here := TRUE; END_TRANSITION\n  ACTION Change: {statements} END_ACTION\nEND_PROGRAM\n")


def interval(rng: Random) -> int:
    """The interval of a task."""
    return rng.choice(INTERVALS) if rng.random() < 0.8 else rng.randint(1, 2 ** rng.randint(1, 62))


def task(rng: Random, number: int, length: int) -> str:
    """A task by an interval, by SINGLE, or by both; now and then by neither."""
    how = rng.random()
    single = f"SINGLE := {rng.choice(INPUTS + FLAGS + FLAGS)}, " if how > 0.5 else ""
    every = f"INTERVAL := {time_literal(rng, length)}, " if how < 0.8 else rng.choice(["", "INTERVAL := T#0s, "])
    if rng.random() < 0.03:
        single = every = ""
    return f"  TASK Task{number}({single}{every}PRIORITY := {rng.choice(PRIORITIES)});\n"


def chart(rng: Random) -> str:
    """The text of the chart. Tasks often have the same interval."""
    few = [interval(rng) for _ in range(4)]
    tasks = rng.choice([16, 16, 16, rng.randint(1, 15)])
    lengths = [rng.choice(few) if rng.random() < 0.5 else interval(rng) for _ in range(tasks)]
    variables = [f"  {name} AT %IX{number} : BOOL{rng.choice(['', '', ' := TRUE'])};\n" for number, name in enumerate(INPUTS)]
    variables += [f"  {name} : BOOL{rng.choice(['', '', ' := TRUE'])};\n" for name in FLAGS]
    instances = [f"  PROGRAM P{number} WITH Task{rng.randrange(tasks)} : Kind{rng.randrange(3)};\n" for number in range(rng.randint(1, 16))]
    return ("".join(program(rng, f"Kind{number}") for number in range(3)) + "CONFIGURATION Cell RESOURCE Cpu ON Plc\n  VAR_GLOBAL\n"
            + "".join(variables) + "  END_VAR\n" + "".join(task(rng, number, length) for number, length in enumerate(lengths))
            + "".join(instances) + "END_RESOURCE END_CONFIGURATION\n")


class TaskScripts(Scripts):
    """Makes scripts about the turns of tasks."""

    LEAST, MOST = 30, 60

    def __init__(self, rng: Random, text: str):
        super().__init__(rng, text)
        self.now = rng.choice([0, 0, 0, 1, rng.randint(0, MOST), MOST - 100_000, MOST - 10, MOST])

    def makers(self, faulted: bool) -> list:
        """What may come next, each with its weight; `faulted` says that an instance has a fault."""
        return [(self.scan, 50), (self.any_scan, 12), (self.wake, 16), (self.release, 4), (self.reset, 6 if faulted else 2),
                (self.stray, 2), (self.go_on, 8)]

    def scan(self):
        """A scan of the task that goes first, at the next release of some task where none waits."""
        if self.picked() is None:
            self.go_on()
        picked = self.picked()
        self.any_scan() if picked is None else self.say("SCAN", self.plant.tasks[picked].name)

    def any_scan(self):
        """A scan of any task, due or not; it may be for the instant before, too."""
        instant = max(0, self.now - 1) if self.rng.random() < 0.1 else None
        self.say("SCAN", said(self.rng, self.rng.choice(self.plant.tasks).name), instant=instant)

    def go_on(self):
        """Lets time go on: to a release of some task, a little, by some interval, or far."""
        rng, coming = self.rng, self.coming()
        how = rng.random()
        if how < 0.5 and coming:
            then = self.now + rng.choice(sorted(coming)[:6]) + rng.choice([0, 0, 0, -1, 1])
        elif how < 0.8:
            then = self.now + rng.choice([0, 1, 2, 3, 7, 1_000])
        elif how < 0.97:
            then = self.now + self.rng.choice(self.plant.tasks).interval * rng.choice([1, 1, 2, 5])
        else:
            then = rng.choice([rng.randint(self.now, MOST), MOST - 1, MOST])
        self.now = min(MOST, max(self.now, then))


def plant(seed: int) -> tuple:
    """The chart and the script of a seed, as texts."""
    rng = Random(seed)
    text = chart(rng)
    return text, TaskScripts(rng, text).text()
