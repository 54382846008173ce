"""Random scripts for a plant.

So that most scans run, a script is played through the reading while it is made: the next line looks at what waits and what faulted.
"""

from random import Random

from grammar import read
from loading import load
from plant_values import any_value, literal, said, time_literal
from playing import Replay
from scripts import command


class Scripts:
    """Makes a script for the text of a chart.

    It has from LEAST to MOST events; of its values so many of a hundred have ODD_TYPES, that is another type than their variable's.
    """

    LEAST, MOST, ODD_TYPES = 60, 100, 4

    def __init__(self, rng: Random, chart: str):
        self.rng, self.replay = rng, Replay(load(read(chart.encode())))
        self.plant, self.history, self.debugger = self.replay.plant, self.replay.history, self.replay.debugger
        self.now = rng.choice([0] * 8 + [3_000, 15_000, 1_000_000, 2 ** 62 - 2_000_000])
        self.lines, self.end = [], "\r\n" if rng.random() < 0.1 else "\n"

    def text(self) -> str:
        """The whole script."""
        count = self.rng.randint(self.LEAST, self.MOST)
        for _ in range(count):
            self.event()
        return self.end.join(self.lines) + self.rng.choice(["", self.end])

    def event(self):
        """One more event."""
        makers = self.makers(any(instance.fault for instance in self.history.instances))
        self.rng.choices([maker for maker, _ in makers], [weight for _, weight in makers])[0]()

    def makers(self, faulted: bool) -> list:
        """What may come next, each with its weight; `faulted` says that an instance has a fault."""
        return [(self.scan, 62), (self.input, 14), (self.force, 6), (self.release, 5), (self.reset, 9 if faulted else 3),
                (self.stray, 4), (self.aside, 2)]

    def say(self, *words: str, instant=None):
        """Adds a line and plays it."""
        at = self.now if instant is None else instant
        words = (time_literal(self.rng, at),) + words
        gap = self.rng.choice([" "] * 12 + ["  ", "\t"])
        line = gap.join(words)
        self.lines.append(line)
        self.replay.play(command(line, self.plant))

    def run(self) -> int:
        """The present instant as the plant has it: raw time stands still for it while it is halted."""
        return self.debugger.run_instant(self.now)

    def coming(self) -> list:
        """How long it is to the next release of each task that has one."""
        now = self.run()
        found = [self.history.next_release(task, now) for task in range(len(self.plant.tasks))]
        return [instant - now for instant in found if instant is not None]

    def picked(self):
        """The task that goes first now, or None."""
        return self.history.picked(self.run())

    def go_on(self):
        """Lets time go on, most often to the next release."""
        coming, how = self.coming(), self.rng.random()
        if how < 0.7 and coming:
            self.now += min(coming)
        elif how < 0.9:
            self.now += self.rng.choice([0, 1, 500, 1_000, 5_000, 5_000, 10_000, 20_000])
        elif how < 0.97:
            self.now += self.rng.choice([35_000, 50_000, 100_000])
        elif how < 0.98:
            self.now += self.rng.choice([1_000_000, 86_400_000_000])
        self.now = min(self.now, 2 ** 62)

    def scan(self):
        """A scan, most often of the task that is to go first."""
        if self.picked() is None or self.rng.random() < 0.05:
            self.go_on()
        picked = self.picked()
        for _ in range(3):
            if picked is None:
                self.wake()
                picked = self.picked()
        if picked is None or self.rng.random() < 0.05:
            picked = self.rng.randrange(len(self.plant.tasks))
        self.say(self.word("SCAN"), said(self.rng, self.plant.tasks[picked].name))

    def wake(self):
        """Changes the SINGLE of a task, so that it rises or lets its interval go on."""
        named = [task.single for task in self.plant.tasks if task.single is not None]
        if not named:
            self.go_on()
            return
        variable = self.rng.choice(named)
        free = self.history.force(variable) is None and (self.plant.variables[variable].location or "-")[0] == "I"
        self.say(self.word("INPUT" if free else "FORCE"), self.name(variable), "FALSE" if self.history.read(variable) else "TRUE")

    def word(self, word: str) -> str:
        """A word of the script in some capitals."""
        return said(self.rng, word)

    def name(self, variable: int) -> str:
        """The name of a variable in some capitals."""
        return said(self.rng, self.plant.variables[variable].name)

    def value(self, kind: str) -> str:
        """A value of a type as scripts write it; now and then one of another type."""
        if self.rng.random() * 100 < self.ODD_TYPES:
            kind = self.rng.choice(["BOOL", "INT", "DINT", "TIME"])
        value = any_value(self.rng, kind)
        if kind == "TIME":
            return literal(self.rng, value, kind)
        if kind == "BOOL":
            return self.rng.choice(["TRUE", "true", "TRUE", "1", "01"] if value else ["FALSE", "False", "FALSE", "0", "-0"])
        return self.rng.choice([str(value)] * 4 + ["00" + str(value) if value >= 0 else "-0" + str(-value)])

    def input(self):
        """A value for an input."""
        inputs = [number for number, variable in enumerate(self.plant.variables)
                  if variable.location and variable.location[0] == "I"]
        if not inputs or self.rng.random() < 0.03:
            inputs = range(len(self.plant.variables))
        variable = self.rng.choice(inputs)
        self.say(self.word("INPUT"), self.name(variable), self.value(self.plant.variables[variable].type))

    def force(self):
        """A force of any variable."""
        variable = self.rng.randrange(len(self.plant.variables))
        self.say(self.word("FORCE"), self.name(variable), self.value(self.plant.variables[variable].type))

    def release(self):
        """The end of a force, now and then of one that isn't there."""
        forced = [number for number in range(len(self.plant.variables)) if self.history.force(number) is not None]
        if not forced or self.rng.random() < 0.1:
            forced = range(len(self.plant.variables))
        self.say(self.word("RELEASE"), self.name(self.rng.choice(forced)))

    def reset(self):
        """A reset, most often of an instance with a fault."""
        faulted = [number for number, instance in enumerate(self.history.instances) if instance.fault]
        if not faulted or self.rng.random() < 0.2:
            faulted = range(len(self.plant.instances))
        self.say(self.word("RESET"), said(self.rng, self.plant.instances[self.rng.choice(faulted)].name))

    def stray(self):
        """A command that is refused: a name that isn't there, or an instant out of range or behind the latest one."""
        rng, task, variable = self.rng, self.plant.tasks[0].name, self.plant.variables[0].name
        instance = self.plant.instances[0].name
        words = rng.choice([("SCAN", "zz"), ("SCAN", instance), ("INPUT", "zz", "1"), ("FORCE", "S0", "TRUE"), ("RELEASE", "P0.zz"),
                            ("RESET", "zz"), ("RESET", task), ("SCAN", task), ("FORCE", instance + "." + variable, "T#1s"),
                            ("RELEASE", variable), ("INPUT", "P0.Lamp", "TRUE"), ("FORCE", variable, "70000")])
        instant = rng.choice([None, None, self.now - 1, self.now - 10_000, -1, -10_000])
        self.say(*words, instant=instant)

    def aside(self):
        """A line that is no command: empty, or a comment."""
        self.lines.append(self.rng.choice(["", "; a comment", "  \t", "\t;T#0s SCAN zz"]))
