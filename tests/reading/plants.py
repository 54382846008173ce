#!/usr/bin/env python3
"""Random well-formed plants and scripts, each from a seed.

`plants.py SEED CHART SCRIPT` writes one; `plants.py summary COUNT [SEED]` tells what happens in so many of them. `--mode MODE` takes
those of one subject (modes.py).
"""

import argparse
from random import Random

from plant_debugging import DebugScripts
from plant_values import Expressions, TIMES, Variable, any_value, literal, said

TIMED = ["L", "D", "SD", "DS", "SL"]
UNTIMED = ["N", "N", "N", "R", "R", "S", "S", "P", "P1", "P0"]
TYPES = ["BOOL", "INT", "DINT", "TIME"]
SIZES = {"BOOL": "X", "INT": "W", "DINT": "D"}
GLOBAL_WORDS = {
    "BOOL": ["Go", "Halt", "Lamp", "Pump", "Valve", "Door", "Alarm", "Ready", "Heater", "Fan", "N", "Single"],
    "INT": ["Count", "Level", "Speed", "Rate", "x"],
    "DINT": ["Total", "Weight", "Limit", "d"],
    "TIME": ["Pause", "Length", "Wait", "T"],
}
OWN_WORDS = {
    "BOOL": ["flag", "busy", "done", "mark", "Lamp"],
    "INT": ["n", "k", "Count"],
    "DINT": ["sum", "big"],
    "TIME": ["delay", "span"],
}
RISKS = {
    "INT": ["{v} := {v} + 3000", "{v} := {v} * 3 + 1", "{v} := 100 / ({v} MOD 5)", "{v} := -{v} - 1000", "{v} := 7 / {w}",
            "{v} := {w} - {v} + 9000"],
    "DINT": ["{v} := {v} * 7 + 3", "{v} := 1000 / ({v} MOD 3)", "{v} := {v} - 300_000_000", "{v} := {w} / {v}"],
    "TIME": ["{v} := {v} + {v} + T#1d", "{v} := T#53375995d - {v}"],
}
RISKY_CONDITIONS = {
    "INT": ["100 / {v} < 50", "{v} + 32700 > 0", "({v} + 1) * 2 > 8"],
    "DINT": ["1000 / {v} >= 0", "{v} * 1000 <> 5"],
    "TIME": ["{v} + {v} > T#53375995d"],
}


class Chart:
    """Steps and transitions of a random program type, as they are put together; `dense` bounds a network of all pairs."""

    def __init__(self, rng: Random, dense=5):
        self.rng, self.dense, self.steps, self.initial, self.links = rng, dense, [], set(), []

    def new(self, count: int) -> list:
        """So many new steps."""
        made = [f"S{len(self.steps) + number}" for number in range(count)]
        self.steps += made
        return made

    def link(self, before: list, after: list, ranked=0.2):
        """A transition, now and then with a priority."""
        priority = self.rng.randint(0, 4) if self.rng.random() < ranked else None
        self.links.append((before, after, priority))

    def ring(self, size: int) -> list:
        """Steps one after another, round and round."""
        steps = self.new(size)
        for here, there in zip(steps, steps[1:] + steps[:1]):
            self.link([here], [there])
        self.initial.add(steps[0])
        return steps

    def selection(self, size: int):
        """A ring with branches and jumps out of its steps."""
        steps = self.ring(size)
        for _ in range(self.rng.randint(1, size)):
            self.link([self.rng.choice(steps)], [self.rng.choice(steps)], 0.6)

    def sequences(self, size: int):
        """Branches that run at once, between a fork and a join."""
        width = self.rng.randint(2, 4)
        first, length = self.new(1)[0], max(1, (size - 1) // width)
        branches = [self.new(self.rng.randint(1, length)) for _ in range(width)]
        for branch in branches:
            for here, there in zip(branch, branch[1:]):
                self.link([here], [there])
        self.link([first], [branch[0] for branch in branches])
        self.link([branch[-1] for branch in branches], [first])
        if self.rng.random() < 0.3:
            self.link([branches[0][-1]], [first], 0.6)
        self.initial.add(first)

    def pairs(self, size: int):
        """A transition between any two steps, those from a step to itself among them."""
        steps = self.new(min(size, self.dense))
        for here in steps:
            for there in steps:
                self.link([here], [there], 0.5)
        self.initial.add(self.rng.choice(steps))

    def wild(self, size: int):
        """Transitions between any sets of steps."""
        steps = self.new(size)
        for _ in range(size + self.rng.randint(0, size)):
            before = self.rng.sample(steps, min(size, self.rng.choice([1, 1, 1, 2, 3])))
            after = self.rng.sample(steps, min(size, self.rng.choice([1, 1, 2, 3])))
            self.link(before, after, 0.3)
        self.initial.update(self.rng.sample(steps, min(size, self.rng.choice([1, 1, 2, 3]))))

    def grow(self, size: int):
        """Networks up to so many steps."""
        while len(self.steps) < size:
            left = size - len(self.steps)
            part = left if self.rng.random() < 0.5 else self.rng.randint(1, left)
            self.rng.choice([self.ring, self.selection, self.selection, self.sequences, self.pairs, self.wild])(part)
        if self.rng.random() < 0.3:
            loop = self.rng.choice(self.steps)
            self.link([loop], [loop])


class TypeMaker:
    """Makes the text of one program type of a plant; `lone` says that it has one instance at most."""

    def __init__(self, maker, name: str, lone: bool):
        rng, self.globals, self.risky, self.areas = maker.rng, maker.globals, maker.risky, maker.areas
        self.rng, self.name, self.lone = rng, name, lone
        self.chart, self.timed = Chart(rng), {}
        self.own = self.own_variables()
        hidden = {variable.name.upper() for variable in self.own}
        self.variables = self.own + [variable for variable in self.globals if variable.name.upper() not in hidden]
        self.actions = [f"Act{number}" for number in range(rng.randint(0, 5))]
        truths = [variable.name for variable in self.variables if variable.type == "BOOL"]
        self.clash = {}
        self.favourites = rng.sample(truths + self.actions, min(len(truths), rng.choice([1, 2, 2, 3])))
        self.targets = rng.sample(self.variables, min(len(self.variables), 5))

    def own_variables(self) -> list:
        """Variables of its own; some hide global ones."""
        made = []
        for kind in TYPES:
            words = OWN_WORDS[kind]
            for word in self.rng.sample(words, self.rng.randint(0, len(words) - 1)):
                located = self.lone and kind in SIZES and self.rng.random() < 0.2
                made.append(Variable(word, kind, self.rng.choice("IQM") if located else ""))
        return made

    def text(self, size: int) -> str:
        """The whole program type, with at most about so many steps."""
        self.chart.grow(size)
        if self.risky and len(self.chart.steps) > 1 and self.rng.random() < 0.5:
            self.plan_clash()
        elements = [self.step(step) for step in self.chart.steps]
        elements += [self.transition(number, *link) for number, link in enumerate(self.chart.links)]
        elements += [self.action(name) for name in self.actions]
        if self.rng.random() < 0.7:
            self.rng.shuffle(elements)
        parts = [f"PROGRAM {self.name}", self.declared(), self.external()] + elements + ["END_PROGRAM"]
        return "\n".join(part for part in parts if part) + "\n"

    def plan_clash(self):
        """Gives one action by SD and by SL to two steps, which is a fault where they follow each other."""
        action = self.rng.choice(self.favourites)
        self.timed[action.upper()] = ["SD", "SL"]
        for step, qualifier in zip(self.rng.sample(self.chart.steps, 2), ("SD", "SL")):
            self.clash[step] = f" {action}({qualifier}, {self.time()});"

    def declared(self) -> str:
        """The VAR blocks."""
        lines = [declaration(self.rng, variable, self.areas) for variable in self.own]
        return "  VAR\n" + "".join(f"    {line}\n" for line in lines) + "  END_VAR" if lines else ""

    def external(self) -> str:
        """A VAR_EXTERNAL block of some of the global variables that aren't hidden."""
        own = {variable.name.upper() for variable in self.own}
        named = [variable for variable in self.globals if variable.name.upper() not in own and self.rng.random() < 0.2]
        lines = [f"{said(self.rng, variable.name)} : {variable.type};" for variable in named]
        return "  VAR_EXTERNAL " + " ".join(lines) + " END_VAR" if lines else ""

    def step(self, name: str) -> str:
        """A step with its associations."""
        word = "INITIAL_STEP" if name in self.chart.initial else "STEP"
        count = self.rng.choice([0, 1, 1, 2, 2, 3])
        associations = "".join(f" {self.association()};" for _ in range(count)) + self.clash.get(name, "")
        return f"  {word} {name}:{associations} END_STEP"

    def association(self) -> str:
        """An association with an action, by any qualifier."""
        rng = self.rng
        truths = [variable.name for variable in self.variables if variable.type == "BOOL"]
        how = rng.random()
        action = rng.choice(self.favourites if how < 0.5 else self.actions if how < 0.7 and self.actions else truths)
        qualifier = rng.choice(TIMED + UNTIMED)
        if qualifier in TIMED and not self.may_time(action, qualifier):
            qualifier = rng.choice(UNTIMED)
        parts = [said(rng, qualifier)] if qualifier != "N" or rng.random() < 0.7 else [""]
        if qualifier in TIMED:
            parts.append(self.time())
        if rng.random() < 0.1:
            parts.append(rng.choice(self.variables).name)
        return f"{said(rng, action)}({', '.join(parts)})"

    def may_time(self, action: str, qualifier: str) -> bool:
        """Whether an action takes one more timed association; where no fault is sought it seldom has two, never SD with SL."""
        before = self.timed.setdefault(action.upper(), [])
        chance = 0.2 if self.risky else 0.05
        clash = {"SD", "SL"} <= set(before + [qualifier])
        taken = not before or (self.rng.random() < chance and (self.risky or not clash))
        if taken:
            before.append(qualifier)
        return taken

    def time(self) -> str:
        """The time of an association: a duration or a TIME variable."""
        named = [variable.name for variable in self.variables if variable.type == "TIME"]
        if named and self.rng.random() < 0.35:
            return said(self.rng, self.rng.choice(named))
        return literal(self.rng, any_value(self.rng, "TIME"), "TIME")

    def transition(self, number: int, before: list, after: list, priority) -> str:
        """A transition with its condition."""
        name = f" Tr{number}" if self.rng.random() < 0.2 else ""
        ranked = "" if priority is None else f" (PRIORITY := {priority})"
        return (f"  TRANSITION{name}{ranked} FROM {self.side(before)} TO {self.side(after)}"
                f" := {self.condition(before)}; END_TRANSITION")

    def side(self, steps: list) -> str:
        """One step, or several in parentheses."""
        if len(steps) == 1 and self.rng.random() < 0.9:
            return steps[0]
        return "(" + ", ".join(said(self.rng, step) for step in steps) + ")"

    def condition(self, before: list) -> str:
        """A condition, most of which are true before long."""
        rng, made = self.rng, Expressions(self.rng, self.variables, self.chart.steps)
        how = rng.random()
        if self.risky and how < 0.03:
            return self.risk(RISKY_CONDITIONS) or "TRUE"
        if how < 0.3:
            return f"{rng.choice(before)}.T {rng.choice(['>=', '>=', '>'])} {literal(rng, rng.choice(TIMES[:8]), 'TIME')}"
        if how < 0.5:
            return rng.choice(["TRUE", "true", "1", "NOT FALSE"])
        if how < 0.7:
            return rng.choice(["", "NOT "]) + made.operand("BOOL")
        return made.make("BOOL", rng.randint(1, 3))

    def risk(self, risks: dict) -> str:
        """A text that may fault some time, or an empty one where there are no variables for it."""
        kind = self.rng.choice(list(risks))
        fitting = [variable.name for variable in self.variables if variable.type == kind]
        if not fitting:
            return ""
        return self.rng.choice(risks[kind]).format(v=self.rng.choice(fitting), w=self.rng.choice(fitting))

    def action(self, name: str) -> str:
        """A declared action with its statements."""
        count = self.rng.randint(0, 4)
        lines = [self.statement(name, 2) for _ in range(count)]
        if self.risky and self.rng.random() < 0.4:
            lines.insert(self.rng.randint(0, count), self.risk(RISKS))
        return f"  ACTION {name}:" + "".join(f" {line};" for line in lines) + " END_ACTION"

    def statement(self, action: str, depth: int) -> str:
        """An assignment, an IF or an empty statement."""
        rng, made = self.rng, Expressions(self.rng, self.variables, self.chart.steps, action)
        if depth and rng.random() < 0.3:
            return self.choice(action, depth - 1, made)
        if rng.random() < 0.05:
            return ""
        target = rng.choice(self.targets if rng.random() < 0.5 else self.variables)
        if target.type in ("INT", "DINT") and rng.random() < 0.4:
            return f"{said(rng, target.name)} := {target.name} MOD 1000 + 1"
        return f"{said(rng, target.name)} := {made.make(target.type, rng.randint(0, 2))}"

    def choice(self, action: str, depth: int, made: Expressions) -> str:
        """An IF with its branches."""
        def branch():
            return "".join(f" {self.statement(action, depth)};" for _ in range(self.rng.randint(0, 2)))
        text = f"IF {made.make('BOOL', 2)} THEN{branch()}"
        for _ in range(self.rng.choice([0, 0, 1, 2])):
            text += f" ELSIF {made.make('BOOL', 1)} THEN{branch()}"
        return text + (f" ELSE{branch()}" if self.rng.random() < 0.5 else "") + " END_IF"


class Areas:
    """Hands out locations, each once."""

    def __init__(self, rng: Random):
        self.rng, self.count = rng, 0

    def location(self, variable: Variable) -> str:
        """A new location for a variable, in one of its spellings."""
        self.count += 1
        size = SIZES[variable.type]
        return "%" + variable.letter + self.rng.choice([size, size, size.lower()]) + f"{self.count // 8}.{self.count % 8}"


def declaration(rng: Random, variable: Variable, areas: Areas) -> str:
    """The line that declares a variable."""
    located = f" AT {areas.location(variable)}" if variable.letter else ""
    value = any_value(rng, variable.type)
    if rng.random() < 0.5:
        return f"{variable.name}{located} : {variable.type};"
    if variable.type == "INT" and rng.random() < 0.2:
        return f"{variable.name}{located} : {variable.type} := 16#7F;"
    return f"{variable.name}{located} : {variable.type} := {literal(rng, value, variable.type)};"


class PlantMaker:
    """Makes the text of one plant."""

    def __init__(self, rng: Random):
        self.rng, self.areas, self.risky = rng, Areas(rng), rng.random() < 0.45
        self.globals = [variable for kind in TYPES for variable in self.of_kind(kind)]
        self.types = [f"Kind{number}" for number in range(rng.choice([1, 1, 1, 2, 2, 3]))]
        self.tasks = [f"Task{number}" for number in range(rng.choice([1, 1, 1, 2, 2, 3, 4]))]
        count = rng.choice([1, 1, 2, 2, 3, 4, 5])
        kinds = rng.sample(self.types, len(self.types)) + [rng.choice(self.types) for _ in range(count)]
        self.instances = [(f"P{number}", rng.choice(self.tasks), kinds[number]) for number in range(count)]

    def of_kind(self, kind: str) -> list:
        """Global variables of a type, some of them located."""
        words = GLOBAL_WORDS[kind]
        named = self.rng.sample(words, self.rng.randint(4 if kind == "BOOL" else 1, len(words)))
        return [Variable(name, kind, self.rng.choice(["", "", "I", "I", "Q", "M"]) if kind in SIZES else "") for name in named]

    def size(self) -> int:
        """How many steps a chart has."""
        how = self.rng.random()
        return self.rng.randint(1, 8) if how < 0.65 else self.rng.randint(9, 25) if how < 0.93 else self.rng.randint(26, 70)

    def text(self) -> str:
        """The whole text."""
        types = []
        for name in self.types:
            lone = sum(kind == name for _, _, kind in self.instances) < 2
            types.append(TypeMaker(self, name, lone).text(self.size()))
        front = self.rng.randint(0, len(types))
        return "".join(types[:front]) + self.configuration() + "".join(types[front:])

    def configuration(self) -> str:
        """The configuration with its one resource."""
        lines = [declaration(self.rng, variable, self.areas) for variable in self.globals]
        cut = self.rng.choice([0, self.rng.randint(0, len(lines))])
        tasks = [self.task(name) for name in self.tasks]
        instances = [f"    PROGRAM {name} WITH {said(self.rng, task)} : {said(self.rng, kind)};\n"
                     for name, task, kind in self.instances]
        return ("CONFIGURATION Cell (* random *)\n" + block(lines[:cut]) + "  RESOURCE Cpu ON Plc {a pragma}\n" + block(lines[cut:])
                + "".join(tasks) + "".join(instances) + "  END_RESOURCE\nEND_CONFIGURATION\n")

    def task(self, name: str) -> str:
        """A task by an interval, by SINGLE, or by both."""
        truths = [variable.name for variable in self.globals if variable.type == "BOOL"]
        how = self.rng.random()
        single = f"SINGLE := {said(self.rng, self.rng.choice(truths))}, " if how > 0.6 else ""
        times = ["1ms", "7ms", "10ms", "10ms", "10ms", "20ms", "25ms", "0.5ms"]
        interval = f"INTERVAL := T#{self.rng.choice(times)}, " if how < 0.85 else self.rng.choice(["", "INTERVAL := T#0s, "])
        return f"    TASK {name}({single}{interval}PRIORITY := {self.rng.randint(0, 3)});\n"


def block(lines: list) -> str:
    """A block of global variables."""
    return "  VAR_GLOBAL\n" + "".join(f"    {line}\n" for line in lines) + "  END_VAR\n" if lines else ""


def plant(seed: int) -> tuple:
    """The chart and the script of a seed, as texts."""
    rng = Random(seed)
    chart = PlantMaker(rng).text()
    return chart, DebugScripts(rng, chart).text()


def write(seed: int, mode: str, files: list):
    """Writes the chart and the script of a seed."""
    from modes import MODES
    for name, text in zip(files, MODES[mode](seed)):
        with open(name, "w", newline="") as file:
            file.write(text)


def main():
    """Writes one plant, or a summary of many."""
    parser = argparse.ArgumentParser(usage="plants.py [--mode MODE] SEED CHART SCRIPT | plants.py [--mode MODE] summary COUNT [SEED]")
    parser.add_argument("--mode", default="whole")
    parser.add_argument("words", nargs="+")
    given = parser.parse_args()
    if given.words[0] == "summary":
        from plant_summary import summary
        print(summary(given.mode, *[int(word) for word in given.words[1:]]))
    else:
        write(int(given.words[0]), given.mode, given.words[1:])


if __name__ == "__main__":
    main()
