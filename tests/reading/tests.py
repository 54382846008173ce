#!/usr/bin/env python3
"""tests.py PROGRAM N [SEED]: random files of tests over random plants, by `PROGRAM test CHART FILE` and by the reading.

Compared are which cases pass, and of those that fail the line, the instant, the line at which what is watched didn't hold, and what changed
last; or the first faulty line. `why` has to tell the same faulty line, and nothing but names where there is none. What differs is kept in a
temporary folder. The last line is 'N passed, M failed'.
"""

import re
import subprocess
import sys
import tempfile
from pathlib import Path
from random import Random

import plants
from reading import plant_of
from testing import FaultyLine, tested, without_details

KINDS = ("DivZero", "Range", "TwoTimed", "SdWhileSl", "SlWhileSd")


class Maker:
    """Makes a file of tests over a plant."""

    def __init__(self, rng: Random, plant):
        self.rng, self.plant = rng, plant

    def pick(self, some):
        """One of them."""
        return self.rng.choice(list(some))

    def seen(self, program: int) -> dict:
        """The variables that a program instance sees, by their names there, with their types."""
        found = {one.name: one.type for one in self.plant.variables if "." not in one.name}
        front = self.plant.instances[program].name + "."
        found.update({one.name[len(front):]: one.type for one in self.plant.variables if one.name.startswith(front)})
        return found

    def simple(self, program: int) -> str:
        """A condition without AND and OR."""
        steps, kind = self.plant.instances[program].chart.steps, self.rng.random()
        if kind < 0.4:
            return f"{self.pick(steps)}.X"
        if kind < 0.5:
            return f"{self.pick(steps)}.T {self.pick(['>=', '<', '='])} T#{self.rng.randrange(60)}ms"
        name, type_ = self.pick(self.seen(program).items()) if self.seen(program) else ("", "")
        if type_ == "BOOL":
            return name
        if type_ in ("INT", "DINT"):
            return self.pick([f"{name} > {self.rng.randrange(-3, 9)}", f"7 / {name} >= 1", f"{name} <> 0"])
        if type_ == "TIME":
            return f"{name} <= T#{self.rng.randrange(99)}ms"
        return "TRUE"

    def condition(self) -> str:
        """A condition, with its program instance or without one."""
        program = self.rng.randrange(len(self.plant.instances))
        text = self.simple(program)
        if self.rng.random() < 0.3:
            text = f"NOT ({text})"
        if self.rng.random() < 0.3:
            text += self.pick([" AND ", " OR ", " XOR "]) + self.simple(program)
        if len(self.plant.instances) > 1 or self.rng.random() < 0.2:
            text = f"IN {self.plant.instances[program].name} {text}"
        while self.rng.random() < 0.25:
            program = self.rng.randrange(len(self.plant.instances))
            text += self.pick([" AND ", " OR ", " or ", " and\t "]) + f"IN {self.plant.instances[program].name} {self.simple(program)}"
        return text if self.rng.random() < 0.97 else self.shared()

    def shared(self) -> str:
        """A condition that names no program instance, and mostly reads global variables alone."""
        names = [one.name for one in self.plant.variables[:self.plant.globals] if one.type == "BOOL"]
        return self.pick(names + ["TRUE"] + ([self.pick(names) + " OR NOT " + self.pick(names)] if names else []))

    def likely(self, wanted: bool) -> str:
        """A condition that is mostly as it is wanted, a fault of it apart."""
        text = self.condition()
        if self.rng.random() < 0.3:
            one = self.pick(self.plant.instances).name
            return f"{text} OR IN {one} TRUE" if wanted else self.conjunction(one)
        return text if self.rng.random() < 0.2 else f"{text} OR TRUE" if wanted else f"{text} AND FALSE"

    def conjunction(self, one: str) -> str:
        """What is FALSE mostly, over two instances."""
        program = self.rng.randrange(len(self.plant.instances))
        return f"IN {self.plant.instances[program].name} {self.simple(program)} AND IN {one} FALSE"

    def stimulus(self) -> str:
        """A command that is given beside RUN and UNTIL; now and then one that says nothing."""
        kind = self.rng.random()
        inputs = [one for one in self.plant.variables if one.location and "I" in str(one.location[0])]
        flags = [one.name for one in inputs if one.type == "BOOL"]
        numbers = [one.name for one in inputs if one.type in ("INT", "DINT")]
        if kind < 0.3 and flags:
            return f"EVERY T#{self.rng.randrange(1, 40)}ms INPUT {self.pick(flags)} TOGGLE"
        if kind < 0.5 and numbers:
            first, last = self.rng.randrange(-3, 9), self.rng.randrange(-3, 9)
            return f"RAMP {self.pick(numbers)} {first} {last} T#{self.rng.randrange(1, 200)}ms"
        if kind < 0.98:
            when = self.pick([f"EVERY T#{self.rng.randrange(1, 40)}ms", f"AT {self.pick(['', '+'])}T#{self.rng.randrange(90)}ms"])
            if inputs and self.rng.random() < 0.9:
                one = self.pick(inputs)
                return f"{when} INPUT {one.name} {self.value(one.type)}"
            return f"{when} {self.command()}"
        return self.pick(["EVERY T#0s STOP", "AT STOP", "RAMP Nope 0 1 T#1s", "RAMP"])

    def response(self) -> str:
        """One condition that responds to another."""
        effect = self.likely(True) if self.rng.random() < 0.6 else self.condition()
        return f"WITHIN T#{self.rng.randrange(60)}ms AFTER {self.condition()} EXPECT {effect}"

    def value(self, type_: str) -> str:
        """A value of a type, mostly."""
        if type_ == "BOOL":
            return self.pick(["TRUE", "FALSE"])
        return f"T#{self.rng.randrange(99)}ms" if type_ == "TIME" else str(self.rng.randrange(-2, 9))

    def command(self) -> str:
        """A command of a script; some are refused."""
        variable, kind = self.pick(self.plant.variables) if self.plant.variables else None, self.rng.random()
        inputs = [one for one in self.plant.variables if one.location and "I" in str(one.location[0])]
        if kind < 0.5 and inputs:
            one = self.pick(inputs)
            return f"INPUT {one.name} {self.value(one.type)}"
        if kind < 0.75 and variable:
            return f"FORCE {variable.name} {self.value(variable.type)}"
        if kind < 0.85 and variable:
            return f"{self.pick(['RELEASE', 'READ', 'READ', 'READ'])} {variable.name}"
        if kind < 0.95:
            return f"RESET {self.pick(self.plant.instances).name}"
        if kind < 0.97:
            return f"SCAN {self.pick(self.plant.tasks).name}"
        one = self.pick(self.plant.instances)
        return self.pick(["STOP", "GO", "EPOCH", f"BREAK {one.name} STEP {self.pick(one.chart.steps)}",
                          f"BREAK {one.name} STEP {self.pick(one.chart.steps)} WHEN TRUE"])

    def expectation(self) -> str:
        """What has to hold."""
        kind = self.rng.random()
        if kind < 0.8:
            return f"EXPECT {self.likely(True)}"
        one = self.pick(self.plant.instances)
        if kind < 0.85:
            steps = self.rng.sample(one.chart.steps, min(len(one.chart.steps), self.rng.randrange(1, 3)))
            return f"EXPECT IN {one.name} ACTIVE {', '.join(steps)}"
        if kind < 0.9:
            return f"EXPECT REFUSED {self.pick([24, 25, 26, 27, 28, 29, 30, 34, 36, 37])} {self.command()}"
        if kind < 0.95:
            return f"EXPECT FAULT {self.pick(KINDS)} {one.name}"
        return f"EXPECT OVERRUNS {self.rng.randrange(3)} {self.pick(self.plant.tasks).name}"

    def line(self) -> str:
        """A line of a case."""
        kind, instant = self.rng.random(), self.pick(["", "", "", ""] + [f"+T#{self.rng.randrange(30)}ms "] * 3 + [f"T#{self.rng.randrange(200)}ms "])
        if kind < 0.3:
            return f"{instant}RUN {self.pick(['+', '+', '+', ''])}T#{self.rng.randrange(60)}ms"
        if kind < 0.4:
            return f"{instant}UNTIL {self.likely(True)} WITHIN T#{self.rng.randrange(80)}ms"
        if kind < 0.55:
            end = self.pick(["", f" UNTIL {self.condition()}", f" FOR T#{self.rng.randrange(50)}ms"])
            return instant + self.pick([f"ALWAYS {self.likely(True)}", f"NEVER {self.likely(False)}"]) + end
        if kind < 0.6:
            return instant + self.response()
        if kind < 0.67:
            return instant + self.stimulus()
        if kind < 0.78:
            return instant + self.command()
        if kind < 0.995:
            return instant + self.expectation()
        return self.pick(["EXPECT", "RUN", "SCAN", "NEVER Nope.X", "LET a b"])

    def text(self) -> str:
        """A file of tests."""
        lines = [self.line() for _ in range(self.pick([0, 0, 1, 2]))]
        for number in range(self.rng.randrange(2, 9)):
            lines += [f"TEST case {number}"] + [self.line() for _ in range(self.rng.randrange(1, 12))]
        return "\n".join(lines) + "\n"


def here(plant, text: bytes, file: str) -> tuple:
    """What the reading tells, and its status."""
    try:
        told = tested(plant, text, file)
    except FaultyLine as line:
        return f"{file}: script line {line}", 1
    return "\n".join(told), 0 if told[-1].endswith(" 0 failed") else 1


def there(program: str, chart: Path, file: Path) -> tuple:
    """The same of the program, without what was read."""
    ran = subprocess.run([program, "test", chart, file], stdin=subprocess.DEVNULL, capture_output=True, timeout=60, check=False)
    if ran.stderr:
        return ran.stderr.decode("latin-1").strip(), ran.returncode
    return without_details(ran.stdout.decode("latin-1")).rstrip("\n"), ran.returncode


def told_by_why(program: str, chart: Path, file: Path, faulty: int) -> str:
    """What `why` tells otherwise than it should: of a file whose first faulty line is this one, or that has none (0); '' where it tells that."""
    ran = subprocess.run([program, "why", str(chart), str(file)], stdin=subprocess.DEVNULL, capture_output=True, timeout=60, check=False)
    told = ran.stdout.decode("latin-1")
    if faulty:
        return "" if ran.returncode == 1 and told.startswith(f"{file}:{faulty}:") else f"not line {faulty}: {told[:200]}"
    if ran.returncode == 0:
        return "" if told == "no fault\n" else f"more than that there is no fault: {told[:200]}"
    reports = told.count(f"{file}:")
    return "" if reports == told.count("\n  in: the name, ") else f"a fault that is no name: {told[:300]}"


def main() -> int:
    """Compares so many."""
    program, count, seed = sys.argv[1], int(sys.argv[2]), int(sys.argv[3]) if len(sys.argv) > 3 else 1
    folder, passed, failed, ok = Path(tempfile.mkdtemp()), 0, 0, [0, 0]
    for number in range(seed, seed + count):
        text = plants.plant(number)[0]
        plant = plant_of(text.encode())
        chart, file = folder / f"{number}.chart", folder / f"{number}.sfctest"
        chart.write_text(text, "latin-1")
        file.write_text(Maker(Random(number), plant).text(), "latin-1")
        ours, theirs = here(plant, file.read_bytes(), str(file)), there(program, chart, file)
        ok[0] += ours[0].count("ok case")
        ok[1] += ours[0].count("FAILED case")
        faulty = re.fullmatch(r".*: script line (\d+)", ours[0])
        why = told_by_why(program, chart, file, int(faulty[1]) if faulty else 0)
        if why:
            failed += 1
            print(f"{chart} {file}: why tells {why}")
            continue
        if ours == theirs:
            passed += 1
            chart.unlink()
            file.unlink()
        else:
            failed += 1
            print(f"{chart} {file} differ: status {theirs[1]} for {ours[1]}")
            for left, right in zip(ours[0].splitlines(), theirs[0].splitlines()):
                if left != right:
                    print(f"  the reading: {left}\n  the program: {right}")
                    break
    print(f"; {ok[0]} cases passed, {ok[1]} failed, as they had to")
    print(f"{passed} passed, {failed} failed")
    return 1 if failed else 0


sys.exit(main())
