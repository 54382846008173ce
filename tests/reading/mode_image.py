"""Plants about the image: many variables of all types, inputs, forces, releases and resets in any order, right and wrong ones."""

from random import Random

from plant_scripts import Scripts
from plant_values import Expressions, Variable
from plants import Areas, SIZES, TYPES, block, declaration

WRONG_NAMES = ["zz", "P0", "P0.zz", "zz.n0", "Kind0.n0", "P0.n0.n0", "P0.", ".n0", "P0..n0", "n0", "Main", "Act", "1", "S0.X", ";",
               "%IX0.0"]
WRONG_VALUES = ["40000", "-32769", "2147483647", "-2147483648", "2", "-1", "5", "TRUE", "false", "T#0s", "T#-1ms", "00", "-00", "T#1.5ms"]
WRONG_LINES = ["T#0s FORCE a 2147483648", "T#0s FORCE a INT#1", "SCAN Main", "T#0s RELEASE", "T#0s SCAN Main ; twice", "T#0s STOP P0",
               "T#0s INPUT a -", "T#0s FORCE a 1.5", "0 SCAN Main", "T#1 SCAN Main", "T#0s FORCE a 2#1"]
FAULTY = {"INT": "{v} := 100 / {v}", "DINT": "{v} := {v} + 2_147_483_000", "TIME": "{v} := {v} + T#53375995d"}


class ImageMaker:
    """Makes the text of one chart."""

    def __init__(self, rng: Random):
        self.rng, self.areas = rng, Areas(rng)
        self.globals = self.variables("g", rng.randint(1, 40), "IIQM")
        self.counts = [rng.choice([1, 1, 2, 4]) for _ in range(rng.randint(1, 2))]

    def variables(self, word: str, count: int, letters: str) -> list:
        """So many variables of all types; `letters` are those of their locations, if they may have one."""
        made = []
        for number in range(count):
            kind = self.rng.choice(TYPES)
            located = letters and kind in SIZES and self.rng.random() < 0.6
            made.append(Variable(f"{word}{number}", kind, self.rng.choice(letters) if located else ""))
        return made

    def program(self, number: int) -> str:
        """A program type of two steps, with a body and some Boolean actions; some of its variables hide global ones."""
        rng = self.rng
        own = self.variables("n", rng.randint(0, 12), "IIQM" if self.counts[number] == 1 else "")
        own += self.variables("g", rng.randint(0, 3), "")
        hidden = {variable.name for variable in own}
        seen = own + [variable for variable in self.globals if variable.name not in hidden]
        truths = [variable.name for variable in seen if variable.type == "BOOL"]
        plain = "".join(f" {rng.choice(truths)}({rng.choice('NSRP')});" for _ in range(rng.randint(0, 2)) if truths)
        statements = [self.assignment(seen) for _ in range(rng.randint(0, 5))] + [self.fault(seen)]
        lines = [declaration(rng, variable, self.areas) for variable in own]
        declared = "  VAR\n" + "".join(f"    {line}\n" for line in lines) + "  END_VAR\n" if lines else ""
        return (f"PROGRAM Kind{number}\n{declared}  INITIAL_STEP S0: Act(N);{plain} END_STEP\n  STEP S1: Act(P1); END_STEP\n"
                f"  TRANSITION FROM S0 TO S1 := {Expressions(rng, seen, ['S0', 'S1']).make('BOOL', 1)}; END_TRANSITION\n"
                f"  TRANSITION FROM S1 TO S0 := TRUE; END_TRANSITION\n  ACTION Act: {' '.join(statements)} END_ACTION\nEND_PROGRAM\n")

    def assignment(self, seen: list) -> str:
        """A statement that writes a variable."""
        target = self.rng.choice(seen)
        return f"{target.name} := {Expressions(self.rng, seen, ['S0', 'S1'], 'Act').make(target.type, 1)};"

    def fault(self, seen: list) -> str:
        """Now and then a statement that may be a fault."""
        target = self.rng.choice(seen)
        return FAULTY[target.type].format(v=target.name) + ";" if target.type in FAULTY and self.rng.random() < 0.4 else ""

    def text(self) -> str:
        """The whole text."""
        programs = [self.program(number) for number in range(len(self.counts))]
        kinds = [number for number, count in enumerate(self.counts) for _ in range(count)]
        instances = [f"  PROGRAM P{place} WITH Main : Kind{number};\n" for place, number in enumerate(kinds)]
        lines = [declaration(self.rng, variable, self.areas) for variable in self.globals]
        return ("".join(programs) + "CONFIGURATION Cell\n  RESOURCE Cpu ON Plc\n" + block(lines)
                + "  TASK Main(INTERVAL := T#10ms, PRIORITY := 1);\n" + "".join(instances) + "  END_RESOURCE\nEND_CONFIGURATION\n")


class ImageScripts(Scripts):
    """Makes scripts of inputs, forces, releases and resets with some scans between; one of fifty has a faulty line."""

    LEAST, MOST, ODD_TYPES = 40, 80, 12

    def text(self) -> str:
        """The whole script."""
        whole = super().text()
        if self.rng.random() < 0.98:
            return whole
        lines = whole.split("\n")
        lines.insert(self.rng.randint(0, len(lines)), self.rng.choice(WRONG_LINES))
        return "\n".join(lines)

    def makers(self, faulted: bool) -> list:
        """What may come next, each with its weight; `faulted` says that an instance has a fault."""
        return [(self.scan, 25), (self.input, 20), (self.force, 20), (self.release, 15), (self.reset, 15 if faulted else 6),
                (self.wrong, 10), (self.stray, 2), (self.aside, 1)]

    def wrong(self):
        """A command with a name that is none, or with a value that few variables take."""
        rng = self.rng
        names = [variable.name for variable in self.plant.variables]
        name = rng.choice(WRONG_NAMES if rng.random() < 0.5 else names)
        value = rng.choice(WRONG_VALUES)
        words = rng.choice([("INPUT", name, value), ("FORCE", name, value), ("FORCE", name, value), ("RELEASE", name), ("RESET", name)])
        self.say(*words)


def plant(seed: int) -> tuple:
    """The chart and the script of a seed, as texts."""
    rng = Random(seed)
    text = ImageMaker(rng).text()
    return text, ImageScripts(rng, text).text()
