"""Random scripts with commands of the debugger: breakpoints with and without conditions, halts, single scans, epochs, right and wrong."""

from random import Random

from plant_scripts import Scripts
from plant_values import TIMES, Expressions, Variable, said, time_literal

DELTAS = [0, 0, 1, 7, 500, 1_000, 5_000, 9_999, 10_000, 10_000, 10_001, 20_000, 33_333, 100_000]
FAR = [-1, -10_000, 2 ** 62, 2 ** 61, 10 ** 12]
FAULTING = {
    "INT": ["100 / {v} < 50", "{v} + 32700 > 0", "{v} / ({v} - {v}) = {v}", "-{v} < 7 / 0"],
    "DINT": ["1000 / {v} >= 0", "{v} * 100_000 <> 5", "{v} / 0 = 0"],
    "TIME": ["{v} + T#53375995d > T#0s", "{v} - T#53375995d - T#2d < {v}"],
    "BOOL": ["{v} OR 1 / 0 = 1", "{v} AND 5 / (3 - 3) > 1", "INT#-32768 / -1 > 0 OR {v}"],
}
WRONG_CONDITIONS = ["5", "T#1s", "zz", "zz.X", "S0.Q", "S0.T", "Act0.Q", "P0.flag", "TRUE TRUE", "(TRUE", "TRUE)", "TRUE;", "", "NOT",
                    "TRUE OR", "(* TRUE", "1 + 1", "INT#1 = DINT#1", "INT#40000 = 1", "TRUE < FALSE", "a__b", "16#G = 1", "T#1 = T#1s",
                    "2 = TRUE", "S0.X := TRUE", "WHEN TRUE", "S0.", ".X", "\xc4", "(" * 65 + "TRUE" + ")" * 65, "NOT " * 65 + "TRUE",
                    "TRUE" + " OR TRUE" * 257]
WRONG_LINES = ["BREAK", "BREAK P0", "BREAK P0 STEP", "BREAK P0 S0", "BREAK P0 STEP S0 S1", "BREAK P0 STEP S0 IF TRUE", "BREAK P0 WHEN TRUE",
               "BREAK P0 TRANSITION 0", "BREAK P0 TRANSITION 65536", "BREAK zz TRANSITION 000", "UNBREAK P0 TRANSITION 99999999999",
               "UNBREAK P0 STEP S0 WHEN TRUE", "UNBREAK P0 STEP", "UNBREAK", "BREAK zz STEP S0 WHEN (", "BREAK zz STEP S0 WHEN", "STOP P0",
               "GO Task0", "END 1", "EPOCH T#1s", "SINGLE Task0", "SINGLE T#1s", "SINGLE Task0 10", "SINGLE Task0 TRUE", "READ", "READ a b",
               "SINGLE Task0 T#1", "BREAK P0 VARIABLE n", "WHEN TRUE"]


class DebugScripts(Scripts):
    """Makes scripts with commands of the debugger; FEW is the weight of those that are asked while the plant runs."""

    FEW = 1

    def text(self) -> str:
        """The whole script; one of fifty has a faulty line."""
        whole = super().text()
        if self.rng.random() < 0.98:
            return whole
        lines = whole.split("\n")
        for _ in range(self.rng.choice([1, 1, 2])):
            lines.insert(self.rng.randint(0, len(lines)), self.wrong_line())
        return "\n".join(lines)

    def wrong_line(self) -> str:
        """A line that is no command."""
        if self.rng.random() < 0.4:
            return "T#0s " + self.rng.choice(WRONG_LINES)
        name = self.plant.instances[0].name
        return f"T#0s BREAK {name} STEP {self.plant.instances[0].chart.steps[0]} WHEN {self.rng.choice(WRONG_CONDITIONS)}"

    def makers(self, faulted: bool) -> list:
        """What may come next, each with its weight; `faulted` says that an instance has a fault."""
        few = self.FEW
        more = [(self.set_point, 5 * few), (self.unset_point, 2 * few), (self.read, 3 * few), (self.epoch, 2 * few),
                (self.refused, few)]
        if self.debugger.mode() == "Running":
            return super().makers(faulted) + more + [(self.halt, 2 * few), (self.many_points, 0.05 * few), (self.finish, 0.05 * few)]
        if self.debugger.mode() == "Ended":
            return [(self.after_end, 1), (self.aside, 1)]
        return [(self.let_go, 20), (self.single, 30), (self.wait, 10), (self.scan, 2), (self.input, 4), (self.force, 2), (self.release, 2),
                (self.reset, 6 if faulted else 2), (self.stray, 1), (self.aside, 1), (self.many_points, 0.2), (self.finish, 0.1)] + more

    # -- the clock

    def halt(self):
        """STOP"""
        self.say(self.word("STOP"))

    def let_go(self):
        """GO, most often behind a halt of some length"""
        self.wait()
        self.say(self.word("GO"))

    def wait(self):
        """Lets raw time go on."""
        self.now = min(2 ** 62, self.now + self.rng.choice([0, 1, 777, 5_000, 10_000, 123_456, 5_000_000, 3_600_000_000]))

    def finish(self):
        """END, but no early one"""
        if len(self.lines) > self.LEAST:
            self.say(self.word("END"))

    def after_end(self):
        """Some command that comes too late."""
        self.rng.choice([self.scan, self.read, self.epoch, self.let_go, self.halt, self.set_point, self.refused, self.input, self.single])()

    def epoch(self):
        """EPOCH, now and then twice"""
        for _ in range(self.rng.choice([1, 1, 1, 2])):
            self.say(self.word("EPOCH"))

    def single(self):
        """SINGLE of any task"""
        far = self.rng.random() < 0.004
        delta = self.rng.choice(FAR if far else DELTAS)
        self.say(self.word("SINGLE"), said(self.rng, self.rng.choice(self.plant.tasks).name), time_literal(self.rng, delta))

    # -- what is asked

    def read(self):
        """READ of any variable"""
        self.say(self.word("READ"), self.name(self.rng.randrange(len(self.plant.variables))))

    def refused(self):
        """A command that is refused now, most often."""
        rng, task, instance = self.rng, self.plant.tasks[0].name, self.plant.instances[0].name
        step = self.plant.instances[0].chart.steps[0]
        words = rng.choice([("READ", "zz"), ("READ", instance), ("GO",), ("STOP",), ("SINGLE", "zz", "T#1ms"), ("SINGLE", task, "T#-1ms"),
                            ("SINGLE", "zz", "T#-1ms"), ("BREAK", "zz", "STEP", step), ("BREAK", instance, "STEP", "zz"),
                            ("BREAK", instance, "ACTION", "zz"), ("BREAK", instance, "ACTION", step),
                            ("BREAK", instance, "TRANSITION", "zz"),
                            ("BREAK", instance, "TRANSITION", "65535"), ("BREAK", instance, "TRANSITION", "-1"),
                            ("BREAK", "zz", "STEP", step, "WHEN", "zz"), ("BREAK", "zz", "STEP", step, "WHEN", "5 +(* 5 *)5"),
                            ("BREAK", instance, "STEP", "zz", "WHEN", "FALSE"), ("UNBREAK", "zz", "STEP", step),
                            ("UNBREAK", instance, "STEP", "zz"), ("UNBREAK", instance, "STEP", step), ("SCAN", "zz")])
        self.say(*words, instant=rng.choice([None, None, None, self.now - 1, -1]))

    # -- breakpoints

    def point(self, instance) -> tuple:
        """The words of a point of an instance: any step, transition or action."""
        rng, chart = self.rng, instance.chart
        actions = [action.name for action in chart.actions] + chart.declared
        kind = rng.choice(["STEP"] * 2 + ["TRANSITION"] * bool(chart.transitions) + ["ACTION"] * bool(actions))
        if kind == "TRANSITION":
            number = rng.randrange(len(chart.transitions))
            name = chart.transitions[number].name
            shown = said(rng, name) if name and rng.random() < 0.5 else rng.choice(["", "", "0"]) + str(number + 1)
        else:
            shown = said(rng, rng.choice(chart.steps if kind == "STEP" else actions))
        return self.word(kind), shown

    def set_point(self):
        """BREAK, with a condition or without."""
        instance = self.rng.choice(self.plant.instances)
        words = (self.word("BREAK"), said(self.rng, instance.name)) + self.point(instance)
        if self.rng.random() < 0.6:
            words += (self.word("WHEN"), self.condition(instance))
        self.say(*words)

    def unset_point(self):
        """UNBREAK, most often of a point that is set"""
        points, instance = self.debugger.points(), self.rng.choice(self.plant.instances)
        words = self.point(instance)
        if points and self.rng.random() < 0.8:
            point = self.rng.choice(points)
            instance, words = self.plant.instances[point.program], (point.kind, point.name)
        self.say(self.word("UNBREAK"), said(self.rng, instance.name), *words)

    def many_points(self):
        """More breakpoints than there may be, where the charts have so many points."""
        for instance in self.plant.instances:
            chart = instance.chart
            words = [("STEP", name) for name in chart.steps] + [("TRANSITION", str(number + 1)) for number in range(len(chart.transitions))]
            for one in self.rng.sample(words, min(len(words), 40)):
                self.say("BREAK", instance.name, *one, *self.rng.choice([(), ("WHEN", "FALSE")]))

    def condition(self, instance) -> str:
        """A condition over what the instance sees, with a comment now and then."""
        rng = self.rng
        names = instance.chart.scope.variables
        seen = [Variable(name if rng.random() < 0.5 else name.lower(), kind) for name, (_, kind) in names.items()]
        made, steps = Expressions(rng, seen, instance.chart.steps), instance.chart.steps
        text = rng.choice([
            lambda: made.make("BOOL", rng.randint(1, 3)),
            lambda: made.make("BOOL", 1),
            lambda: f"{rng.choice(steps)}.T {rng.choice(['>=', '<', '=', '<='])} {time_literal(rng, rng.choice(TIMES[:9]))}",
            lambda: rng.choice(["", "NOT ", "not not "]) + rng.choice(steps) + ".X",
            lambda: self.faulting(seen),
            lambda: rng.choice(["TRUE", "1", "bool#1", "NOT FALSE"]),
        ])()
        return rng.choice(["{}", "{}", "{}", "(({}))", "(* when *) {}", "{}\t(* why *)", "{{p}}{}", "{} "]).format(text)

    def faulting(self, seen: list) -> str:
        """A condition that ends with a fault, or may."""
        variable = self.rng.choice(seen)
        return self.rng.choice(FAULTING[variable.type]).format(v=variable.name)
