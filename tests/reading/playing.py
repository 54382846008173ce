"""What a replay prints. The format is this project's own."""

from debugging import Debugger, executed
from history import Refusal
from lexer import time_text
from listing import Lister, value_text
from loading import fits, place_of
from scripts import Command

METHODS = {"BREAK": "set_point", "UNBREAK": "unset_point", "STOP": "plain", "GO": "plain", "END": "plain", "EPOCH": "plain"}


class Replay:
    """Plays commands over a plant and gives the lines that are printed."""

    def __init__(self, plant):
        self.plant, self.debugger = plant, Debugger(plant)
        self.history = self.debugger.history

    def variable(self, name: str):
        """The number of a variable, or None."""
        return place_of([variable.name for variable in self.plant.variables], name)

    def task(self, name: str):
        """The number of a task, or None."""
        return place_of([task.name for task in self.plant.tasks], name)

    def program(self, name: str):
        """The number of a program instance, or None."""
        return place_of([instance.name for instance in self.plant.instances], name)

    def typed(self, variable, value):
        """A value as the variable takes it: a whole number gets the variable's type where it fits, else it is a DINT."""
        kind, number = value
        if kind is not None:
            return value
        wanted = "DINT" if variable is None else self.plant.variables[variable].type
        if wanted == "TIME" or not fits(number, wanted):
            wanted = "DINT"
        return wanted, (bool(number) if wanted == "BOOL" else number)

    def play(self, one: Command) -> list:
        """The lines of a command."""
        try:
            return getattr(self, METHODS.get(one.word, one.word.lower()))(one)
        except Refusal as refusal:
            return [self.refused(*refusal.args)]

    def refused(self, what: str, *more) -> str:
        """The line of a refused command; behind 29 stands the next release, behind 30 the task that goes first."""
        if what == "29 NotDue":
            more = ["none" if more[0] is None else time_text(more[0])]
        return " ".join(["refused", what, *more])

    def echo(self, one: Command, *words: str) -> str:
        """The command that was accepted last as it is repeated, at its run instant."""
        return " ".join([time_text(self.debugger.given[-1].instant), one.word, *words])

    # -- commands

    def input(self, one: Command) -> list:
        """INPUT variable value"""
        return self.set_value(one, self.history.input)

    def force(self, one: Command) -> list:
        """FORCE variable value"""
        return self.set_value(one, self.history.force_event)

    def set_value(self, one: Command, event) -> list:
        """A command with a variable and a value, which is this event."""
        variable = self.variable(one.name)
        value = self.typed(variable, one.value)
        self.debugger.event(one.word, one.instant, event, variable, *value)
        return [self.echo(one, self.plant.variables[variable].name, value_text(*value))]

    def release(self, one: Command) -> list:
        """RELEASE variable"""
        variable = self.variable(one.name)
        self.debugger.event("RELEASE", one.instant, self.history.release_event, variable)
        return [self.echo(one, self.plant.variables[variable].name)]

    def reset(self, one: Command) -> list:
        """RESET program"""
        program = self.program(one.name)
        self.debugger.event("RESET", one.instant, self.history.reset, program)
        return [self.echo(one, self.plant.instances[program].name)]

    def scan(self, one: Command) -> list:
        """SCAN task"""
        task = self.task(one.name)
        done, hit = self.debugger.scan(task, one.instant)
        return self.scanned(one, task, done, [], ["hit"] if hit else [])

    def single(self, one: Command) -> list:
        """SINGLE task duration"""
        task = self.task(one.name)
        done = self.debugger.single(task, one.value, one.instant)
        return self.scanned(one, task, done, [time_text(one.value)], [])

    def scanned(self, one: Command, task: int, done: list, behind: list, hit: list) -> list:
        """The lines of a scan of either kind."""
        words = [self.plant.tasks[task].name] + behind + ["overruns", str(self.history.overruns(task))] + hit
        return [self.echo(one, *words)] + [self.instance_line(instance, how) for instance, how in done]

    def read(self, one: Command) -> list:
        """READ variable"""
        number = self.variable(one.name)
        value = self.debugger.read(number, one.instant)
        variable = self.plant.variables[number]
        return [self.echo(one, variable.name, value_text(variable.type, value))]

    def point_words(self, point) -> list:
        """How a point is repeated: a transition by its number, all else by its declared name."""
        return [self.plant.instances[point.program].name, point.kind, point.name]

    def set_point(self, one: Command) -> list:
        """BREAK program point, and WHEN with its condition as listings have it"""
        point = self.debugger.set_point(self.program(one.name), one.kind, one.point, one.condition, one.instant)
        words = self.point_words(point)
        if one.condition is not None:
            words += ["WHEN", Lister(self.plant, self.plant.instances[point.program]).text(one.condition)]
        return [self.echo(one, *words)]

    def unset_point(self, one: Command) -> list:
        """UNBREAK program point"""
        point = self.debugger.unset_point(self.program(one.name), one.kind, one.point, one.instant)
        return [self.echo(one, *self.point_words(point))]

    def plain(self, one: Command) -> list:
        """STOP, GO, END or EPOCH"""
        self.debugger.plain(one.word, one.instant)
        return [self.echo(one)]

    # -- what stands behind commands

    def instance_line(self, instance, how: str) -> str:
        """What one instance did in a scan."""
        if how != "ran":
            return f"  {instance.plant.name} {how} {instance.fault}"
        life, chart = instance.life, instance.plant.chart
        scan = life.scans()
        steps = [f"{chart.steps[step]}={time_text(life.elapsed(scan, step))}" for step in life.steps(scan)]
        cleared = [str(number + 1) for number in life.row(scan).cleared]
        names = [chart.actions[number].name for number in executed(life, scan)]
        parts = [",".join(part) or "-" for part in (steps, cleared, names)]
        return f"  {instance.plant.name} {scan} steps {parts[0]} cleared {parts[1]} run {parts[2]}"

    def image(self) -> list:
        """The value of each variable at the end."""
        found = []
        for number, variable in enumerate(self.plant.variables):
            forced = " forced" if self.history.force(number) is not None else ""
            found.append(f"image {variable.name} {value_text(variable.type, self.history.read(number))}{forced}")
        return found

    def lines(self, found: list) -> list:
        """All lines of a script's commands, and the image behind them."""
        return [line for one in found for line in self.play(one)] + self.image()
