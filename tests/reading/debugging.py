"""The debugger, as a list of accepted commands that is looked back over: run clock, modes, breakpoints (all of it is our choice).

The core is told the events among the commands, each at its run instant. Of halts, breakpoints and epochs it knows nothing.
"""

from typing import NamedTuple, Optional

from history import MOST_INSTANT, History, Refusal
from loading import place_of
from meaning import Fault, View, value

MOST_POINTS = 64
BY_MODE = {
    ("Stopped", "SCAN"): "34 Stopped",
    ("Stopped", "STOP"): "35 NotRunning",
    ("Running", "GO"): "36 NotStopped",
    ("Running", "SINGLE"): "36 NotStopped",
}


class Point(NamedTuple):
    """A place for a breakpoint: a program instance by number, STEP, TRANSITION or ACTION, and how it is printed."""
    program: int
    kind: str
    name: str


class Given(NamedTuple):
    """An accepted command: its word, its raw instant, its run instant, the mode after it.

    SINGLE has a delta; BREAK and UNBREAK have a point, BREAK its condition as well, or None.
    """
    word: str
    raw: int
    instant: int
    mode: str
    delta: int = 0
    point: Optional[Point] = None
    condition: Optional[tuple] = None


def executed(life, scan: int) -> list:
    """The numbers of the executed actions of a scan: Boolean ones by first association, then bodies by declaration."""
    chart = life.chart
    order = [number for number, action in enumerate(chart.actions) if action.place] + chart.bodies
    return [number for number in order if life.executed(scan, number)]


class Debugger:
    """A plant that is steered by commands."""

    def __init__(self, plant):
        self.plant, self.history, self.given = plant, History(plant), []

    # -- the clock

    def mode(self) -> str:
        """Running at first, later as the latest command left it."""
        return self.given[-1].mode if self.given else "Running"

    def mode_after(self, word: str, hit: bool) -> str:
        """The mode after one more command."""
        if word in ("STOP", "GO", "END"):
            return {"STOP": "Stopped", "GO": "Running", "END": "Ended"}[word]
        return "Stopped" if hit else self.mode()

    def run_instant(self, raw: int, delta=0) -> int:
        """The raw time since 0 after whose begin the mode was Running, and the deltas of all single scans."""
        raws = [0] + [one.raw for one in self.given] + [raw]
        modes = ["Running"] + [one.mode for one in self.given]
        running = sum(end - begin for begin, end, mode in zip(raws, raws[1:], modes) if mode == "Running")
        return running + sum(one.delta for one in self.given) + delta

    def enter(self, word: str, raw: int, delta=0) -> int:
        """The run instant of a command; refuses what End, the clock and the mode refuse."""
        mode = self.mode()
        if mode == "Ended":
            raise Refusal("40 Ended")
        if not 0 <= raw <= MOST_INSTANT:
            raise Refusal("33 InstantRange")
        if self.given and raw < self.given[-1].raw:
            raise Refusal("28 ClockBack")
        if (mode, word) in BY_MODE:
            raise Refusal(BY_MODE[mode, word])
        instant = self.run_instant(raw, delta)
        if delta < 0 or instant > MOST_INSTANT:
            raise Refusal("33 InstantRange")
        return instant

    def keep(self, word: str, raw: int, instant: int, hit=False, **more):
        """Takes an accepted command into the list, with what it has more than others."""
        self.given.append(Given(word, raw, instant, self.mode_after(word, hit), **more))

    # -- breakpoints

    def latest(self, point: Point):
        """The latest BREAK or UNBREAK of a point, or None."""
        return next((one for one in reversed(self.given) if one.point == point), None)

    def is_set(self, point: Point) -> bool:
        """Whether a breakpoint is set there."""
        latest = self.latest(point)
        return latest is not None and latest.word == "BREAK"

    def points(self) -> list:
        """All points at which a breakpoint is set, each once."""
        named = {one.point: None for one in self.given if one.point}
        return [point for point in named if self.is_set(point)]

    def find_point(self, program, kind: str, said) -> Point:
        """The point of a chart that was said by name, a transition by number or name; refuses what isn't there."""
        if program is None:
            raise Refusal("32 UnknownProgram")
        chart = self.plant.instances[program].chart
        names = {
            "STEP": chart.steps,
            "ACTION": [action.name for action in chart.actions] + chart.declared,
            "TRANSITION": [transition.name or "" for transition in chart.transitions],
        }[kind]
        number = said - 1 if isinstance(said, int) else place_of(names, said)
        if number is None or number >= len(names):
            raise Refusal("37 NoSuchPoint")
        return Point(program, kind, str(number + 1) if kind == "TRANSITION" else names[number])

    def happened(self, life, point: Point) -> bool:
        """Whether the latest scan activated the step, cleared the transition or executed the action."""
        scan, chart = life.scans(), life.chart
        if point.kind == "STEP":
            return point.name in [chart.steps[step] for step in life.activated(scan)]
        if point.kind == "TRANSITION":
            return int(point.name) - 1 in life.row(scan).cleared
        return point.name in [chart.actions[number].name for number in executed(life, scan)]

    def holds(self, instance, condition) -> bool:
        """Whether a condition is TRUE over the variables now and the instance's steps at its latest scan; a fault is not TRUE."""
        if condition is None:
            return True
        life = instance.life
        scan = life.scans()
        view = View(lambda place: self.history.read(instance.plant.variable(place)),
                    lambda step: life.active(scan, step), lambda step: life.elapsed(scan, step))
        try:
            return value(condition, view)
        except Fault:
            return False

    def hits(self, done: list) -> bool:
        """Whether an instance that ran did what a breakpoint of its waits for."""
        ran = [instance for instance, how in done if how == "ran"]
        for point in self.points():
            instance = self.history.instances[point.program]
            if instance in ran and self.happened(instance.life, point) and self.holds(instance, self.latest(point).condition):
                return True
        return False

    # -- commands

    def event(self, word: str, raw: int, event, *what):
        """A command that the core is told as it is."""
        instant = self.enter(word, raw)
        event(*what, instant)
        self.keep(word, raw, instant)

    def scan(self, task, raw: int) -> tuple:
        """A scan of a task: what each of its instances did, and whether a breakpoint was hit."""
        instant = self.enter("SCAN", raw)
        done = self.history.scan(task, instant)
        hit = self.hits(done)
        self.keep("SCAN", raw, instant, hit=hit)
        return done, hit

    def single(self, task, delta: int, raw: int) -> list:
        """A scan of a task that needn't be due, behind a time of its own; it never hits."""
        instant = self.enter("SINGLE", raw, delta)
        done = self.history.forced_scan(task, instant)
        self.keep("SINGLE", raw, instant, delta=delta)
        return done

    def read(self, variable, raw: int):
        """What a variable reads."""
        instant = self.enter("READ", raw)
        self.history.watch_variable(variable)
        self.keep("READ", raw, instant)
        return self.history.read(variable)

    def set_point(self, program, kind: str, said, condition, raw: int) -> Point:
        """A breakpoint, which takes the place of one at the same point."""
        instant = self.enter("BREAK", raw)
        point = self.find_point(program, kind, said)
        if not self.is_set(point) and len(self.points()) >= MOST_POINTS:
            raise Refusal("38 TooManyPoints")
        self.keep("BREAK", raw, instant, point=point, condition=condition)
        return point

    def unset_point(self, program, kind: str, said, raw: int) -> Point:
        """The end of a breakpoint."""
        instant = self.enter("UNBREAK", raw)
        point = self.find_point(program, kind, said)
        if not self.is_set(point):
            raise Refusal("37 NoSuchPoint")
        self.keep("UNBREAK", raw, instant, point=point)
        return point

    def plain(self, word: str, raw: int):
        """STOP, GO, END or EPOCH; an epoch changes no answer."""
        self.keep(word, raw, self.enter(word, raw))
