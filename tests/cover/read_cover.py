"""What scripts reach together, by the second reading of the rules: each scan of an instance is watched as the reading does it."""

import sys
from collections import Counter
from pathlib import Path

sys.path.insert(0, str(Path(__file__).resolve().parent.parent / "reading"))

import grammar  # noqa: E402
import history  # noqa: E402
import meaning  # noqa: E402
import loading  # noqa: E402
from meaning import Fault, View, value  # noqa: E402
from playing import Replay  # noqa: E402
from scripts import commands  # noqa: E402

FAULTS = ("DivZero", "Range", "TwoTimed", "SdWhileSl", "SlWhileSd")
NEVER, ENABLED, TRUE, CLEARED = range(4)


class Marks:
    """What of an instance was reached, or of all instances of a program type."""

    def __init__(self):
        self.scans, self.faults = 0, Counter()
        self.steps, self.actions, self.branches = set(), set(), set()
        self.transitions, self.takers = {}, {}

    def reach(self, transition: int, how: int):
        """A transition was reached so far."""
        self.transitions[transition] = max(how, self.transitions.get(transition, NEVER))

    def join(self, other):
        """What the other was reached was reached too."""
        self.scans += other.scans
        self.faults.update(other.faults)
        self.steps |= other.steps
        self.actions |= other.actions
        self.branches |= other.branches
        for transition, how in other.transitions.items():
            self.reach(transition, how)
        for transition, taker in other.takers.items():
            self.takers.setdefault(transition, taker)


class Watched(history.ProgramScan):
    """A scan of an instance that is watched."""

    marks = {}
    taken = []

    def own(self) -> Marks:
        """The marks of the instance."""
        return self.marks.setdefault(self.plant.name, Marks())

    def cleared(self) -> list:
        """The numbers of the cleared transitions; each that is enabled is marked, and whether its condition is TRUE."""
        life, scan = self.life, self.life.scans()
        view = View(self.read, lambda step: life.active(scan, step), lambda step: life.elapsed_at(step, self.instant))
        self.true = []
        for number, transition in enumerate(self.chart.transitions):
            if all(life.active(scan, step) for step in transition.before):
                self.own().reach(number, ENABLED)
                if self.holds(transition, view):
                    self.own().reach(number, TRUE)
                    self.true.append(number)
        return super().cleared()

    def holds(self, transition, view) -> bool:
        """Whether a condition is TRUE; one that ends with a fault isn't."""
        try:
            return bool(value(transition.condition, view))
        except Fault:
            return False

    def run(self) -> dict:
        """The scan; what it did is marked where it ends without a fault."""
        Watched.taken = []
        written = super().run()
        marks, scan = self.own(), self.life.scans()
        marks.scans += 1
        marks.steps |= set(self.life.steps(scan))
        cleared = self.life.row(scan).cleared
        transitions = self.chart.transitions
        for number in self.true:
            if number in cleared:
                marks.reach(number, CLEARED)
            elif number not in marks.takers:
                rivals = [other for other in cleared if transitions[other].before & transitions[number].before]
                if rivals:
                    marks.takers[number] = rivals[0]
        marks.actions |= {one.name for number, one in enumerate(self.chart.actions) if self.life.executed(scan, number)}
        marks.branches |= set(Watched.taken)
        return written


def chosen(choice, view: View) -> list:
    """The statements that an IF executes; which branch it is is noted."""
    for number, (condition, statements) in enumerate(choice.branches):
        if value(condition, view):
            Watched.taken.append((id(choice), number))
            return statements
    Watched.taken.append((id(choice), len(choice.branches)))
    return choice.otherwise


history.ProgramScan = Watched
meaning.chosen = chosen


class Choices:
    """The IFs of a body in text order: of each the words of its branches, by what the text and the typed tree say."""

    def __init__(self):
        self.count, self.labels = 0, []

    def walk(self, read: list, typed):
        """Takes in the IFs among these statements; there are no typed ones of an action that no step has."""
        for number, one in enumerate(read):
            if isinstance(one, grammar.If):
                self.choose(one, typed[number] if typed is not None else None)

    def choose(self, one: grammar.If, typed):
        """Takes in one IF: its own branches, and then those of the IFs inside it."""
        self.count += 1
        number = self.count
        for place in range(len(one.branches)):
            self.labels.append(((id(typed), place), f"IF {number} " + (f"ELSIF {place}" if place else "THEN")))
        last = "no ELSE" if one.otherwise is None else "ELSE"
        self.labels.append(((id(typed), len(one.branches)), f"IF {number} {last}"))
        for place, (_, inner) in enumerate(one.branches):
            self.walk(inner, typed.branches[place][1] if typed else None)
        self.walk(one.otherwise or [], typed.otherwise if typed else None)


class Elements:
    """What of an instance, or of a program type, may be reached."""

    def __init__(self, program: grammar.ProgramType, chart):
        self.name, self.steps = program.name, list(chart.steps)
        self.transitions = chart.transitions
        named = [one.name for one in chart.actions if one.place]
        self.actions = named + [action.name for action in program.actions]
        typed = {one.name: one.statements for one in chart.actions if not one.place}
        self.branches = []
        for action in program.actions:
            choices = Choices()
            choices.walk(action.statements, typed.get(action.name))
            self.branches += [(key, action.name, label) for key, label in choices.labels]

    def shares(self, marks: Marks) -> list:
        """How many of how many."""
        cleared = sum(how == CLEARED for how in marks.transitions.values())
        return [("steps", len(marks.steps), len(self.steps)), ("transitions", cleared, len(self.transitions)),
                ("actions", len(marks.actions), len(self.actions)),
                ("branches", sum(key in marks.branches for key, _, _ in self.branches), len(self.branches))]

    def missed(self, marks: Marks) -> list:
        """A line for each that was not reached."""
        lines = [f"  step {name} never active" for number, name in enumerate(self.steps) if number not in marks.steps]
        for number, transition in enumerate(self.transitions):
            how = marks.transitions.get(number, NEVER)
            words = ["never enabled", "never TRUE", "never cleared", ""][how]
            if how == TRUE and number in marks.takers:
                words += f", token taken by {marks.takers[number] + 1}"
            if how != CLEARED:
                name = f" {transition.name}" if transition.name else ""
                lines.append(f"  transition {number + 1}{name} {words}")
        lines += [f"  action {name} never executed" for name in self.actions if name not in marks.actions]
        lines += [f"  branch {action} {label} never taken" for key, action, label in self.branches if key not in marks.branches]
        return lines


def share_line(word: str, reached: int, total: int) -> str:
    """A share, with its percents rounded down."""
    return f"{word} {reached} of {total} {100 if total == 0 else 100 * reached // total}%"


def block(head: str, elements: Elements, marks: Marks) -> list:
    """The lines of an instance, or of a program type."""
    faults = ",".join(f"{kind} {marks.faults[kind]}" for kind in FAULTS if marks.faults[kind]) or "-"
    shares = [f"  {share_line(*share)}" for share in elements.shares(marks) if share[2]]
    return [f"{head} scans {marks.scans} faults {faults}", *shares, *elements.missed(marks)]


def play(plant, script: bytes, marks: dict):
    """Plays a script from the opening on, and marks what it reaches."""
    Watched.marks = marks
    replay = Replay(plant)
    for one in commands(script, plant):
        for line in replay.play(one)[1:]:
            words = line.split()
            if line.startswith("  ") and words[1] == "fault":
                marks[words[0]].faults[words[2]] += 1


def loaded(source) -> tuple:
    """The plant of a text, and the chart of each of its program types."""
    charts, load_charts = [], loading.load_charts

    def kept(*what):
        charts.extend(load_charts(*what))
        return charts
    loading.load_charts = kept
    try:
        return loading.load(source), charts
    finally:
        loading.load_charts = load_charts


def report(chart: bytes, scripts: list) -> str:
    """The whole report."""
    source = grammar.read(chart)
    plant, charts = loaded(source)
    marks = {instance.name: Marks() for instance in plant.instances}
    for script in scripts:
        play(plant, script, marks)
    elements = [Elements(*both) for both in zip(source.types, charts)]
    names = [program.name.upper() for program in source.types]
    lines, reached, total = [], 0, 0
    for instance, declared in zip(plant.instances, source.instances):
        own = elements[names.index(declared.type.upper())]
        shares = own.shares(marks[instance.name])
        reached, total = reached + sum(it[1] for it in shares), total + sum(it[2] for it in shares)
        lines += block(f"program {instance.name} {own.name}", own, marks[instance.name])
    for own in elements:
        members = [one.name for one in source.instances if one.type.upper() == own.name.upper()]
        if len(members) != 1:
            joined = Marks()
            for name in members:
                joined.join(marks[name])
            lines += block(f"type {own.name} instances {len(members)}", own, joined)
    return "\n".join([share_line("total", reached, total), *lines]) + "\n"
