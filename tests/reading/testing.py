"""Files of tests: their lines, and which cases pass. The format is this project's own.

A case is run over the reading's debugger. What is told of a failure is its line and its instant, and the line at which a condition that is
watched didn't hold; not what was read there.
"""

import re
from typing import NamedTuple, Optional

import loading
from conditions import read_condition, typed_condition
from debugging import Debugger
from history import Refusal
from lexer import time_text, whole
from listing import value_text
from loading import place_of
from meaning import Fault, View, value
from playing import Replay
from scripts import all_words, break_command, duration_word, first_word, lines_of, needed, other_command

MOST_BYTES = 67_108_864
KINDS = ("DivZero", "Range", "TwoTimed", "SdWhileSl", "SlWhileSd")
WORD = re.compile(r"[A-Za-z0-9_]+")
JOINT = re.compile(r"(?i)[ \t](AND|OR)[ \t]+(?=IN(?:[ \t]|\Z))")
MOST_JOINTS = 255
DETAIL = re.compile(r"(?m)^(  -?T#[^ :,]*(?:, line [0-9]+)?): .*$")


def without_details(told: str) -> str:
    """What is told of a file of tests without what was read."""
    return DETAIL.sub(r"\1", told)


class FaultyLine(Exception):
    """The number of the first line that says nothing of a test."""


class Line(NamedTuple):
    """A line that does something: its number, its text, its instant (None, or whether it is relative, and microseconds) and its deed."""
    number: int
    text: str
    instant: Optional[tuple]
    deed: tuple


class Wrong(Exception):
    """A line of a case isn't right, at a line; a watched one has the line that watches it."""


def instant_of(word: str):
    """Whether a word is an instant that is relative, and its microseconds; None where it is none."""
    relative = word.startswith("+")
    micros = duration_word(word[1:] if relative else word)
    return None if micros is None else (relative, micros)


def reads_globals(tree) -> bool:
    """Whether a typed expression reads global variables alone."""
    if isinstance(tree, loading.Literal):
        return True
    if isinstance(tree, loading.Variable):
        return not tree.place.own
    if isinstance(tree, (loading.StepFlag, loading.StepTime, loading.ActionQ)):
        return False
    if isinstance(tree, (loading.Not, loading.Minus)):
        return reads_globals(tree.operand)
    return reads_globals(tree.left) and reads_globals(tree.right)


class Numbers:
    """The commands of a ramp."""

    def __init__(self, reader, name: str, first: int, step: int):
        self.reader, self.name, self.first, self.step = reader, name, first, step

    def __getitem__(self, place: int):
        return self.reader.command(f"INPUT {self.name} {self.first + self.step * place}")


class Reader:
    """Reads the lines of a file of tests over a plant."""

    def __init__(self, plant):
        self.plant, self.names = plant, {}

    def program(self, name: str) -> int:
        """The number of a program instance."""
        return needed(place_of([one.name for one in self.plant.instances], name))

    def placed(self, text: str) -> tuple:
        """The program instance of which a text says something, and what."""
        word, rest = first_word(text)
        if word.upper() == "IN":
            name, rest = first_word(rest)
            return self.program(name), rest
        if len(self.plant.instances) != 1:
            raise ValueError(text)
        return 0, text

    def in_program(self, program: int, text: str) -> tuple:
        """A program instance, and an expression of it."""
        return program, typed_condition(read_condition(text), self.plant.instances[program].chart.scope)

    def part(self, text: str) -> tuple:
        """A part of a condition: a program instance, and an expression of it; of global variables alone where none is named."""
        if first_word(text)[0].upper() == "IN" or len(self.plant.instances) == 1:
            return self.in_program(*self.placed(text))
        for program in range(len(self.plant.instances)):
            try:
                part = self.in_program(program, text)
            except ValueError:
                continue
            if reads_globals(part[1]):
                return part
        raise ValueError(text)

    def condition(self, text: str) -> list:
        """A condition: alternatives, each a list of parts that all have to be TRUE."""
        pieces = JOINT.split(text, maxsplit=MOST_JOINTS)
        found = [[self.part(pieces[0])]]
        for joint, piece in zip(pieces[1::2], pieces[2::2]):
            if joint.upper() == "OR":
                found.append([])
            found[-1].append(self.part(piece))
        return found

    def parted(self, text: str, keyword: str):
        """What stands before the first word that is a keyword behind a blank, and what behind it; None where there is none."""
        found = re.search(rf"(?i)[ \t]{keyword}(?=[ \t]|\Z)", text)
        return (text[:found.start()], text[found.end():]) if found else None

    def one_duration(self, text: str) -> int:
        """The duration that a text is."""
        return needed(duration_word(all_words(text, 1)[0]))

    def active(self, program: int, text: str) -> tuple:
        """Steps, with commas between."""
        steps = self.plant.instances[program].chart.steps
        return "ACTIVE", program, {needed(place_of(steps, all_words(part, 1)[0])) for part in text.split(",")}

    def expected(self, text: str) -> tuple:
        """What stands behind EXPECT."""
        word, rest = first_word(text)
        if word.upper() == "REFUSED":
            number, rest = first_word(rest)
            return "REFUSED", self.number(number, 255), self.command(rest)
        if word.upper() == "FAULT":
            kind, name = all_words(rest, 2)
            return "FAULT", KINDS[needed(place_of(list(KINDS), kind))], self.program(name)
        if word.upper() == "OVERRUNS":
            number, name = all_words(rest, 2)
            return "OVERRUNS", self.number(number, 2 ** 31 - 1), needed(place_of([one.name for one in self.plant.tasks], name))
        if word.upper() == "IN" or len(self.plant.instances) == 1:
            program, said = self.placed(text)
            word, rest = first_word(said)
            if word.upper() == "ACTIVE":
                return self.active(program, rest)
        return "EXPECT", self.condition(text)

    def number(self, word: str, most: int) -> int:
        """A number that isn't too great."""
        if not re.fullmatch("[0-9]+", word) or whole(word) > most:
            raise ValueError(word)
        return whole(word)

    def watched(self, wanted: bool, text: str) -> tuple:
        """What stands behind ALWAYS and NEVER."""
        parts = self.parted(text, "UNTIL")
        if parts:
            return "WATCH", wanted, self.condition(parts[0]), self.condition(parts[1]), None
        parts = self.parted(text, "FOR")
        if parts:
            return "WATCH", wanted, self.condition(parts[0]), None, self.one_duration(parts[1])
        return "WATCH", wanted, self.condition(text), None, None

    def response(self, text: str) -> tuple:
        """What stands behind WITHIN."""
        front, behind = needed(self.parted(text, "AFTER"))
        cause, effect = needed(self.parted(behind, "EXPECT"))
        return "RESPONSE", self.one_duration(front), self.condition(cause), self.condition(effect)

    def positive(self, word: str) -> int:
        """A duration above 0."""
        micros = needed(duration_word(word))
        if micros <= 0:
            raise ValueError(word)
        return micros

    def every(self, text: str) -> tuple:
        """What stands behind EVERY: a list of commands that come in turn."""
        word, rest = first_word(text)
        period, words = self.positive(word), rest.split()
        if len(words) == 3 and words[0].upper() == "INPUT" and words[2].upper() == "TOGGLE":
            both = [self.command(f"INPUT {words[1]} {value}") for value in ("TRUE", "FALSE")]
            return "STIR", (True, period), period, None, both
        return "STIR", (True, period), period, None, [self.command(rest)]

    def at(self, text: str) -> tuple:
        """What stands behind AT."""
        word, rest = first_word(text)
        return "STIR", needed(instant_of(word)), 0, 1, [self.command(rest)]

    def ramp(self, text: str) -> tuple:
        """What stands behind RAMP: a command for each number."""
        name, first, last, word = all_words(text, 4)
        place = needed(place_of([one.name for one in self.plant.variables], name))
        most = {"INT": 2 ** 15, "DINT": 2 ** 31}[self.plant.variables[place].type]
        for number in (first, last):
            if not re.fullmatch("-?[0-9]+", number) or not -most <= int(number) < most:
                raise ValueError(number)
        first, last = int(first), int(last)
        period = self.positive(word) // max(abs(last - first), 1)
        if not period:
            raise ValueError(word)
        step = 1 if last >= first else -1
        return "STIR", None, period, abs(last - first) + 1, Numbers(self, name, first, step)

    def command(self, text: str):
        """A command of a script, without a condition behind WHEN."""
        word, rest = first_word(text)
        if word.upper() == "BREAK":
            if len(text.split()) != 4:
                raise ValueError(text)
            return break_command(0, rest, self.plant)
        return other_command(0, word.upper(), rest)

    def deed(self, text: str) -> tuple:
        """What stands behind an instant, or without one."""
        word, rest = first_word(text)
        word = word.upper()
        if word == "RUN":
            return "RUN", None, needed(instant_of(all_words(rest, 1)[0]))
        if word == "UNTIL":
            front, behind = needed(self.parted(rest, "WITHIN"))
            return "RUN", self.condition(front), (True, self.one_duration(behind))
        if word == "EXPECT":
            return self.expected(rest)
        if word in ("ALWAYS", "NEVER"):
            return self.watched(word == "ALWAYS", rest)
        if word == "WITHIN":
            return self.response(rest)
        if word in ("EVERY", "AT", "RAMP"):
            return {"EVERY": self.every, "AT": self.at, "RAMP": self.ramp}[word](rest)
        if word == "BREAK":
            return "GIVE", break_command(0, rest, self.plant)
        return "GIVE", other_command(0, word, rest)

    def line(self, number: int, text: str):
        """A line that does something, or None."""
        if not text.strip(" \t") or text.lstrip(" \t").startswith(";"):
            return None
        word, rest = first_word(text)
        if word.upper() == "TEST":
            return Line(number, text, None, ("TEST", needed(rest.lstrip(" \t") or None)))
        if word.upper() == "LET":
            name, sign, meant = all_words(rest, 3)
            if sign != "=":
                raise ValueError(sign)
            self.names[name.upper()] = meant
            return None
        said = WORD.sub(lambda found: self.names.get(found[0].upper(), found[0]), text)
        word, rest = first_word(said)
        instant = instant_of(word)
        return Line(number, text, instant, self.deed(said if instant is None else rest))

    def lines(self, text: bytes) -> list:
        """All lines that do something; raises FaultyLine."""
        if len(text) > MOST_BYTES:
            raise FaultyLine(0)
        found = []
        for number, line in enumerate(lines_of(text.decode("latin-1")), 1):
            try:
                found.append(self.line(number, line))
            except (ValueError, KeyError):
                raise FaultyLine(number) from None
        return [one for one in found if one]


def placed(line: Line) -> str:
    """The number, the column and the text of a line."""
    text = line.text.lstrip(" \t")
    return f"{line.number}:{len(line.text) - len(text) + 1}: {text}"


class Case:
    """A case that is run."""

    def __init__(self, plant, lines: list):
        self.plant, self.lines, self.clock, self.watches, self.stimuli = plant, lines, 0, [], []
        self.replay = Replay(plant)
        self.debugger: Debugger = self.replay.debugger
        self.told = [0] * len(plant.tasks)
        self.before, self.changes = self.seen(), []

    def seen(self) -> dict:
        """How steps and the global variables that aren't inputs stand, by what they are told as."""
        found, several = {}, len(self.plant.instances) > 1
        for number, instance in enumerate(self.debugger.history.instances):
            active = set(instance.life.steps(instance.life.scans()))
            for step, name in enumerate(self.plant.instances[number].chart.steps):
                found[f"{self.plant.instances[number].name}.{name}.X" if several else f"{name}.X"] = "TRUE" if step in active else "FALSE"
        for number, one in enumerate(self.plant.variables[:self.plant.globals]):
            if not (one.location and "I" in str(one.location[0])):
                found[one.name] = value_text(one.type, self.debugger.history.read(number))
        return found

    def note(self, raw: int):
        """A command was accepted at an instant: what has changed is kept, ten lines at the most."""
        now = self.seen()
        changed = [f"{name} {told}" for name, told in now.items() if self.before[name] != told]
        self.before = now
        if changed:
            self.changes = (self.changes + [f"changed {time_text(raw)}: {', '.join(changed)}"])[-10:]

    def value(self, condition: list):
        """What a condition evaluates to; None where that of a part ends with a fault."""
        values = [[self.part_value(*part) for part in parts] for parts in condition]
        if any(one not in (True, False) for parts in values for one in parts):
            return None
        return any(all(parts) for parts in values)

    def part_value(self, program: int, tree):
        """What an expression of a program instance evaluates to; None where that ends with a fault."""
        instance = self.debugger.history.instances[program]
        life = instance.life
        scan = life.scans()
        view = View(lambda place: self.debugger.history.read(instance.plant.variable(place)),
                    lambda step: life.active(scan, step), lambda step: life.elapsed(scan, step))
        try:
            return value(tree, view)
        except Fault:
            return None

    def later(self, instant: tuple) -> int:
        """Where the clock stands at an instant."""
        return self.clock + instant[1] if instant[0] else instant[1]

    def look(self, line: Line):
        """Each condition that is watched is as it has to be, up to its end."""
        for watch in self.watches:
            if watch["line"].deed[0] == "RESPONSE":
                self.look_for(watch, line)
                continue
            _, wanted, condition, until, duration = watch["line"].deed
            ended = (until is not None and self.value(until) is True) or (duration is not None and self.clock > watch["from"] + duration)
            watch["over"] = watch["over"] or ended
            if not watch["over"] and self.value(condition) is not wanted:
                raise Wrong(watch["line"], line.number)

    def look_for(self, watch: dict, line: Line):
        """The effect of a response isn't late. What became TRUE and wasn't answered stands in a list."""
        _, duration, cause, effect = watch["line"].deed
        if any(self.clock > one + duration for one in watch["open"]):
            raise Wrong(watch["line"], line.number)
        now = self.value(cause) is True
        if now and not watch["was"]:
            watch["open"].append(self.clock)
        watch["was"] = now
        if self.value(effect) is True:
            watch["open"].clear()

    def stir(self, limit: int):
        """The stimulus that comes next, and when it is given: its place, and an instant; None where none comes up to a limit."""
        due = [(one["next"], place) for place, one in enumerate(self.stimuli) if one["left"] is None or one["given"] < one["left"]]
        if not due:
            return None
        instant = max(min(due)[0], self.clock)
        return (instant, min(due)[1]) if instant <= limit else None

    def give_stimulus(self, line: Line, behind: list, instant: int, place: int):
        """The command of a stimulus."""
        one = self.stimuli[place]
        command = one["commands"][one["given"] % len(one["commands"]) if isinstance(one["commands"], list) else one["given"]]
        one["given"] += 1
        one["next"] += one["period"]
        self.clock = instant
        self.give(line, behind, command, one["line"])

    def expects(self, behind: list, kind: str, number: int) -> bool:
        """Whether a line behind expects a fault of a program, or overruns of a task."""
        return any(one.deed[0] == kind and one.deed[2] == number for one in behind)

    def scanned(self, line: Line, behind: list, task: int, done: list):
        """Faults and overruns of a scan are expected."""
        self.note(self.clock)
        for instance, how in done:
            if how == "fault" and not self.expects(behind, "FAULT", self.debugger.history.instances.index(instance)):
                raise Wrong(line, None)
        overruns, told = self.debugger.history.overruns(task), self.told[task]
        self.told[task] = overruns
        if overruns != told and not self.expects(behind, "OVERRUNS", task):
            raise Wrong(line, None)

    def give(self, line: Line, behind: list, command, stirring: Line = None):
        """A command at the clock's instant, of a stimulus's line or of the line itself; it has to be accepted."""
        refused = Wrong(line, None) if stirring is None else Wrong(stirring, line.number)
        if command.word in ("SCAN", "SINGLE"):
            task = self.replay.task(command.name)
            try:
                done = self.debugger.scan(task, self.clock)[0] if command.word == "SCAN" else self.debugger.single(task, command.value, self.clock)
            except Refusal:
                raise refused from None
            self.scanned(line, behind, task, done)
        elif self.replay.play(command._replace(instant=self.clock))[0].startswith("refused"):
            raise refused
        else:
            self.note(self.clock)
        self.look(line)

    def refuse(self, line: Line, number: int, command):
        """A command that has to be refused for this reason."""
        told = self.replay.play(command._replace(instant=self.clock))[0]
        if not told.startswith("refused"):
            self.note(self.clock)
        if not told.startswith(f"refused {number} "):
            raise Wrong(line, None)
        self.look(line)

    def turn(self, raw: int):
        """The task whose turn it is and what its scan did; None and the earliest next release where it is nobody's."""
        releases = []
        for task in range(len(self.plant.tasks)):
            try:
                return task, self.debugger.scan(task, raw)[0]
            except Refusal as refusal:
                if refusal.args[0] == "29 NotDue":
                    releases.append(refusal.args[1])
                elif refusal.args[0] != "30 Yield":
                    raise
        return None, min((one for one in releases if one is not None), default=None)

    def next_scan(self, limit: int):
        """The task of the scan that comes next up to a limit, and what it did; None where none comes."""
        if self.clock > limit:
            return None
        task, done = self.turn(self.clock)
        if task is not None:
            return task, done
        if done is None:
            return None
        last = self.debugger.given[-1] if self.debugger.given else None
        raw = done + (last.raw - last.instant if last else 0)
        if raw > limit:
            return None
        self.clock = raw
        task, done = self.turn(raw)
        if task is None:
            raise Refusal("29 NotDue")
        return task, done

    def run(self, line: Line, behind: list, until, limit: int):
        """Scans up to a limit, or until a condition is TRUE."""
        while until is None or self.value(until) is not True:
            stimulus = self.stir(limit)
            try:
                scan = self.next_scan(limit if stimulus is None else stimulus[0] - 1)
            except Refusal:
                raise Wrong(line, None) from None
            if scan is None and stimulus is not None:
                self.give_stimulus(line, behind, *stimulus)
                continue
            if scan is None:
                if until is not None:
                    raise Wrong(line, None)
                self.clock = max(self.clock, limit)
                return
            self.scanned(line, behind, *scan)
            self.look(line)

    def holds(self, deed: tuple) -> bool:
        """Whether holds what a line says of now."""
        if deed[0] == "EXPECT":
            return self.value(deed[1]) is True
        instances = self.debugger.history.instances
        if deed[0] == "ACTIVE":
            life = instances[deed[1]].life
            return set(life.steps(life.scans())) == deed[2]
        if deed[0] == "FAULT":
            return instances[deed[2]].fault == deed[1]
        return deed[0] != "OVERRUNS" or self.debugger.history.overruns(deed[2]) == deed[1]

    def obey(self, line: Line, behind: list):
        """A line, behind which these stand; raises Wrong."""
        if line.instant is not None:
            self.clock = self.later(line.instant)
        deed = line.deed
        if deed[0] == "GIVE":
            self.give(line, behind, deed[1])
        elif deed[0] == "REFUSED":
            self.refuse(line, deed[1], deed[2])
        elif deed[0] == "RUN":
            self.run(line, behind, deed[1], self.later(deed[2]))
        elif deed[0] == "STIR":
            first = self.clock if deed[1] is None else self.later(deed[1])
            self.stimuli.append({"next": first, "period": deed[2], "left": deed[3], "commands": deed[4], "given": 0, "line": line})
        elif deed[0] in ("WATCH", "RESPONSE"):
            others, self.watches = self.watches, [{"line": line, "from": self.clock, "over": False, "was": False, "open": []}]
            self.look(line)
            self.watches = others + self.watches
        elif not self.holds(deed):
            raise Wrong(line, None)

    def result(self) -> list:
        """What is told of the case behind its name: nothing where it passes."""
        for place, line in enumerate(self.lines):
            try:
                self.obey(line, self.lines[place + 1:])
            except Wrong as wrong:
                at, number = wrong.args
                behind = "" if number is None else f", line {number}"
                return [placed(at), time_text(self.clock) + behind] + self.changes
        for watch in self.watches:
            try:
                self.look_at_end(watch)
            except Wrong as wrong:
                line = wrong.args[0]
                return [placed(line), f"{time_text(self.clock)}, line {line.number}"] + self.changes
        return []

    def look_at_end(self, watch: dict):
        """A response is late where the case ends."""
        if watch["line"].deed[0] == "RESPONSE" and any(self.clock > one + watch["line"].deed[1] for one in watch["open"]):
            raise Wrong(watch["line"], None)


def tested(plant, text: bytes, file: str) -> list:
    """The lines that are told of a file of tests, without what was read; raises FaultyLine."""
    lines, told = Reader(plant).lines(text), []
    begins = [place for place, line in enumerate(lines) if line.deed[0] == "TEST"]
    front = lines[:begins[0]] if begins else lines
    cases = [(lines[begin].deed[1], lines[begin + 1:end]) for begin, end in zip(begins, begins[1:] + [len(lines)])] or [(file, [])]
    failed = 0
    for name, own in cases:
        result = Case(plant, front + own).result()
        failed += bool(result)
        told += [f"FAILED {name}", f"  {file}:{result[0]}"] + [f"  {one}" for one in result[1:]] if result else [f"ok {name}"]
    return told + [f"{len(cases) - failed} passed, {failed} failed"]
