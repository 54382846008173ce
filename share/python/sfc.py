"""A chart that runs, from Python, by libsfc.so (include/sfc.h).

    from sfc import Plc, ms

    with Plc.of("pump.chart") as plc:
        plc["Start"] = True
        plc.advance(ms(200))
        assert plc["Pump"] and plc.programs["Pump1"].steps["Pumping"].active

Instants and durations are microseconds, or a timedelta. The clock of a Plc begins at 0 and goes on by `advance`, `until` and each command
that has an instant; a command without one happens at that clock. BOOL is a bool, INT and DINT are an int, TIME is a timedelta.
"""

from __future__ import annotations

import ctypes as c
import os
import re
import weakref
from datetime import timedelta
from difflib import get_close_matches
from typing import Any, Callable, Iterator, NamedTuple, Optional, Union

NO_CONDITION = 65535
KINDS = {"step": 0, "transition": 1, "action": 2, "variable": 3, "task": 4, "program": 5}
MODES = ["running", "halted", "ended"]
TYPES = ["BOOL", "INT", "DINT", "TIME"]
AREAS = [None, "input", "output", "memory"]
SCAN_FAULTS = [None, "DivZero", "Range", "TwoTimed", "SdWhileSl", "SlWhileSd"]
PLACES = [None, "condition", "control", "body"]
LIMITS = [None, "Steps", "Transitions", "Associations", "Variables", "Instances", "Tasks"]
RANGES = [(0, 1), (-(2**15), 2**15 - 1), (-(2**31), 2**31 - 1), (-(2**62), 2**62)]
REACHED, HIT, FAULT, GOES_ON = range(4)

Time = Union[int, timedelta]
Value = Union[bool, int, timedelta]
MICROSECOND = timedelta(microseconds=1)


def ms(count: float) -> timedelta:
    """So many milliseconds."""
    return timedelta(milliseconds=count)


def micros(time: Time) -> int:
    """A duration or an instant as microseconds."""
    return time // MICROSECOND if isinstance(time, timedelta) else int(time)


def time_text(time: Time) -> str:
    """The TIME text of a duration or an instant, as T#1s_500ms."""
    left = abs(micros(time))
    parts = []
    for unit, size in (("d", 86_400_000_000), ("h", 3_600_000_000), ("m", 60_000_000), ("s", 1_000_000)):
        if left >= size:
            parts.append(f"{left // size}{unit}")
            left %= size
    if left:
        parts.append(f"{left // 1000}" + (f".{left % 1000:03d}".rstrip("0") if left % 1000 else "") + "ms")
    return "T#" + ("-" if micros(time) < 0 else "") + ("_".join(parts) or "0s")


def value_text(value: Value) -> str:
    """A value as a script has it."""
    if isinstance(value, bool):
        return "TRUE" if value else "FALSE"
    return time_text(value) if isinstance(value, timedelta) else str(int(value))


class Handle(c.Structure):
    _fields_ = [("at", c.c_void_p)]


class TextFault(c.Structure):
    _fields_ = [("line", c.c_uint32), ("limit", c.c_int32)]


class ChartFault(c.Structure):
    _fields_ = [("line", c.c_size_t), ("column", c.c_size_t), ("length", c.c_size_t), ("number", c.c_int32)]


class Reply(c.Structure):
    _fields_ = [(it, c.c_uint64) for it in ("ran", "faulted", "skipped", "overruns")]
    _fields_ += [("next", c.c_int64), ("value", c.c_int64), ("first", c.c_int32), ("hit", c.c_int32)]


class Status(c.Structure):
    _fields_ = [("instant", c.c_int64), ("accepted", c.c_uint64), ("mode", c.c_int32)]


class VariableState(c.Structure):
    _fields_ = [("value", c.c_int64), ("forced", c.c_int32)]


class About(c.Structure):
    _fields_ = [("var_type", c.c_int32), ("area", c.c_int32), ("program", c.c_int32)]


class NextScan(c.Structure):
    _fields_ = [("instant", c.c_int64), ("task", c.c_int32)]


class Advanced(c.Structure):
    _fields_ = [("scans", c.c_uint64), ("instant", c.c_int64), ("faulted", c.c_uint64), ("task", c.c_int32), ("end", c.c_int32)]


class TaskState(c.Structure):
    _fields_ = [("next", c.c_int64), ("overruns", c.c_uint64)]


class ProgramState(c.Structure):
    _fields_ = [("scans", c.c_uint64), ("fault", c.c_int32), ("place", c.c_int32), ("number", c.c_int32), ("statement", c.c_int32)]


class PointState(c.Structure):
    _fields_ = [("elapsed", c.c_int64), ("active", c.c_int32), ("happened", c.c_int32)]


class Refused(Exception):
    """A call was refused, and changed nothing: `code` by sfc.h, and the reply, where there is one. Each code of a command and of the
    library has a class of its own below."""

    def __init__(self, code: int, reply: Optional[Reply] = None, told: str = ""):
        super().__init__(f"{code} {type(self).__name__}" + (f": {told}" if told else ""))
        self.code, self.reply = code, reply


class ChartRefused(Refused):
    """The text is no chart: `code` by docs/FORMATS.md, the line and the column of what is at fault, how many bytes that has, what there is
    too much of, and the report of `sfcmon why`, which says what may be meant."""

    def __init__(self, fault: ChartFault, limit: Optional[str], report: str):
        super().__init__(fault.number, told=report.split("\n", 1)[0])
        self.line, self.column, self.length = fault.line, fault.column, fault.length
        self.limit, self.report = limit, report

    def __str__(self) -> str:
        return self.report.rstrip("\n")


class FaultPlace(NamedTuple):
    """Where the fault of a scan is. `kind` is "condition" of a transition, "control" of an action, in which two associations don't go
    together, or "body" of a declared action; then the name of that transition or action, empty of a transition without one, and its
    number, from 0; and in a body the statement, counted from 1. What stands in an IF is part of it."""

    kind: str
    name: str
    number: int
    statement: Optional[int] = None

    def __str__(self) -> str:
        if self.kind == "condition":
            return f"in the condition of transition {self.number + 1}" + (f" ({self.name})" if self.name else "")
        part = "the control" if self.statement is None else f"statement {self.statement}"
        return f"in {part} of action {self.name}"


class ScanFault(Exception):
    """The scan of a program ended with a fault: of each such program the kind and the place, by its name, and the instant."""

    def __init__(self, faults: dict[str, str], places: dict[str, FaultPlace], instant: int):
        told = ", ".join(f"{name} ended with {kind} {places[name]}" for name, kind in faults.items())
        super().__init__(f"{told} at {time_text(instant)}")
        self.faults, self.places, self.instant = faults, places, instant


class TimedOut(AssertionError):
    """What was waited for didn't come in time."""


def _named(*names: str) -> list[type[Refused]]:
    return [type(name, (Refused,), {"__doc__": "A refusal of this name."}) for name in names]


Closed, NoValue, NotFound, OutOfMemory, NoLine, Short, NoExpression = _LIBRARY = _named(
    "Closed", "NoValue", "NotFound", "OutOfMemory", "NoLine", "Short", "NoExpression")
(UnknownVar, ValueType, NotInput, NotForced, ClockBack, NotDue, Yield, UnknownTask, UnknownProgram, InstantRange, Stopped, NotRunning,
 NotStopped, NoSuchPoint, TooManyPoints, HistoryFull, Ended, AuditMismatch, NoSuchCondition) = _COMMANDS = _named(
    "UnknownVar", "ValueType", "NotInput", "NotForced", "ClockBack", "NotDue", "Yield", "UnknownTask", "UnknownProgram", "InstantRange",
    "Stopped", "NotRunning", "NotStopped", "NoSuchPoint", "TooManyPoints", "HistoryFull", "Ended", "AuditMismatch", "NoSuchCondition")
_CLASSES = {-1 - k: it for k, it in enumerate(_LIBRARY)} | {24 + k: it for k, it in enumerate(_COMMANDS)}
NO_EXPRESSION, SHORT, NO_LINE, UNKNOWN, NO_VALUE = -7, -6, -5, -3, -2


def _path() -> str:
    """Where the library is: by the variable SFC_LIBRARY, or else beside this file, or in the lib that this file is installed in."""
    here = os.path.dirname(os.path.abspath(__file__))
    places = [os.path.join(here, "libsfc.so"), os.path.join(here, "..", "..", "libsfc.so.1")]
    return os.environ.get("SFC_LIBRARY") or next((it for it in places if os.path.exists(it)), places[0])


def _load() -> Any:
    library = c.CDLL(_path())
    plc, text, out, t = c.POINTER(Handle), [c.c_char_p, c.c_size_t], [c.c_char_p, c.c_size_t, c.POINTER(c.c_size_t)], c.c_int64
    var, byte, reply = c.c_uint16, c.c_uint8, c.POINTER(Reply)
    kinds = {
        "open": [*text, plc], "open_with": [*text, *text, plc], "check": [*text, c.POINTER(TextFault)], "close": [plc],
        "why": [*text, c.POINTER(ChartFault), *out], "version": out,
        "variable": [plc, *text], "task": [plc, *text], "program": [plc, *text], "point": [plc, byte, byte, *text],
        "count": [plc, byte, byte], "name": [plc, byte, byte, var, *out], "about": [plc, var, c.POINTER(About)],
        "location": [plc, var, *out],
        "scan": [plc, byte, t, reply], "single": [plc, byte, t, t, reply], "input": [plc, var, t, t], "force": [plc, var, t, t],
        "release": [plc, var, t], "reset": [plc, byte, t], "read": [plc, var, t, reply], "break": [plc, byte, byte, var, var, t],
        "break_when": [plc, byte, byte, var, *text, t], "unbreak": [plc, byte, byte, var, t], "stop": [plc, t], "go": [plc, t],
        "end": [plc, t], "next": [plc, c.POINTER(NextScan)], "advance": [plc, t, c.POINTER(Advanced)], "save": [plc, var],
        "restore": [plc, var], "command": [plc, *text, *out], "image_text": [plc, *out], "explain": [byte, *out],
        "value": [plc, var, c.POINTER(t)], "forced": [plc, var], "image": [plc, c.POINTER(VariableState), c.c_size_t],
        "status": [plc, c.POINTER(Status)], "task_state": [plc, byte, c.POINTER(TaskState)],
        "program_state": [plc, byte, c.POINTER(ProgramState)], "point_state": [plc, byte, byte, var, c.POINTER(PointState)],
    }
    for name, types in kinds.items():
        getattr(library, f"sfc_{name}").argtypes = types
        getattr(library, f"sfc_{name}").restype = None if name == "close" else c.c_int32
    return library


_LIB = _load()


def _done(code: int, reply: Any = None, told: str = "") -> Any:
    if code:
        raise _CLASSES.get(code, Refused)(code, reply, told)
    return reply


def _text(call: Any, *given: Any) -> tuple[int, str]:
    """The code of a call that gives a text, and the text."""
    needed, room = c.c_size_t(), 4096
    while True:
        into = c.create_string_buffer(room)
        code = call(*given, into, room, needed)
        if code != SHORT:
            return code, into.raw[:needed.value].decode("utf-8", "replace")
        room = needed.value


def version() -> str:
    """The version of the library."""
    return _text(_LIB.sfc_version)[1]


def check(text: bytes) -> Optional[ChartRefused]:
    """The first fault of a text, as a ChartRefused; None where it is a chart."""
    fault, place = ChartFault(), TextFault()
    code, report = _text(_LIB.sfc_why, text, len(text), fault)
    _done(code)
    if not fault.number:
        return None
    _LIB.sfc_check(text, len(text), place)
    return ChartRefused(fault, LIMITS[place.limit], report)


def explain(number: int) -> str:
    """What a fault of a chart or a refusal of a command means."""
    code, text = _text(_LIB.sfc_explain, number)
    _done(code)
    return text


def fixture(path: str, script: bytes = b"") -> Any:
    """For pytest: with `plc = sfc.fixture("mixing.chart")` each test that has an argument `plc` gets that chart, newly opened."""
    def opened() -> Iterator[Plc]:
        with Plc.of(path, script) as plc:
            yield plc
    try:
        from pytest import fixture as make
    except ImportError:
        return opened
    return make(opened)


class Variable(NamedTuple):
    """What a variable is: its name and number, its type, whether it is an "input", an "output" or "memory" and where, as %IX0.0, and the
    program that declares it; None where it lies nowhere, and for a global one."""

    name: str
    number: int
    type: str
    area: Optional[str]
    location: Optional[str]
    program: Optional[str]

    def typed(self, number: int) -> Value:
        """The value that a number of the library stands for."""
        if self.type == "BOOL":
            return bool(number)
        return timedelta(microseconds=number) if self.type == "TIME" else number

    def number_of(self, value: Value) -> int:
        """The number of the library that stands for a value; ValueError where it is none of the type."""
        low, high = RANGES[TYPES.index(self.type)]
        is_time = isinstance(value, timedelta)
        number = micros(value) if is_time else int(value)
        if (is_time and self.type != "TIME") or not low <= number <= high:
            raise ValueError(f"{value_text(value)} is no value of {self.name}, which is of type {self.type}")
        return number


class Point:
    """A step, a transition or an action, as the latest scan of its program left it."""

    def __init__(self, plc: Plc, program: str, kind: str, name: Union[str, int]):
        self._plc, self.program, self.kind, self.name = plc, program, kind, name

    def _state(self) -> PointState:
        return self._plc.state(self.program, self.kind, self.name)

    @property
    def active(self) -> bool:
        """Whether the step is active, or the action's Q is TRUE."""
        return bool(self._state().active)

    @property
    def happened(self) -> bool:
        """Whether the latest scan activated the step, cleared the transition, or executed the action."""
        return bool(self._state().happened)

    @property
    def elapsed(self) -> timedelta:
        """A step's time."""
        return timedelta(microseconds=self._state().elapsed)

    def break_here(self, condition: Optional[str] = None, t: Optional[Time] = None) -> None:
        """Sets a breakpoint here, which waits for a condition, if one is given as a text."""
        self._plc.set_break(self.program, self.kind, self.name, t, condition)

    def unbreak(self, t: Optional[Time] = None) -> None:
        """Takes the breakpoint away."""
        self._plc.unbreak(self.program, self.kind, self.name, t)

    def __repr__(self) -> str:
        return f"<{self.kind} {self.name} of {self.program}{' active' if self.active else ''}>"


class Points:
    """The points of a kind of a program's chart, by name; transitions also by number, from 0."""

    def __init__(self, plc: Plc, program: str, kind: str):
        self._plc, self._program, self._kind = plc, program, kind

    def __getitem__(self, name: Union[str, int]) -> Point:
        self._plc.point(self._program, self._kind, name)
        return Point(self._plc, self._program, self._kind, name)

    def __iter__(self) -> Iterator[str]:
        return iter(self._plc.names(self._kind, self._program))

    def __len__(self) -> int:
        return len(self._plc.names(self._kind, self._program))


class Program:
    """A program of the resource."""

    def __init__(self, plc: Plc, name: str):
        self._plc, self.name = plc, name
        self.steps, self.transitions, self.actions = (Points(plc, name, kind) for kind in ("step", "transition", "action"))

    @property
    def active(self) -> list[str]:
        """The names of its active steps."""
        return self._plc.active(self.name)

    @property
    def scans(self) -> int:
        """How many scans its life has had."""
        return self._plc.state(self.name).scans

    @property
    def fault(self) -> Optional[str]:
        """The kind of the fault that ended a scan since its latest reset, or None."""
        return SCAN_FAULTS[self._plc.state(self.name).fault]

    @property
    def fault_place(self) -> Optional[FaultPlace]:
        """Where that fault is, or None."""
        return self._plc.fault_place(self.name)

    def __getitem__(self, name: str) -> Value:
        """What a variable reads that the program declares for itself."""
        return self._plc[f"{self.name}.{name}"]

    def reset(self, t: Optional[Time] = None) -> None:
        """A new life: its own variables get their initial values."""
        self._plc.reset(self.name, t)

    def __repr__(self) -> str:
        return f"<program {self.name}: {', '.join(self.active)}>"


class Programs:
    """The programs of the resource, by name."""

    def __init__(self, plc: Plc):
        self._plc = plc

    def __getitem__(self, name: str) -> Program:
        self._plc.program(name)
        return Program(self._plc, name)

    def __iter__(self) -> Iterator[str]:
        return iter(self._plc.names("program"))

    def __len__(self) -> int:
        return len(self._plc.names("program"))


class Snapshot:
    """What a resource was at an instant. `restore` goes back there, as often as one likes; `with plc.snapshot():` goes back at its end."""

    def __init__(self, plc: Plc, number: int):
        self._plc, self.number = plc, number
        self.now, self._history = plc.now, plc._history[:]
        self._end = weakref.finalize(self, plc._free.append, number)

    def restore(self) -> None:
        """Goes back."""
        self._plc._restore(self)

    def __enter__(self) -> Snapshot:
        return self

    def __exit__(self, *_: Any) -> None:
        self.restore()


_WHEN = re.compile(r"\sWHEN\s", re.I)


class _Did(NamedTuple):
    """A command that was accepted, as a line of a script; or how many scans came next, one after the other."""

    line: str
    scans: int = 0


class Plc:
    """A chart that runs. A call that is refused raises a Refused, and changes nothing. A scan that ends with a fault raises a ScanFault,
    unless `raises` is False; it has happened then."""

    def __init__(self, text: bytes, script: bytes = b"", raises: bool = True):
        """Opens the chart, with the conditions behind WHEN in the script, which breakpoints may wait for."""
        self.handle, self.now, self.raises = Handle(), 0, raises
        self._given = (text, script)
        self._conditions = [_WHEN.split(it, 1)[1] for it in script.decode("utf-8").splitlines() if _WHEN.search(it)]
        self._history: list[_Did] = []
        self._free: list[int] = []
        self._slots = 0
        code = _LIB.sfc_open_with(text, len(text), script, len(script), self.handle)
        if code > 0:
            raise check(text) or Refused(code)
        _done(code, told="a line of the script is no command" if code == NO_LINE else "")
        self.variables = {name: self._about(number, name) for number, name in enumerate(self.names("variable"))}
        self._folded = {name.lower(): it for name, it in self.variables.items()}
        self._tasks = self.names("task")
        self.programs = Programs(self)

    @classmethod
    def of(cls, path: str, script: bytes = b"", raises: bool = True) -> Plc:
        """Opens the chart of a file."""
        with open(path, "rb") as file:
            return cls(file.read(), script, raises)

    def __enter__(self) -> Plc:
        return self

    def __exit__(self, *_: Any) -> None:
        self.close()

    def close(self) -> None:
        """Frees the resource."""
        _LIB.sfc_close(self.handle)

    # -- names

    def _about(self, number: int, name: str) -> Variable:
        about = About()
        _done(_LIB.sfc_about(self.handle, number, about))
        code, location = _text(_LIB.sfc_location, self.handle, number)
        _done(code)
        program = None if about.program < 0 else self.names("program")[about.program]
        return Variable(name, number, TYPES[about.var_type], AREAS[about.area], location or None, program)

    def _found(self, number: int, kind: str, name: str, program: Optional[str] = None) -> int:
        if number >= 0:
            return number
        near = get_close_matches(name.lower(), [it.lower() for it in self.names(kind, program)], 3, 0.6) if number == UNKNOWN else []
        meant = [it for it in self.names(kind, program) if it.lower() in near] if near else []
        told = f"no {kind} {name!r}" + (f" in {program}" if program else "") + (f"; near: {', '.join(meant)}" if meant else "")
        raise _CLASSES[number](number, told=told)

    def variable(self, name: str) -> int:
        """The number of NAME, of PROGRAM.NAME, or of what lies at a location, as %IX0.0."""
        return self._found(_LIB.sfc_variable(self.handle, name.encode(), len(name.encode())), "variable", name)

    def about(self, name: str) -> Variable:
        """What a variable is."""
        known = self._folded.get(name.lower())
        return known or list(self.variables.values())[self.variable(name)]

    @property
    def inputs(self) -> list[Variable]:
        """The variables that lie at %I."""
        return [it for it in self.variables.values() if it.area == "input"]

    @property
    def outputs(self) -> list[Variable]:
        """The variables that lie at %Q."""
        return [it for it in self.variables.values() if it.area == "output"]

    def task(self, name: str) -> int:
        """The number of a task."""
        return self._found(_LIB.sfc_task(self.handle, name.encode(), len(name.encode())), "task", name)

    def program(self, name: str) -> int:
        """The number of a program."""
        return self._found(_LIB.sfc_program(self.handle, name.encode(), len(name.encode())), "program", name)

    def point(self, program: str, kind: str, name: Union[str, int]) -> tuple[int, int, int]:
        """The numbers of a program, of a kind ("step", "transition", "action"), and of its point with this name; or its number itself."""
        p, k = self.program(program), KINDS[kind]
        if isinstance(name, int):
            return p, k, name
        return p, k, self._found(_LIB.sfc_point(self.handle, p, k, name.encode(), len(name.encode())), kind, name, program)

    def names(self, kind: str, program: Optional[str] = None) -> list[str]:
        """The names of all of a kind, in the order of their numbers; of points with the program. A transition may have none."""
        k, p = KINDS[kind], 0 if program is None else self.program(program)
        count = _LIB.sfc_count(self.handle, k, p)
        if count < 0:
            _done(count)
        found = [_text(_LIB.sfc_name, self.handle, k, p, n) for n in range(count)]
        return [name for code, name in found if _done(code) is None]

    # -- commands, each at an instant, or at the clock

    def _command(self, call: Any, words: str, *given: Any, t: Optional[Time] = None, reply: Optional[Reply] = None) -> Any:
        at = self.now if t is None else micros(t)
        code = call(self.handle, *given, at, *([] if reply is None else [reply]))
        if code:
            _done(code, reply, f"{words} at {time_text(at)}" + self._told(code, reply))
        self._accepted(at, words)
        return reply

    def _accepted(self, at: int, words: str) -> None:
        self.now = max(self.now, at)
        self._history.append(_Did(f"{time_text(at)} {words}"))

    def _told(self, code: int, reply: Optional[Reply]) -> str:
        """What the reply to a refused command tells."""
        if code == 29 and reply is not None and reply.next >= 0:
            return f"; next at {time_text(reply.next)}"
        return f"; {self._tasks[reply.first]} goes first" if code == 30 and reply is not None else ""

    def _faults(self, bits: int, instant: int) -> None:
        if bits and self.raises:
            ended = [self.programs[name] for k, name in enumerate(self.names("program")) if bits >> k & 1]
            raise ScanFault({it.name: it.fault for it in ended}, {it.name: it.fault_place for it in ended}, instant)

    def scan(self, task: str, t: Optional[Time] = None) -> Reply:
        """Scans a task that is due."""
        reply = self._command(_LIB.sfc_scan, f"SCAN {task}", self.task(task), t=t, reply=Reply())
        self._faults(reply.faulted, self.now)
        return reply

    def single(self, task: str, delta: Time, t: Optional[Time] = None) -> Reply:
        """While halted, scans a task, due or not, so much later."""
        words = f"SINGLE {task} {time_text(delta)}"
        reply = self._command(_LIB.sfc_single, words, self.task(task), micros(delta), t=t, reply=Reply())
        self._faults(reply.faulted, self.now)
        return reply

    def _valued(self, call: Any, verb: str, name: str, value: Value, t: Optional[Time]) -> None:
        about = self.about(name)
        try:
            number = about.number_of(value)
        except ValueError as wrong:
            raise NoValue(NO_VALUE, told=str(wrong)) from None
        self._command(call, f"{verb} {about.name} {value_text(about.typed(number))}", about.number, number, t=t)

    def input(self, name: str, value: Value, t: Optional[Time] = None) -> None:
        """Writes a variable that lies at %I."""
        self._valued(_LIB.sfc_input, "INPUT", name, value, t)

    def __setitem__(self, name: str, value: Value) -> None:
        """Writes a variable that lies at %I."""
        self.input(name, value)

    def force(self, name: str, value: Value, t: Optional[Time] = None) -> None:
        """The variable reads this value until `release`, whatever is written to it."""
        self._valued(_LIB.sfc_force, "FORCE", name, value, t)

    def release(self, name: str, t: Optional[Time] = None) -> None:
        """The variable reads again what was written to it."""
        self._command(_LIB.sfc_release, f"RELEASE {name}", self.variable(name), t=t)

    def reset(self, program: str, t: Optional[Time] = None) -> None:
        """The program begins a new life."""
        self._command(_LIB.sfc_reset, f"RESET {program}", self.program(program), t=t)

    def read(self, name: str, t: Optional[Time] = None) -> Value:
        """What the variable reads, as a command of the history."""
        about = self.about(name)
        return about.typed(self._command(_LIB.sfc_read, f"READ {name}", about.number, t=t, reply=Reply()).value)

    def set_break(self, program: str, kind: str, name: Union[str, int], t: Optional[Time] = None,
                  condition: Union[int, str, None] = NO_CONDITION) -> None:
        """Sets a breakpoint, which waits for a condition: one by its text, or one that is there by its number. Those of the script of the
        opening come first, and each that was given as a text behind them."""
        place, words = self.point(program, kind, name), self._place("BREAK", program, kind, name)
        if isinstance(condition, str):
            self._break_when(place, words, condition, self.now if t is None else micros(t))
            return
        number = NO_CONDITION if condition is None else condition
        named = f" WHEN {self._conditions[number]}" if number < len(self._conditions) else ""
        self._command(getattr(_LIB, "sfc_break"), words + named, *place, number, t=t)

    def _break_when(self, place: tuple[int, int, int], words: str, condition: str, at: int) -> None:
        text = condition.encode()
        code = _LIB.sfc_break_when(self.handle, *place, text, len(text), at)
        _done(code, None, f"{condition!r} is no condition there" if code == NO_EXPRESSION else f"{words} at {time_text(at)}")
        self._conditions.append(condition)
        self._accepted(at, f"{words} WHEN {condition}")

    def _place(self, verb: str, program: str, kind: str, name: Union[str, int]) -> str:
        named = name if isinstance(name, str) else name + 1 if kind == "transition" else self.names(kind, program)[name]
        return f"{verb} {program} {kind.upper()} {named}"

    def unbreak(self, program: str, kind: str, name: Union[str, int], t: Optional[Time] = None) -> None:
        """Takes a breakpoint away."""
        self._command(_LIB.sfc_unbreak, self._place("UNBREAK", program, kind, name), *self.point(program, kind, name), t=t)

    def stop(self, t: Optional[Time] = None) -> None:
        """Halts the resource: its time stands still, and only `single` scans."""
        self._command(_LIB.sfc_stop, "STOP", t=t)

    def go(self, t: Optional[Time] = None) -> None:
        """Lets a halted resource run on."""
        self._command(_LIB.sfc_go, "GO", t=t)

    def end(self, t: Optional[Time] = None) -> None:
        """No later command is accepted."""
        self._command(_LIB.sfc_end, "END", t=t)

    def command(self, line: str) -> str:
        """Obeys a line of a script: the lines that `sfcmon replay` prints for it, also for a refusal."""
        code, text = _text(_LIB.sfc_command, self.handle, line.encode(), len(line.encode()))
        if code < 0:
            _done(code, told=line)
        if code == 0 and text:
            self.now = max(self.now, _instant(line.split()[0]))
            self._history.append(_Did(line.strip()))
        return text

    # -- all tasks

    @property
    def next(self) -> Optional[tuple[int, str]]:
        """The instant of the scan that comes next, and its task; None where none comes."""
        into = NextScan()
        code = _LIB.sfc_next(self.handle, into)
        if code == UNKNOWN:
            return None
        _done(code)
        return into.instant, self._tasks[into.task]

    def _advance(self, until: int) -> Advanced:
        """All scans up to an instant. The clock goes there, or to a scan that hits a breakpoint or ends with a fault."""
        did = Advanced()
        code = _LIB.sfc_advance(self.handle, until, did)
        _done(code, told=f"a scan up to {time_text(until)}")
        if did.scans:
            self._history.append(_Did("", did.scans))
        self.now = max(self.now, did.instant if did.end in (HIT, FAULT) else until)
        self._faults(did.faulted if did.end == FAULT else 0, did.instant)
        return did

    def advance(self, duration: Time) -> Advanced:
        """Lets the clock go on by a duration: all tasks are scanned at each of their releases until then. A scan that hits a breakpoint ends
        it there, with `end` HIT."""
        return self._advance(self.now + micros(duration))

    def until(self, condition: Union[str, Callable[[Plc], Any]], within: Time) -> timedelta:
        """Scans all tasks at their releases until a condition holds: a function of the Plc, or the name of a variable that is to be TRUE. It
        answers how long that took. TimedOut where it doesn't hold within a duration."""
        holds = (lambda plc: plc[condition]) if isinstance(condition, str) else condition
        began, last = self.now, self.now + micros(within)
        while not holds(self):
            coming = self.next
            if coming is None or coming[0] > last:
                self._advance(last)
                named = condition if isinstance(condition, str) else getattr(condition, "__name__", "the condition")
                raise TimedOut(f"{named} isn't so within {time_text(within)}, from {time_text(began)} on\n{self.last_scans()}")
            if self._advance(coming[0]).end == HIT:
                break
        return timedelta(microseconds=self.now - began)

    def run(self, task: str, until: Time) -> None:
        """Scans one task at each release by its interval from now on up to this instant, while the resource runs."""
        while self.status().mode == 0:
            wait = self.task_state(task).next - self.status().instant
            if wait <= 0 or self.now + wait > micros(until):
                return
            self.scan(task, self.now + wait)

    # -- going back

    def snapshot(self) -> Snapshot:
        """What the resource is now, to go back to."""
        number = self._free.pop() if self._free else self._slots
        code = _LIB.sfc_save(self.handle, number)
        if code:
            if number < self._slots:
                self._free.append(number)
            _done(code)
        self._slots = max(self._slots, number + 1)
        return Snapshot(self, number)

    def restore(self, snapshot: Snapshot) -> None:
        """Goes back to a snapshot of this Plc."""
        snapshot.restore()

    def _restore(self, snapshot: Snapshot) -> None:
        _done(_LIB.sfc_restore(self.handle, snapshot.number))
        self.now, self._history = snapshot.now, snapshot._history[:]

    # -- history

    def script(self) -> str:
        """What was done, as a script: a replay of it on the chart does the same."""
        with Plc(*self._given, raises=False) as again:
            return "".join(f"{line}\n" for line, _ in again._again(self._history))

    def _again(self, history: list[_Did]) -> Iterator[tuple[str, str]]:
        """Does all of it here: each line of a script, and what `replay` prints for it."""
        for did in history:
            if did.line:
                yield did.line, self._obey(did.line)
            for _ in range(did.scans):
                instant, task = self.next or (self.now, self._tasks[0])
                line = f"{time_text(instant)} SCAN {task}"
                yield line, self._obey(line)

    def _obey(self, line: str) -> str:
        """Obeys a line, whose condition may be one that isn't there yet; nothing is printed then."""
        try:
            return self.command(line)
        except NotFound:
            words, condition = _WHEN.split(line, 1)
            at, _, program, kind, name = words.split()
            number = int(name) - 1 if name.isdigit() else name
            self.set_break(program, kind.lower(), number, _instant(at), condition)
            return ""

    def save(self, path: str) -> None:
        """Writes what was done as a script, for `sfcmon replay CHART PATH`."""
        with open(path, "w", encoding="utf-8") as file:
            file.write(self.script())

    def last_scans(self, count: int = 5) -> str:
        """The lines that `sfcmon replay` prints for the latest scans."""
        with Plc(*self._given, raises=False) as again:
            told = [text for _, text in again._again(self._history)]
        return "".join([it for it in told if " SCAN " in it or " SINGLE " in it][-count:])

    # -- readers

    def __getitem__(self, name: str) -> Value:
        """What a variable reads."""
        into, about = c.c_int64(), self.about(name)
        _done(_LIB.sfc_value(self.handle, about.number, into))
        return about.typed(into.value)

    def forced(self, name: str) -> bool:
        """Whether a variable is forced."""
        code = _LIB.sfc_forced(self.handle, self.variable(name))
        return bool(code if code >= 0 else _done(code))

    def image(self) -> dict[str, Value]:
        """What each variable reads, by its name."""
        states = (VariableState * max(1, len(self.variables)))()
        _done(_LIB.sfc_image(self.handle, states, len(self.variables)))
        return {it.name: it.typed(states[it.number].value) for it in self.variables.values()}

    def image_text(self) -> str:
        """A line for each variable, as `sfcmon replay` prints them at its end."""
        code, text = _text(_LIB.sfc_image_text, self.handle)
        _done(code)
        return text

    def status(self) -> Status:
        """The run instant, how many commands were accepted, and the mode."""
        status = Status()
        return _done(_LIB.sfc_status(self.handle, status), status)

    @property
    def mode(self) -> str:
        """ "running", "halted" or "ended"."""
        return MODES[self.status().mode]

    def task_state(self, task: str) -> TaskState:
        """When a task is activated next by its INTERVAL, a run instant, and its overruns."""
        state = TaskState()
        return _done(_LIB.sfc_task_state(self.handle, self.task(task), state), state)

    def state(self, program: str, kind: Optional[str] = None, name: Union[str, int, None] = None) -> Any:
        """How a program stands, or one of its points."""
        if kind is None or name is None:
            state: Any = ProgramState()
            return _done(_LIB.sfc_program_state(self.handle, self.program(program), state), state)
        state = PointState()
        return _done(_LIB.sfc_point_state(self.handle, *self.point(program, kind, name), state), state, f"{kind} {name} of {program}")

    def fault_place(self, program: str) -> Optional[FaultPlace]:
        """Where the fault is that ended a scan of a program since its latest reset, or None."""
        state = self.state(program)
        kind = PLACES[state.place]
        if kind is None:
            return None
        name, of = "", KINDS["transition" if kind == "condition" else "action"]
        if state.number >= 0:
            code, name = _text(_LIB.sfc_name, self.handle, of, self.program(program), state.number)
            _done(code)
        return FaultPlace(kind, name, state.number, state.statement or None)

    def active(self, program: str) -> list[str]:
        """The names of the program's active steps."""
        return [name for name in self.names("step", program) if self.state(program, "step", name).active]


_UNITS = {"d": 86_400_000_000, "h": 3_600_000_000, "m": 60_000_000, "s": 1_000_000, "ms": 1000}


def _instant(text: str) -> int:
    """The microseconds of a TIME text."""
    body = text.partition("#")[2]
    total = sum(round(float(count) * _UNITS[unit]) for count, unit in re.findall(r"([\d.]+)(ms|d|h|m|s)", body.lower()))
    return -total if body.startswith("-") else total
