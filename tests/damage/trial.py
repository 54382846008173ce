"""Runs the program on a chart and a script, and judges how it ends by what is documented and by the second reading."""

import os
import re
import signal
from pathlib import Path
from typing import NamedTuple, Optional

import corpus  # noqa: F401 (it makes the second reading known)
from playing import Replay
from reading import Ended, plant_of
from scripts import FaultyLine, commands

MOST_SECONDS = 1.0
PATIENCE = 60
MOST_PLAYED = 250
MOST_WORK = 40_000
MOST_LISTING = 1_048_576

TEXTS = re.compile(
    rb"(refused (1 TooLong|2 NotAscii|3 BadToken|4 Syntax|5 TooDeep|6 BadDuration|7 BadNumber) line [0-9]+"
    rb"|refused (9 Unknown|10 WrongType|11 LiteralRange|12 NotAssignable|13 Duplicate|14 NoInitial|15 UnknownStep|16 UnknownAction"
    rb"|17 NotBool|18 NotTime|19 NoTask|20 UnknownType|21 SameLocation|22 Limit (Steps|Transitions|Associations|Variables|Instances|Tasks))"
    rb"|script line [0-9]+)\n\Z")
LINE = re.compile(
    rb"(T#[0-9a-z_.]+ (SCAN|INPUT|FORCE|RELEASE|RESET|READ|BREAK|UNBREAK|STOP|GO|SINGLE|END|EPOCH)( .*)?"
    rb"|  [A-Za-z0-9_]+ ([0-9]+ steps \S+ cleared \S+ run \S+|(fault|skipped) (DivZero|Range|TwoTimed|SdWhileSl|SlWhileSd))"
    rb"|refused (2[4-9]|3[0-9]|40) [A-Za-z]+( \S+)?|image \S+ \S+( forced)?)\Z")


class Run(NamedTuple):
    """How a run ended: its exit status (negative: a signal), both outputs, and the seconds of processor time that it took."""
    status: int
    out: bytes
    err: bytes
    seconds: float


class Trial:
    """A program, and a folder for its files."""

    def __init__(self, program: str, folder: Path):
        self.program, self.folder, self.child = program, folder, 0
        signal.signal(signal.SIGALRM, self.stop)

    def stop(self, *_):
        """Ends a run that doesn't end."""
        if self.child:
            os.kill(self.child, signal.SIGKILL)

    def run(self, *words: str) -> Run:
        """Runs the program with these words."""
        out, err = self.folder / "out", self.folder / "err"
        into = os.O_WRONLY | os.O_CREAT | os.O_TRUNC
        files = [(os.POSIX_SPAWN_OPEN, 0, "/dev/null", os.O_RDONLY, 0), (os.POSIX_SPAWN_OPEN, 1, str(out), into, 0o600),
                 (os.POSIX_SPAWN_OPEN, 2, str(err), into, 0o600)]
        self.child = os.posix_spawn(self.program, [self.program, *words], {}, file_actions=files)
        signal.alarm(PATIENCE)
        _, status, used = os.wait4(self.child, 0)
        signal.alarm(0)
        self.child = 0
        return Run(os.waitstatus_to_exitcode(status), out.read_bytes(), err.read_bytes(), used.ru_utime + used.ru_stime)

    def file(self, name: str, text: bytes) -> str:
        """The name of a file with this text."""
        path = self.folder / name
        path.write_bytes(text)
        return str(path)

    def fault(self, chart: bytes, script: bytes) -> tuple:
        """What is wrong with the answers to a chart and a script (empty where nothing is), and the answer in short."""
        here = self.file("chart", chart)
        check, replay = self.run("check", here), self.run("replay", here, self.file("script", script))
        wanted = read(chart, script)
        why = shape("check", check) or shape("replay", replay) or reading_differs(wanted, check, replay)
        if not why and check.status == 0:
            why = self.listing_fault(here, replay)
        return why, short(replay)

    def listing_fault(self, chart: str, replay: Run) -> str:
        """What is wrong with the listing of a chart that has no fault: it loads, lists the same and plays the same."""
        listed = self.run("list", chart)
        why = shape("list", listed)
        if why or len(listed.out) > MOST_LISTING:
            return why
        again = self.file("listed", listed.out)
        if self.run("list", again)[:3] != listed[:3]:
            return "the listing doesn't list the same again"
        if self.run("replay", again, str(self.folder / "script"))[:3] != replay[:3]:
            return "the listing doesn't play as its chart does"
        return ""


class Wanted(NamedTuple):
    """What the second reading says: the text of the chart's refusal, that of the replay's, the commands, the output where it was played."""
    chart: str
    replay: str
    commands: int = 0
    output: Optional[str] = None


def read(chart: bytes, script: bytes) -> Wanted:
    """The answer of the second reading. It plays no script of many commands, and none of a large plant, since it is slow."""
    try:
        plant = plant_of(chart)
    except Ended as ended:
        return Wanted(ended.args[0], ended.args[0])
    try:
        found = commands(script, plant)
    except FaultyLine as line:
        return Wanted("", f"script line {line}")
    size = len(plant.variables) + sum(len(one.chart.steps) + len(one.chart.transitions) + len(one.chart.associations)
                                      for one in plant.instances)
    if len(found) > MOST_PLAYED or len(found) * size > MOST_WORK:
        return Wanted("", "", len(found))
    return Wanted("", "", len(found), "".join(line + "\n" for line in Replay(plant).lines(found)))


def shape(command: str, run: Run) -> str:
    """What of a run isn't as documented, whatever the text says; a text is no fault of a device, so 3 and 4 aren't expected."""
    if run.seconds > MOST_SECONDS:
        return f"{command} takes {run.seconds:.2f} s of the processor"
    if run.status == 1:
        return "" if TEXTS.match(run.err) and not run.out else f"{command} ends with status 1, {run.err[:200]!r} and {len(run.out)} bytes"
    if run.status != 0 or run.err:
        return f"{command} ends with status {run.status} and {run.err[:200]!r}"
    if command == "check":
        return "" if run.out == b"ok\n" else f"check prints {run.out[:200]!r}"
    if command == "list":
        return "" if run.out.endswith(b"END_CONFIGURATION\n") else f"list ends with {run.out[-200:]!r}"
    wrong = next((line for line in run.out.split(b"\n")[:-1] if not LINE.match(line)), b"")
    return f"replay prints {wrong[:200]!r}" if wrong or not run.out.endswith(b"\n") and run.out else ""


def text_of(run: Run) -> str:
    """The text on standard error, without its line end."""
    return run.err.decode("latin-1").removesuffix("\n")


def reading_differs(wanted: Wanted, check: Run, replay: Run) -> str:
    """Where the program's answers aren't those of the second reading."""
    for command, text, run in (("check", wanted.chart, check), ("replay", wanted.replay, replay)):
        if text_of(run) != text:
            return f"{command} says {text_of(run)!r}, the second reading {text!r}"
    out = replay.out.decode("latin-1")
    if wanted.output is not None and out != wanted.output:
        ours, theirs = wanted.output.split("\n"), out.split("\n")
        place = next((number for number, (left, right) in enumerate(zip(ours, theirs)) if left != right), min(len(ours), len(theirs)))
        return f"the output differs from the second reading's in line {place + 1}"
    lines = [line for line in out.split("\n")[:-1] if not line.startswith(("  ", "image "))]
    if replay.status == 0 and len(lines) != wanted.commands:
        return f"replay answers {len(lines)} commands of {wanted.commands}"
    return ""


def short(run: Run) -> str:
    """The answer in short: `played`, or the text on standard error without a line's number."""
    return "played" if run.status == 0 else re.sub(r" line [0-9]+", "", text_of(run))
