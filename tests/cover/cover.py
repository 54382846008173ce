"""What cover.sh does; its head says what that is."""

import re
import subprocess
import sys
import tempfile
from pathlib import Path

HERE = Path(__file__).resolve().parent
TOP = HERE.parent.parent
sys.path.insert(0, str(HERE.parent / "reading"))

from cases import case_of, cases_of  # noqa: E402
from modes import MODES  # noqa: E402
from read_cover import report  # noqa: E402
from reading import Ended, replayed  # noqa: E402

RAN = re.compile(r"  (\w+) \d+ steps (\S+) cleared (\S+) run (\S+)")
FAULT = re.compile(r"  (\w+) fault (\w+)")
HEAD = re.compile(r"(program|type) (\w+) (?:\w+|instances \d+) scans (\d+) faults (.*)")
SHARE = re.compile(r"  (steps|transitions|actions|branches) (\d+) of (\d+) (\d+)%")
MISSED = re.compile(r"  (step|transition|action) (\w+)(?: \w+)? never (?:active|enabled|TRUE|cleared|executed).*")


class Checks:
    """What holds, and what does not."""

    def __init__(self, program: str):
        self.program, self.passed, self.failed = program, 0, 0

    def note(self, holds: bool, title: str):
        """Counts one."""
        if holds:
            self.passed += 1
        else:
            self.failed += 1
            print(f"not as it should be: {title}", flush=True)

    def said(self, *words) -> str:
        """What the program prints."""
        done = subprocess.run([self.program, *map(str, words)], capture_output=True, timeout=120, check=False)
        return done.stdout.decode("latin-1")


class Block:
    """What the report says of an instance."""

    def __init__(self, scans: str, faults: str):
        self.scans, self.faults = int(scans), faults
        self.shares = {"steps": 0, "transitions": 0, "actions": 0}
        self.missed = {"step": set(), "transition": set(), "action": set()}


def blocks_of(text: str) -> dict:
    """The blocks of the instances by their names."""
    found, block = {}, None
    for line in text.splitlines():
        head, share, missed = HEAD.fullmatch(line), SHARE.fullmatch(line), MISSED.fullmatch(line)
        if head:
            block = Block(head[3], head[4])
            if head[1] == "program":
                found[head[2]] = block
        elif share:
            block.shares[share[1]] = int(share[2])
        elif missed:
            block.missed[missed[1]].add(missed[2])
    return found


class Seen:
    """What the lines of a replay show of an instance."""

    def __init__(self):
        self.scans, self.faults = 0, {}
        self.step, self.transition, self.action = set(), set(), set()

    def take(self, steps: str, cleared: str, ran: str):
        """Takes in what one scan did."""
        self.scans += 1
        if steps != "-":
            self.step |= {it.split("=")[0] for it in steps.split(",")}
        if cleared != "-":
            self.transition |= set(cleared.split(","))
        if ran != "-":
            self.action |= set(ran.split(","))


def seen_in(output: str) -> dict:
    """What the lines show, by the names of instances."""
    found = {}
    for line in output.splitlines():
        ran, fault = RAN.fullmatch(line), FAULT.fullmatch(line)
        if ran:
            found.setdefault(ran[1], Seen()).take(*ran.groups()[1:])
        elif fault:
            faults = found.setdefault(fault[1], Seen()).faults
            faults[fault[2]] = faults.get(fault[2], 0) + 1
    return found


def is_as_seen(block: Block, seen: Seen) -> bool:
    """Whether a block says what the lines of replays show."""
    faults = "-" if not seen.faults else ",".join(
        f"{kind} {seen.faults[kind]}" for kind in ("DivZero", "Range", "TwoTimed", "SdWhileSl", "SlWhileSd") if kind in seen.faults)
    return (block.scans == seen.scans and block.faults == faults
            and block.shares["steps"] == len(seen.step) and not block.missed["step"] & seen.step
            and block.shares["transitions"] == len(seen.transition) and not block.missed["transition"] & seen.transition
            and block.shares["actions"] == len(seen.action) and not block.missed["action"] & seen.action)


def check(checks: Checks, title: str, chart: bytes, scripts: list):
    """One chart with its scripts, by the lines of replays and by the reading."""
    with tempfile.TemporaryDirectory() as folder:
        files = [Path(folder) / f"{number}.script" for number in range(len(scripts))]
        for file, script in zip(files, scripts):
            file.write_bytes(script)
        (Path(folder) / "chart").write_bytes(chart)
        told = checks.said("cover", Path(folder) / "chart", *files)
        lines = "".join(checks.said("replay", Path(folder) / "chart", file) for file in files)
    seen, blocks = seen_in(lines), blocks_of(told)
    checks.note(bool(blocks) and all(is_as_seen(block, seen.get(name, Seen())) for name, block in blocks.items()),
                f"{title}, by replay")
    checks.note(told == report(chart, scripts), f"{title}, by the reading")


def check_examples(checks: Checks):
    """The examples, and each script of a chart together with its own front."""
    for chart in sorted((TOP / "examples").glob("*.chart")):
        script = chart.with_suffix(".script").read_bytes()
        front = b"".join(script.splitlines(keepends=True)[:len(script.splitlines()) // 2])
        check(checks, chart.stem, chart.read_bytes(), [script])
        check(checks, f"half of {chart.stem}", chart.read_bytes(), [front])
        check(checks, f"{chart.stem} and half of it", chart.read_bytes(), [front, script])


def check_cases(checks: Checks):
    """The replays among the cases, and the cases of cover."""
    for path in sorted((TOP / "crates/conformance/data").iterdir()):
        found = cases_of(path) if path.suffix == ".cases" else [case_of(path)] if path.suffix == ".case" else []
        for case in found:
            if case.words["command"] in ("replay", "cover") and not case.words["stderr"]:
                scripts = [case.text("script")] + ([case.text("second")] if case.texts["second"] else [])
                check(checks, case.title, case.chart(), scripts)


LINES = [  # words, exit status, the text on standard error (a part of it), whether the report is printed
    ("--help", 0, "", None),
    ("", 2, "FILE", False),
    ("good", 2, "SCRIPT", False),
    ("--min 101 good first", 2, "101", False),
    ("--min -1 good first", 2, "", False),
    ("--min ten good first", 2, "ten", False),
    ("good first", 0, "", True),
    ("good first second first", 0, "", True),
    ("--min 0 good first", 0, "", True),
    ("--min 25 good first", 0, "", True),
    ("--min 26 good first", 1, "25 % is less than 26 %\n", True),
    ("good first --min 26", 1, "25 % is less than 26 %\n", True),
    ("--min 100 good first second", 0, "", True),
    ("bad first", 1, "refused 9 Unknown\n", False),
    ("good faulty", 1, "faulty: script line 2\n", False),
    ("good first faulty", 1, "faulty: script line 2\n", False),
    ("bad faulty", 1, "refused 9 Unknown\n", False),
    ("nothing first", 3, "read fault\n", False),
    ("good nothing", 3, "nothing: read fault\n", False),
    ("bad first nothing", 3, "nothing: read fault\n", False),
    ("good .", 3, ".: read fault\n", False),
]


def check_lines(checks: Checks):
    """Command lines: exit status, what standard error says, and whether the report is printed."""
    chart = ("PROGRAM P INITIAL_STEP A: END_STEP STEP B: END_STEP TRANSITION FROM A TO B := {}; END_TRANSITION "
             "TRANSITION FROM B TO A := TRUE; END_TRANSITION END_PROGRAM CONFIGURATION C RESOURCE R ON Plc "
             "VAR_GLOBAL Go AT %IX0.0 : BOOL; END_VAR TASK T(INTERVAL := T#10ms, PRIORITY := 1); PROGRAM I WITH T : P; "
             "END_RESOURCE END_CONFIGURATION")
    first = "T#0s SCAN T\n"
    second = first + "T#5ms FORCE Go TRUE\nT#10ms SCAN T\nT#20ms SCAN T\n"
    files = {"good": chart.format("Go"), "bad": chart.format("Gone"), "first": first, "second": second, "faulty": "\nSCAN T\n"}
    with tempfile.TemporaryDirectory() as folder:
        for name, text in files.items():
            (Path(folder) / name).write_text(text)
        program = str(Path(checks.program).resolve())
        for words, status, error, is_told in LINES:
            done = subprocess.run([program, "cover", *words.split()], cwd=folder, capture_output=True, text=True, timeout=60, check=False)
            told = done.stderr == error if error.endswith("\n") or (status == 0 and not error) else error in done.stderr
            holds = done.returncode == status and told and (is_told is None or done.stdout.startswith("total ") == is_told)
            checks.note(holds, f"cover {words}: status {done.returncode}, {done.stderr!r}, {done.stdout!r}")
        with open("/dev/full", "w", encoding="ascii") as full:
            done = subprocess.run([program, "cover", "good", "first"], cwd=folder, stdout=full, stderr=subprocess.PIPE, text=True, check=False)
        checks.note((done.returncode, done.stderr) == (3, "write fault\n"), "cover to a full device")


def is_playable(chart: bytes, script: bytes) -> bool:
    """Whether neither is refused."""
    try:
        replayed(chart, script)
        return True
    except Ended:
        return False


def check_random(checks: Checks, count: int, seed: int):
    """Random plants of each mode."""
    for mode, plant in MODES.items():
        for number in range(seed, seed + count):
            chart, script = (text.encode() for text in plant(number))
            if is_playable(chart, script):
                check(checks, f"plant {number} of mode {mode}", chart, [script])


def main() -> int:
    """Checks all; gives the exit status."""
    checks = Checks(sys.argv[1])
    count, seed = (int(word) for word in (sys.argv[2:] + ["40", "1"][len(sys.argv) - 2:])[:2])
    check_lines(checks)
    check_examples(checks)
    check_cases(checks)
    check_random(checks, count, seed)
    print(f"{checks.passed} passed, {checks.failed} failed")
    return 1 if checks.failed else 0


if __name__ == "__main__":
    sys.exit(main())
