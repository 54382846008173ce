#!/usr/bin/env python3
"""lint.py PROGRAM [CHARTS] [PLANTS] [SEED]: holds `lint` to an independent search (networks.py): on CHARTS random small charts what is told
of their networks, with its runs, which have to be shortest; on PLANTS random plants with scripts that no step that is told to be
unreachable is ever active in a replay, and ten times as many damaged charts to their checks. Then the charts of kinds.txt, and that the
examples have no warning but those that they allow.

What differs is shown; the last line is 'N passed, M failed'."""

import re
import subprocess
import sys
import tempfile
from pathlib import Path
from random import Random

TOP = Path(__file__).resolve().parent.parent.parent
sys.path[:0] = [str(TOP / "tests/reading"), str(TOP / "tests/damage"), str(TOP / "tests/lint")]

import corpus  # noqa: E402
import damages  # noqa: E402
import networks  # noqa: E402
from modes import MODES  # noqa: E402

HEAD = re.compile(r"^chart:\d+:\d+: warning (W\d+): \w+: (.*)$")
TOLD = {"W101": r"no run activates step (\w+),", "W102": r"transition (\d+) is never enabled", "W103": r"may activate step (\w+) while",
        "W104": r"active ([\w, ]+)$", "W105": r"a second initial step", "W106": r"that transition (\d+) begins"}
SIMPLE, FEW = 6, 7


def chart_of(rng: Random) -> tuple:
    """A small chart: how many steps it has, which are initial, and its links."""
    count = rng.randint(1, SIMPLE)
    steps = list(range(count))
    initial = set(rng.sample(steps, 1 if rng.random() < 0.8 or count < 2 else 2))

    def some() -> list:
        return rng.sample(steps, 1 if rng.random() < 0.6 or count < 2 else rng.randint(2, min(3, count)))

    return count, initial, [(some(), some()) for _ in range(rng.randint(0, FEW))]


def text_of(count: int, initial: set, links: list) -> str:
    """The chart as a text; each condition is a variable of its own."""
    def side(steps: list) -> str:
        return f"S{steps[0]}" if len(steps) == 1 else "(" + ", ".join(f"S{step}" for step in steps) + ")"

    lines = ["PROGRAM Net", "VAR", *(f"C{k} : BOOL;" for k in range(len(links))), "END_VAR"] if links else ["PROGRAM Net"]
    lines += [f"{'INITIAL_STEP' if step in initial else 'STEP'} S{step} : END_STEP" for step in range(count)]
    lines += [f"TRANSITION FROM {side(before)} TO {side(behind)} := C{k}; END_TRANSITION" for k, (before, behind) in enumerate(links)]
    lines += ["END_PROGRAM", "CONFIGURATION C RESOURCE R ON Plc", "TASK Main(INTERVAL := T#10ms, PRIORITY := 1);",
              "PROGRAM P WITH Main : Net;", "END_RESOURCE END_CONFIGURATION", ""]
    return "\n".join(lines)


def told(program: str, folder: str, text: str) -> tuple:
    """What `lint` tells of a text: for each warning its code, its text, and the transitions of its run; and the status."""
    Path(folder, "chart").write_text(text, encoding="utf-8")
    done = subprocess.run([program, "lint", "chart"], cwd=folder, capture_output=True, text=True, timeout=120)
    found = []
    for line in done.stdout.splitlines():
        head = HEAD.match(line)
        if head:
            found.append((head[1], head[2], []))
        run = re.search(r"^  run: .*; transition (\d+)", line)
        if run:
            found[-1][2].append(int(run[1]) - 1)
    return found, done.returncode, done.stderr


class Tally:
    """How many comparisons passed and failed."""

    def __init__(self):
        self.passed = self.failed = 0

    def hold(self, title: str, is_well: bool, *what):
        """Counts a comparison, and shows what differs."""
        if is_well:
            self.passed += 1
            return
        self.failed += 1
        if self.failed <= 20:
            print("not as it should be:", title, *what, flush=True)


def of_code(found: list, code: str) -> list:
    """The words that the warnings of a code name."""
    return [re.search(TOLD[code], text)[1] for kind, text, _ in found if kind == code]


def hold_runs(tally: Tally, title: str, searched: list, initial: set, links: list, found: list):
    """Whether each run leads where its warning says, and none is shorter."""
    for code, text, run in found:
        if code == "W103":
            step = int(re.search(TOLD[code], text)[1][1:])
            inside = next(one.steps for one in searched if step in one.steps)
            end = networks.plays(links, initial & inside, run)
            tally.hold(f"{title} run", end is not None and end[1], text, run)
            wanted = networks.shortest(links, initial & inside, lambda marking, doubled: doubled)
            tally.hold(f"{title} shortest", len(run) == wanted, text, run, wanted)
        if code == "W104":
            names = re.search(TOLD[code], text)[1].split(", ")
            marking = frozenset(int(name[1:]) for name in names)
            one = next(one for one in searched if marking <= one.steps)
            end = networks.plays(links, initial & one.steps, run)
            tally.hold(f"{title} run", end is not None and end[0] == marking and one.is_dead(marking), text, run)
            place = one.end_of(marking)
            wanted = networks.shortest(links, initial & one.steps,
                                       lambda it, _: bool(it) and one.is_dead(it) and one.end_of(it) == place)
            tally.hold(f"{title} shortest", len(run) == wanted, text, run, wanted)


def hold_chart(tally: Tally, program: str, folder: str, seed: int):
    """Holds what is told of a random small chart."""
    count, initial, links = chart_of(Random(seed))
    text = text_of(count, initial, links)
    found, status, errors = told(program, folder, text)
    tally.hold(f"chart {seed} status", status == 0 and not errors, status, errors)
    searched = [networks.Network(steps, initial, links) for steps in networks.networks(count, links)]
    wanted = {
        "W101": sorted(f"S{step}" for one in searched for step in one.unreachable(initial)),
        "W102": sorted(str(k + 1) for one in searched if not one.is_unsafe for k in one.joins_that_never_come()),
        "W106": sorted(str(k + 1) for k in networks.not_joined(links)),
    }
    for code, names in wanted.items():
        tally.hold(f"chart {seed} {code}", sorted(of_code(found, code)) == names, text, of_code(found, code), names)
    doubled = [next(i for i, one in enumerate(searched) if int(name[1:]) in one.steps) for name in of_code(found, "W103")]
    unsafe = [i for i, one in enumerate(searched) if one.is_unsafe]
    tally.hold(f"chart {seed} W103", sorted(doubled) == unsafe, text, doubled, unsafe)
    ends = sorted(step for one in searched if not one.is_unsafe for step in one.ends())
    markings = [frozenset(int(name[1:]) for name in names.split(", ")) for names in of_code(found, "W104")]
    places = sorted(next(one for one in searched if it <= one.steps).end_of(it) for it in markings)
    tally.hold(f"chart {seed} W104", places == ends, text, places, ends)
    seconds = sum(max(len(one.steps & initial) - 1, 0) for one in searched)
    tally.hold(f"chart {seed} W105", sum(code == "W105" for code, _, _ in found) == seconds, text, seconds)
    hold_runs(tally, f"chart {seed}", searched, initial, links, found)


def unreachable_in(chart: str, output: str) -> set:
    """The steps that are told to be unreachable, each with its program type."""
    rows = chart.splitlines()
    found = set()
    for row, step in re.findall(r"^chart:(\d+):\d+: warning W101: .* activates step (\w+),", output, re.M):
        before = "\n".join(rows[:int(row)])
        found.add((re.findall(r"^\s*PROGRAM (\w+)\s*$", before, re.M)[-1].upper(), step.upper()))
    return found


def active_in(chart: str, output: str) -> set:
    """The steps that were active in a replay, each with its program type."""
    types = {instance: name.upper() for instance, name in re.findall(r"\bPROGRAM (\w+)(?: WITH \w+)?\s*:\s*(\w+)", chart)}
    found = set()
    for instance, steps in re.findall(r"^  (\w+) \d+ steps (\S+)", output, re.M):
        found |= {(types[instance], step.split("=")[0].upper()) for step in steps.split(",")}
    return found


def hold_plant(tally: Tally, program: str, folder: str, mode: str, seed: int):
    """Holds the steps that are told to be unreachable to a replay of a random plant's script."""
    chart, script = MODES[mode](seed)
    chart = chart if isinstance(chart, str) else chart.decode("latin-1")
    script = script if isinstance(script, str) else script.decode("latin-1")
    found, status, errors = told(program, folder, chart)
    if errors:
        tally.hold(f"{mode} {seed} status", status == 1, status, errors)
        return
    Path(folder, "script").write_text(script, encoding="latin-1")
    done = subprocess.run([program, "replay", "chart", "script"], cwd=folder, capture_output=True, text=True, timeout=120)
    linted = subprocess.run([program, "lint", "chart"], cwd=folder, capture_output=True, text=True, timeout=120)
    names, active = unreachable_in(chart, linted.stdout), active_in(chart, done.stdout)
    tally.hold(f"{mode} {seed} unreachable", len(names) <= len(of_code(found, "W101")) and not names & active, names & active)


def hold_damaged(tally: Tally, program: str, folder: str, number: int, pairs: list):
    """Holds a damaged chart of the cases to its check: it is refused as there, or warnings are told."""
    chart, _ = damages.pair(Random(number), pairs)
    Path(folder, "chart").write_bytes(chart)
    ended = [subprocess.run([program, word, "chart"], cwd=folder, capture_output=True, timeout=120) for word in ("check", "lint")]
    is_well = ended[0].returncode == ended[1].returncode and ended[0].stderr == ended[1].stderr
    tally.hold(f"damaged {number}", is_well, ended[1].returncode, ended[1].stderr[:200])


def kinds() -> list:
    """The charts of kinds.txt: whether they have the kind, its code, and the parts."""
    found = []
    for line in (TOP / "tests/lint/kinds.txt").read_text(encoding="utf-8").splitlines():
        word, _, rest = line.partition(" ")
        if word in ("has", "near"):
            found.append((word == "has", rest, {"globals": [], "body": [], "task": [], "program": []}))
        elif word and not word.startswith("#"):
            found[-1][2][word].append(rest)
    return found


def whole(parts: dict) -> str:
    """The chart of these parts, with its signs."""
    task = parts["task"] or ["TASK Main(INTERVAL := T#10ms, PRIORITY := 1); PROGRAM P WITH Main : Mix;"]
    shared = parts["globals"] or ["Go : BOOL; Stop : BOOL; Lamp : BOOL; N : INT;"]
    lines = ["PROGRAM Mix", *parts["body"], "END_PROGRAM", *parts["program"], "CONFIGURATION C RESOURCE R ON Plc VAR_GLOBAL", *shared,
             "END_VAR", *task, "END_RESOURCE END_CONFIGURATION", ""]
    return "\n".join(lines)


def hold_kind(tally: Tally, program: str, folder: str, has: bool, code: str, parts: dict):
    """Holds what is told of a chart of kinds.txt."""
    signed = whole(parts)
    places = []
    for number, line in enumerate(signed.splitlines(), 1):
        signs = [at for at, sign in enumerate(line) if sign == "^"]
        places += [(number, at - passed + 1) for passed, at in enumerate(signs)]
    text = signed.replace("^", "")
    # the name of a step, a transition and so on stands behind its word
    Path(folder, "chart").write_text(text, encoding="utf-8")
    done = subprocess.run([program, "lint", "--deny", code, "chart"], cwd=folder, capture_output=True, text=True, timeout=120)
    told_at = [(int(row), int(column)) for row, column in re.findall(rf"^chart:(\d+):(\d+): warning {code}: ", done.stdout, re.M)]
    rows = text.splitlines()
    told_at = sorted(place_of(rows, row, column) for row, column in told_at)
    tally.hold(f"{code} {'has' if has else 'near'}", told_at == sorted(places) and done.returncode == (1 if has else 0) and not done.stderr,
               text, told_at, places, done.returncode, done.stderr)


def place_of(rows: list, row: int, column: int) -> tuple:
    """A place, where it is a name behind STEP, INITIAL_STEP or TRANSITION that of this word."""
    before = re.search(r"(?<![A-Z_])(INITIAL_STEP|STEP) $", rows[row - 1][:column - 1])
    return row, before.start() + 1 if before else column


def main() -> int:
    """Compares; gives the exit status."""
    program = str(Path(sys.argv[1]).resolve())
    charts, plants, seed = (int(word) for word in [*sys.argv[2:], "300", "60", "1"][:3])
    tally = Tally()
    with tempfile.TemporaryDirectory(prefix="lint-") as folder:
        for number in range(seed, seed + charts):
            hold_chart(tally, program, folder, number)
        for number in range(seed, seed + plants):
            for mode in MODES:
                hold_plant(tally, program, folder, mode, number)
        pairs = corpus.pairs()
        for number in range(seed, seed + 10 * plants):
            hold_damaged(tally, program, folder, number, pairs)
        for has, code, parts in kinds():
            hold_kind(tally, program, folder, has, code, parts)
        for chart in sorted((TOP / "examples").glob("*.chart")):
            done = subprocess.run([program, "lint", "--deny", "all", str(chart)], capture_output=True, text=True, timeout=120)
            tally.hold(chart.name, done.stdout == "no warning\n" and done.returncode == 0, done.stdout)
    print(f"{tally.passed} passed, {tally.failed} failed")
    return 1 if tally.failed else 0


if __name__ == "__main__":
    sys.exit(main())
