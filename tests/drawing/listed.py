"""What `sfcmon list`, `sfcmon replay` and `sfcmon cover` say of a chart, as far as it is drawn."""

import re
from dataclasses import dataclass, field

ROW = re.compile(r"    (\w+)\((.*)\);")
TRANSITION = re.compile(r"  TRANSITION (?:(\w+) )?(?:\(PRIORITY := (\d+)\) )?FROM (.*) TO (.*)")
RAN = re.compile(r"  (\w+) (\d+) steps (\S+) cleared (\S+) run (\S+)")


TIMED = ("L", "D", "SD", "DS", "SL")


@dataclass
class Association:
    """An association as it is listed."""

    action: str
    qualifier: str
    time: str
    indicators: list

    def title(self) -> str:
        """Qualifier, time, action, indicators."""
        head = " ".join(it for it in (self.qualifier, self.time, self.action) if it)
        return f"{head} with {', '.join(self.indicators)}" if self.indicators else head


@dataclass
class Transition:
    """A transition as it is listed."""

    name: str
    priority: str
    before: list
    behind: list
    condition: str = ""


@dataclass
class Type:
    """A program type as it is listed: its variables, its steps with their associations, its transitions, the bodies of its actions."""

    variables: set = field(default_factory=set)
    initial: set = field(default_factory=set)
    steps: dict = field(default_factory=dict)
    transitions: list = field(default_factory=list)
    bodies: dict = field(default_factory=dict)

    def rank(self, number: int) -> tuple:
        """The smaller wins (2.6.5): a priority that is given before one that isn't, then the order of the text."""
        priority = self.transitions[number].priority
        return (0, int(priority), number) if priority else (1, 0, number)

    def links(self) -> list:
        """The links of the chart by the two nodes that each joins."""
        found = []
        for number, transition in enumerate(self.transitions, 1):
            found += [(f"step {it}", f"transition {number}") for it in transition.before]
            found += [(f"transition {number}", f"step {it}") for it in transition.behind]
        return found


def fields_of(words: list) -> tuple:
    """The qualifier, the time, where it has one, and the indicators of an association."""
    has_time = words[0] in TIMED
    return words[0], words[1] if has_time else "", words[2 if has_time else 1:]


def names_of(side: str) -> list:
    """The names of a side."""
    return side.strip("()").split(", ")


def types_of(listing: str) -> dict:
    """The program types of a listing, by name."""
    types, now, step, action = {}, None, None, None
    for line in listing.splitlines():
        if found := re.fullmatch(r"PROGRAM (\w+)", line):
            now = types.setdefault(found[1], Type())
        elif line == "END_PROGRAM":
            now = None
        elif now is None:
            continue
        elif action and line != "  END_ACTION":
            now.bodies[action].append(line)
        elif line == "  END_ACTION":
            action = None
        elif found := re.fullmatch(r"    (\w+)(?: AT %[IQM]\w+(?:\.\d)?)? : \w+ := .*;", line):
            now.variables |= {found[1]}
        elif found := re.fullmatch(r"  (INITIAL_STEP|STEP) (\w+):", line):
            step = found[2]
            now.steps[step] = []
            now.initial |= {step} if found[1] == "INITIAL_STEP" else set()
        elif found := ROW.fullmatch(line):
            now.steps[step].append(Association(found[1], *fields_of(found[2].split(", "))))
        elif found := TRANSITION.fullmatch(line):
            now.transitions.append(Transition(found[1], found[2], names_of(found[3]), names_of(found[4])))
        elif found := re.fullmatch(r"  ACTION (\w+):", line):
            action = found[1]
            now.bodies[action] = []
        elif found := re.fullmatch(r"    := (.*);", line):
            now.transitions[-1].condition = found[1]
    return types


def instances_of(listing: str) -> dict:
    """The type of each program instance, by its name."""
    return dict(re.findall(r"^    PROGRAM (\w+) WITH \w+ : (\w+);", listing, re.MULTILINE)) | dict(
        re.findall(r"^    PROGRAM (\w+) : (\w+);", listing, re.MULTILINE))


@dataclass
class Standing:
    """How an instance stands behind a script, by the lines of its replay: the latest scan of its life, its fault, what is forced."""

    scans: int = 0
    steps: dict = field(default_factory=dict)
    cleared: set = field(default_factory=set)
    ran: set = field(default_factory=set)
    fault: str = None


def standings_of(output: str) -> tuple:
    """How each instance stands that a replay's output tells of, and which variables are forced."""
    found, forced = {}, set()
    for line in output.splitlines():
        words = line.split()
        if seen := RAN.fullmatch(line):
            listed = [[] if it == "-" else it.split(",") for it in seen.groups()[2:]]
            found[seen[1]] = Standing(int(seen[2]), dict(it.split("=") for it in listed[0]), set(listed[1]), set(listed[2]))
        elif line.startswith("  ") and words[1] == "fault":
            found.setdefault(words[0], Standing()).fault = words[2]
        elif line.startswith("T#") and words[1] == "RESET":
            found.pop(words[2], None)
        elif words and words[0] == "image" and words[-1] == "forced":
            forced.add(words[1])
    return found, forced


def missed_in(report: str) -> dict:
    """What a report of coverage names as never reached, by instance: steps, transitions and actions."""
    found, now = {}, None
    for line in report.splitlines():
        if head := re.match(r"(program|type) (\w+) ", line):
            now = found.setdefault(head[2], set()) if head[1] == "program" else set()
        elif miss := re.fullmatch(r"  (step|transition|action) (\w+)(?: \w+)? never .*", line):
            now.add((miss[1], miss[2]))
    return found
