"""What pictures.sh does; its head says what that is."""

import re
import shutil
import subprocess
import sys
import tempfile
import xml.etree.ElementTree as ET
from pathlib import Path

HERE = Path(__file__).resolve().parent
TOP = HERE.parent.parent
EXAMPLES, PICTURES = TOP / "examples", TOP / "docs/pictures"
SVG = "{http://www.w3.org/2000/svg}"
UNITS = {"d": 86_400_000_000, "h": 3_600_000_000, "m": 60_000_000, "s": 1_000_000, "ms": 1_000}


def micros(text: str) -> int:
    """The microseconds of a duration such as T#1s_500ms."""
    sign, parts = re.fullmatch(r"(?i)(?:T|TIME)#(-?)(.*)", text).groups()
    total = 0.0
    for number, unit in re.findall(r"([0-9.]+)(ms|d|h|m|s)", parts.replace("_", "").lower()):
        total += float(number) * UNITS[unit]
    return round(total) * (-1 if sign else 1)


def bits_of(word: str, width: int) -> int:
    """A value of the image as the bits of a vector."""
    if word in ("TRUE", "FALSE"):
        return int(word == "TRUE")
    number = micros(word) if word.upper().startswith("T") else int(word)
    return number % (1 << width)


class Wave:
    """A Value Change Dump: the width of each signal by its whole name, and its changes."""

    def __init__(self, text: str):
        self.widths, self.kinds, self.codes, self.initial = {}, {}, {}, {}
        self.changes = []  # (instant, name, bits)
        scopes, instant, in_dump = [], 0, False
        for line in text.splitlines():
            words = line.split()
            if words[0] == "$scope":
                scopes.append(words[2])
            elif words[0] == "$upscope":
                scopes.pop()
            elif words[0] == "$var":
                name = ".".join([*scopes[1:], words[4]])
                self.codes[words[3]], self.widths[name], self.kinds[name] = name, int(words[2]), words[1]
            elif words[0] == "$dumpvars":
                in_dump = True
            elif words[0] == "$end":
                in_dump = False
            elif line[0] == "#":
                instant = int(line[1:])
            elif line[0] in "01bs":
                name, bits = self.change(line)
                if in_dump:
                    self.initial[name] = bits
                self.changes.append((instant, name, bits))

    def change(self, line: str):
        """The signal and the bits of a line, or its text."""
        if line[0] == "s":
            text, code = line[1:].split()
            return self.codes[code], text
        if line[0] == "b":
            bits, code = line[1:].split()
            return self.codes[code], int(bits, 2)
        return self.codes[line[1:]], int(line[0])

    def at(self, instant: int) -> dict:
        """What each signal reads behind all changes up to an instant."""
        return {name: bits for when, name, bits in self.changes if when <= instant}


def lines_of(script: Path) -> list:
    """The lines of a script that say something."""
    return [line for line in script.read_text().splitlines() if line.strip() and not line.strip().startswith(";")]


class Replay:
    """A script with its output: what each accepted command leaves."""

    def __init__(self, program: str, chart: Path, script: Path):
        self.output = run(program, "replay", chart, script).stdout
        said = lines_of(script)
        self.commands, rest = [], self.output.splitlines()
        for line in said:
            answer = rest.pop(0)
            below = []
            while rest and rest[0].startswith("  "):
                below.append(rest.pop(0).strip())
            self.commands.append((micros(line.split()[0]), answer, below))
        self.image = [line.split() for line in rest]


def run(*words, data=None):
    """The outcome of a command."""
    return subprocess.run([str(it) for it in words], input=data, capture_output=True, text=True, timeout=60)


class Checks:
    """What holds, and what does not."""

    def __init__(self):
        self.passed = self.failed = 0

    def note(self, holds: bool, title: str):
        """Counts one."""
        if holds:
            self.passed += 1
        else:
            self.failed += 1
            print(f"not as it should be: {title}")


def program_line(line: str):
    """An instance's line: its name, the times of its active steps, the transitions that were cleared, the actions that ran."""
    found = re.fullmatch(r"(\w+) \d+ steps (\S+) cleared (\S+) run (\S+)", line)
    if not found:
        return None
    listed = [() if it == "-" else it.split(",") for it in found.groups()[1:]]
    steps = {name: micros(time) for name, time in (it.split("=") for it in listed[0])}
    return found[1], steps, set(listed[1]), set(listed[2])


def wanted_of(answer: str, below: list, wanted: dict, wave: Wave):
    """Takes what a command's lines say into what the signals are to read."""
    words = answer.split()
    if words[1] in ("SCAN", "SINGLE"):
        wanted[f"{words[2]}.overruns"] = int(re.search(r"overruns (\d+)", answer)[1])
        if answer.endswith(" hit"):
            wanted["mode.Running"] = 0
    elif words[1] in ("STOP", "END"):
        wanted["mode.Running"] = 0
    elif words[1] == "GO":
        wanted["mode.Running"] = 1
    elif words[1] in ("INPUT", "FORCE"):
        forced = wanted.get(f"{words[2]}.forced", 0)
        if words[1] == "FORCE" or not forced:
            wanted[words[2]] = bits_of(words[3], wave.widths[words[2]])
        wanted[f"{words[2]}.forced"] = 1 if words[1] == "FORCE" else forced
    elif words[1] == "RELEASE":
        wanted[f"{words[2]}.forced"] = 0
        wanted.pop(words[2], None)
    elif words[1] == "RESET":
        for name in list(wanted):
            if name.startswith(f"{words[2]}."):
                del wanted[name]
    for line in below:
        seen = program_line(line)
        if seen:
            name, steps, _, ran = seen
            of_program = [it[len(name) + 1:] for it in wave.widths if it.startswith(f"{name}.")]
            for it in of_program:
                if it == "steps.active":
                    wanted[f"{name}.{it}"] = ",".join(steps) or "-"
                elif it.endswith(".X"):
                    wanted[f"{name}.{it}"] = int(it[:-2] in steps)
                elif it.endswith(".T") and it[:-2] in steps:
                    wanted[f"{name}.{it}"] = steps[it[:-2]]
                elif it.endswith(".T"):
                    wanted.pop(f"{name}.{it}", None)
                elif it.endswith(".A"):
                    wanted[f"{name}.{it}"] = int(it[:-2] in ran)
                elif not it.endswith((".Q", ".forced")):
                    wanted.pop(f"{name}.{it}", None)
            # a scan may write any variable
            for it in [it for it in wanted if it in wave.widths and "." not in it]:
                wanted.pop(it)


def check_wave(checks: Checks, title: str, program: str, chart: Path, script: Path, raw: bool):
    """Holds a waveform to the lines of the replay."""
    words = ["wave", *(["--raw"] if raw else []), chart, script]
    done = run(program, *words)
    checks.note(done.returncode == 0 and not done.stderr, f"{title}: status {done.returncode}, {done.stderr!r}")
    wave, replay = Wave(done.stdout), Replay(program, chart, script)
    accepted = [(at if raw else micros(answer.split()[0]), answer, below) for at, answer, below in replay.commands
                if not answer.startswith("refused")]
    wanted = {"mode.Running": 1}
    for place, (instant, answer, below) in enumerate(accepted):
        wanted_of(answer, below, wanted, wave)
        behind = accepted[place + 1][0] if place + 1 < len(accepted) else None
        if behind == instant:
            continue
        read = wave.at(instant)
        wrong = {name: (bits, read.get(name)) for name, bits in wanted.items() if read.get(name) != bits}
        checks.note(not wrong, f"{title}: at {instant}, behind {answer!r}: {wrong}")
        pulses = {it.split()[2] for at, it, _ in accepted[: place + 1] if at == instant and it.split()[1] in ("SCAN", "SINGLE")}
        for task in pulses:
            down = wave.at(instant + 1)[f"{task}.scan"] if behind != instant + 1 else 0
            checks.note(read[f"{task}.scan"] == 1 and down == 0, f"{title}: the pulse of {task} at {instant}")
    last = wave.at(1 << 62)
    for words in replay.image:
        bits = bits_of(words[2], wave.widths[words[1]])
        checks.note(last[words[1]] == bits and last[f"{words[1]}.forced"] == int(words[-1] == "forced"), f"{title}: at the end {words}")
    rising = [when for when, _, _ in wave.changes]
    checks.note(rising == sorted(rising), f"{title}: instants rise")
    checks.note(wave.initial.keys() == wave.widths.keys(), f"{title}: each signal has a first value")
    kinds = {name: "string" if name.endswith(".steps.active") else "wire" if width == 1 else "integer" for name, width in wave.widths.items()}
    checks.note(wave.kinds == kinds, f"{title}: kinds {wave.kinds}")
    return done.stdout


def check_chosen(checks: Checks, title: str, program: str, chart: Path, script: Path, folder: Path):
    """Holds chosen signals to the whole waveform, and a save file to the listing and to the names of the waveform."""
    whole, save = Wave(run(program, "wave", chart, script).stdout), folder / "wave.gtkw"
    resource = re.search(r"(?m)^  RESOURCE (\w+) ON", run(program, "list", chart).stdout)[1]
    names = list(whole.widths)
    for name in dict.fromkeys(re.sub(r"\.\w+$", "", it) for it in names[:: max(1, len(names) // 12)]):
        done = run(program, "wave", "--only", name.upper(), chart, script)
        own = [it for it in names if it == name] or [it for it in names if it.startswith(f"{name}.")]
        changes = [it for it in whole.changes if it[1] in own]
        checks.note((done.returncode, done.stderr) == (0, "") and Wave(done.stdout).changes == changes, f"{title}, --only {name}: {done.stderr!r}")
    done = run(program, "wave", "--only", f"{names[0]},No.Such", chart, script)
    checks.note((done.returncode, done.stdout) == (2, "") and done.stderr.endswith(": No.Such\n"), f"{title}, --only of no signal: {done.stderr!r}")
    run(program, "wave", "--gtkw", save, chart, script)
    said = [line for line in save.read_text().splitlines() if line[0] not in "[@"]
    located = re.findall(r"(?m)^ +(\w+) AT %([IQ])\S* : (\w+)", run(program, "list", chart).stdout)
    shown = lambda area: [f"{resource}.{name}" + ("" if kind == "BOOL" else f"[{whole.widths[name] - 1}:0]") for name, where, kind in located
                          if where == area and name in whole.widths]
    steps = [f"{resource}.{it}" for it in names if it.endswith(".steps.active")]
    checks.note(said == [*shown("I"), *steps, *shown("Q")], f"{title}: the save file has {said}")


def level_at(path: str, x: int) -> set:
    """The heights of a line of levels at a pixel."""
    found, here = set(), None
    for letter, first, second in re.findall(r"([MHV])(\d+)(?: (\d+))?", path):
        before = here
        here = (int(first), int(second)) if letter == "M" else (int(first), here[1]) if letter == "H" else (here[0], int(first))
        if before and min(before[0], here[0]) <= x <= max(before[0], here[0]):
            found |= {before[1], here[1]}
    return found


def check_picture(checks: Checks, title: str, program: str, chart: Path, script: Path):
    """Holds the picture of a run to its waveform: at each pixel at which a signal keeps its value for a while, it is drawn so."""
    wave = Wave(run(program, "wave", chart, script).stdout)
    names = [it for it in wave.widths if not it.endswith((".forced", ".scan", ".T", ".overruns")) and wave.kinds[it] != "integer"][:40]
    done = run(program, "wave", "--svg", "--only", ",".join(names), chart, script)
    root = ET.fromstring(done.stdout)
    texts = [it.text for it in root.iter(f"{SVG}text") if it.get("class") == "end"]
    checks.note((done.returncode, done.stderr, texts) == (0, "", names), f"{title}, --svg: rows {texts}")
    bases = {it.text: int(it.get("y")) + 3 for it in root.iter(f"{SVG}text") if it.get("class") == "end"}
    rows, row = [], None
    for node in root:
        if node.get("class") == "end":
            row = []
            rows.append(row)
        elif row is not None:
            row.append(node)
    left = int(next(node for node in root if node.get("class") == "end").get("x")) + 8
    last = max((when for when, _, _ in wave.changes), default=0)
    end = last + max(1, last // 40)
    for name, row in zip(names, rows):
        course = [(when, bits) for when, signal, bits in wave.changes if signal == name]
        for (begin, bits), until in zip(course, [when for when, _ in course[1:]] + [end]):
            first, behind = left + begin * 900 // end, left + until * 900 // end
            if behind - first < 5:
                continue
            middle = (first + behind) // 2
            if wave.kinds[name] == "wire":
                base = bases[name]
                holds = level_at(row[0].get("d"), middle) == {base - 14 * bits}
            else:
                holds = any(int(it.get("x")) == first and it.get("class") == "v" for it in row)
                wide = 7 * len(bits) + 16 <= behind - first
                holds = holds and (not wide or any(it.text == bits and first <= int(it.get("x")) < behind for it in row))
            checks.note(holds, f"{title}, --svg: {name} from {begin} to {until}")


def check_images(checks: Checks, title: str, program: str, chart: Path, script: Path):
    """Holds the variables of a waveform to the image behind each front of the script that ends where time goes on."""
    wave, said = Wave(run(program, "wave", chart, script).stdout), lines_of(script)
    instants = [None if answer.startswith("refused") else micros(answer.split()[0])
                for _, answer, _ in Replay(program, chart, script).commands]
    with tempfile.NamedTemporaryFile("w", suffix=".script") as front:
        for place, instant in enumerate(instants):
            front.write(said[place] + "\n")
            front.flush()
            behind = next((it for it in instants[place + 1:] if it is not None), None)
            if instant is None or behind == instant:
                continue
            read = wave.at(instant)
            for words in Replay(program, chart, Path(front.name)).image:
                wanted = bits_of(words[2], wave.widths[words[1]]), int(words[-1] == "forced")
                checks.note((read[words[1]], read[f"{words[1]}.forced"]) == wanted, f"{title}: behind {said[place]!r}: {words}")


def check_by_tool(checks: Checks, title: str, words: list, text: str):
    """Has another tool take a picture."""
    done = run(*words, data=text)
    checks.note(done.returncode == 0 and not done.stderr, f"{title}: {words[0]}: status {done.returncode}, {done.stderr!r}")


def listed_types(program: str, chart: Path) -> dict:
    """Of each program type its steps, with their associations, and its transitions with their conditions, out of the listing."""
    types, now, step = {}, None, None
    for line in run(program, "list", chart).stdout.splitlines():
        if found := re.fullmatch(r"PROGRAM (\w+)", line):
            now = types.setdefault(found[1], {"steps": [], "transitions": []})
        elif found := re.fullmatch(r"  (INITIAL_STEP|STEP) (\w+):", line):
            step = (found[2], found[1] == "INITIAL_STEP", [])
            now["steps"].append(step)
        elif found := re.fullmatch(r"    (\w+)\((.*)\);", line):
            step[2].append((found[1], found[2].split(", ")))
        elif found := re.fullmatch(r"  TRANSITION (?:(\w+) )?(?:\(PRIORITY := (\d+)\) )?FROM (.*) TO (.*)", line):
            sides = [it.strip("()").split(", ") for it in found.groups()[2:]]
            now["transitions"].append([found[1], found[2], *sides])
        elif found := re.fullmatch(r"    := (.*);", line):
            now["transitions"][-1].append(found[1])
    return types


def unescaped(text: str) -> str:
    """A text of a label without entities."""
    for entity, mark in (("&lt;", "<"), ("&gt;", ">"), ("&quot;", '"'), ("&amp;", "&")):
        text = text.replace(entity, mark)
    return text


class Drawn:
    """One drawing of a picture: nodes by their names, and edges."""

    def __init__(self, text: str):
        self.title = re.search(r'label="(.*)"', text)[1]
        self.nodes = dict(re.findall(r"(?m)^    (c\d+[stjf]\d+) (\[.*\])$", text))
        edges = re.findall(r"(?m)^    (c\d+[stjf]\d+)[:\w]* -> (c\d+[stjf]\d+)[:\w]*", text)
        self.edges = {tuple(re.sub(r"^c\d+", "", it) for it in pair) for pair in edges}
        self.nodes = {re.sub(r"^c\d+", "", name): label for name, label in self.nodes.items()}


def wanted_edges(of_type: dict) -> set:
    """The edges of a chart: by way of a double line where a side has several steps."""
    place = {name: f"s{number}" for number, (name, _, _) in enumerate(of_type["steps"])}
    edges = set()
    for number, (_, _, before, behind, _) in enumerate(of_type["transitions"]):
        first = f"j{number}" if len(before) > 1 else f"t{number}"
        last = f"f{number}" if len(behind) > 1 else f"t{number}"
        edges |= {(place[it], first) for it in before} | {(last, place[it]) for it in behind}
        edges |= {(first, f"t{number}")} if len(before) > 1 else set()
        edges |= {(f"t{number}", last)} if len(behind) > 1 else set()
    return edges


def block_of(label: str) -> list:
    """The lines of the action block in a step's label."""
    rows = re.findall(r"<tr><td>([^<]*)</td><td align=\"left\">(\w+)</td>((?:<td align=\"left\">\w+</td>)*)</tr>", label)
    return [(name, [*letters.split(" "), *re.findall(r">(\w+)<", more)]) for letters, name, more in rows]


def check_drawing(checks: Checks, title: str, drawn: Drawn, of_type: dict):
    """Holds a drawing to the listing."""
    checks.note(drawn.edges == wanted_edges(of_type), f"{title}: edges {drawn.edges ^ wanted_edges(of_type)}")
    for number, (name, is_initial, associations) in enumerate(of_type["steps"]):
        label = drawn.nodes[f"s{number}"]
        checks.note(re.search(rf"<td[^>]*>{name}(<br/>[^<]*)?</td>", label) is not None, f"{title}: the name of {name}")
        checks.note(('<table border="1"' in label) == is_initial, f"{title}: the border of {name}")
        checks.note(block_of(label) == associations, f"{title}: the block of {name}: {block_of(label)}, {associations}")
    for number, (name, priority, _, _, condition) in enumerate(of_type["transitions"]):
        label = drawn.nodes[f"t{number}"]
        head = f"{number + 1}" + (f" {name}" if name else "") + (f" (PRIORITY := {priority})" if priority else "")
        shown = unescaped(re.search(r'<td align="left" cellpadding="4">([^\n]*?)</td></tr></table>> tooltip=', label)[1])
        cut = condition if len(condition) <= 40 else condition[:40] + " .."
        checks.note(shown == f"{head}: {cut}", f"{title}: transition {shown!r}")
        checks.note(unescaped(re.search(r'tooltip="(.*)"\]', label)[1]) == condition, f"{title}: the tooltip of {head}")
    count = len(of_type["steps"]) + len(of_type["transitions"]) + sum(len(side) > 1 for it in of_type["transitions"] for side in it[2:4])
    checks.note(len(drawn.nodes) == count, f"{title}: {len(drawn.nodes)} nodes, {count} wanted")


def drawings_of(text: str) -> list:
    """The drawings of a picture."""
    return [Drawn(it) for it in text.split("  subgraph cluster_")[1:]]


def check_types(checks: Checks, title: str, program: str, chart: Path):
    """Holds the picture of a chart to its listing, whole and by each program type."""
    done, types = run(program, "draw", "--dot", chart), listed_types(program, chart)
    checks.note(done.returncode == 0 and not done.stderr, f"{title}: status {done.returncode}")
    drawings = drawings_of(done.stdout)
    checks.note([it.title for it in drawings] == list(types), f"{title}: titles")
    for drawn in drawings:
        check_drawing(checks, f"{title}, {drawn.title}", drawn, types[drawn.title])
        alone = drawings_of(run(program, "draw", "--dot", "--program", drawn.title.upper(), chart).stdout)
        checks.note([it.nodes for it in alone] == [drawn.nodes], f"{title}: {drawn.title} alone")
    checks.note(run(program, "draw", "--dot", "--program", "no_such", chart).returncode == 2, f"{title}: no such type")
    return done.stdout


def check_after(checks: Checks, title: str, program: str, chart: Path, script: Path):
    """Holds the picture behind a script to the last line of each instance."""
    done, types = run(program, "draw", "--dot", "--after", script, chart), listed_types(program, chart)
    checks.note(done.returncode == 0 and not done.stderr, f"{title}: status {done.returncode}")
    last, resets = {}, set()
    for _, answer, below in Replay(program, chart, script).commands:
        words = answer.split()
        if words[1] == "RESET" and words[0] != "refused":
            last.pop(words[2], None)
            resets.add(words[2])
        for line in below:
            if seen := program_line(line):
                last[seen[0]] = seen
    for drawn in drawings_of(done.stdout):
        name, program_type = re.match(r"(\w+) : (\w+), scans", drawn.title).groups()
        of_type = types[program_type]
        check_drawing(checks, f"{title}, {name}", drawn, of_type)
        _, steps, cleared, _ = last.get(name, (name, {}, set(), set()))
        for number, (step, _, _) in enumerate(of_type["steps"]):
            label = drawn.nodes[f"s{number}"]
            time = re.search(r"<br/>(T#[^<]*)<", label)
            checks.note(("#ffe082" in label) == (step in steps), f"{title}: {name}, {step} is filled where it is active")
            checks.note((micros(time[1]) if time else None) == steps.get(step), f"{title}: {name}, the time of {step}")
        for number in range(len(of_type["transitions"])):
            label = drawn.nodes[f"t{number}"]
            checks.note(("#c62828" in label) == (str(number + 1) in cleared), f"{title}: {name}, transition {number + 1}")
    return done.stdout


def check_tools(checks: Checks, title: str, wave: str, drawings: list, folder: Path):
    """Has the tools that are installed take the pictures."""
    if shutil.which("vcd2fst"):
        (folder / "wave.vcd").write_text(wave)
        done = run("vcd2fst", folder / "wave.vcd", folder / "wave.fst")
        checks.note(done.returncode == 0 and (folder / "wave.fst").stat().st_size > 0, f"{title}: vcd2fst: {done.stderr!r}")
    if shutil.which("gtkwave") and shutil.which("xvfb-run"):
        done = run("xvfb-run", "-a", "gtkwave", "--exit", folder / "wave.vcd", folder / "wave.gtkw")
        checks.note(done.returncode == 0 and "error" not in done.stderr.lower(), f"{title}: gtkwave: {done.stderr!r}")
    if shutil.which("dot"):
        for text in drawings:
            check_by_tool(checks, title, ["dot", "-Tsvg"], text)


def check_case(checks: Checks, program: str, file: Path):
    """Holds the output of a command to a text that was worked out by hand: the first line of the file has the words."""
    head, wanted = file.read_text().split("\n", 1)
    words = [str(file.parent / it) if it.endswith((".chart", ".script")) else it for it in head.split()]
    done = run(program, *words)
    checks.note((done.returncode, done.stdout, done.stderr) == (0, wanted, ""), f"{file.name}: {done.stdout!r} {done.stderr!r}")


def shown_pictures(program: str) -> dict:
    """The pictures of docs/pictures, as the commands of its page make them."""
    page = (PICTURES / "README.md").read_text()
    commands = re.findall(r"(?m)^\| \[([\w./]+)\]\([\w./]+\) \| `([^`]+)` \|$", page)
    made = {}
    for name, words in commands:
        done = subprocess.run([program, *words.split()], cwd=TOP, capture_output=True, text=True, timeout=60, check=False)
        made[name] = done.stdout if (done.returncode, done.stderr) == (0, "") else f"status {done.returncode}, {done.stderr!r}"
    return made


def make_pictures(program: str):
    """Makes the pictures of docs/pictures anew."""
    for name, text in shown_pictures(program).items():
        (PICTURES / name).write_text(text)


def check_pictures(checks: Checks, program: str):
    """Holds the pictures of docs/pictures to their commands; there is no other."""
    made = shown_pictures(program)
    there = {str(it.relative_to(PICTURES)) for it in PICTURES.rglob("*") if it.suffix in (".svg", ".html")}
    checks.note(made.keys() == there, f"docs/pictures: {sorted(made.keys() ^ there)}")
    for name, text in made.items():
        checks.note((PICTURES / name).read_text() == text, f"docs/pictures/{name} isn't what its command makes: {text[:100]!r}")


def main() -> int:
    """Runs all; gives the exit status."""
    checks, program = Checks(), sys.argv[1]
    if sys.argv[2:] == ["make"]:
        make_pictures(program)
        return 0
    check_pictures(checks, program)
    for tool, package in (("vcd2fst", "gtkwave"), ("xvfb-run", "xvfb"), ("dot", "graphviz")):
        if not shutil.which(tool):
            print(f"skipped: {tool} isn't installed ({package})")
    with tempfile.TemporaryDirectory(prefix="pictures-") as folder:
        for chart in sorted([*EXAMPLES.glob("*.chart"), *HERE.glob("*.chart")]):
            script, title = chart.with_suffix(".script"), chart.stem
            wave = check_wave(checks, f"{title}, wave", program, chart, script, False)
            run(program, "wave", "--gtkw", Path(folder) / "wave.gtkw", chart, script)
            check_wave(checks, f"{title}, wave --raw", program, chart, script, True)
            check_images(checks, f"{title}, variables", program, chart, script)
            check_chosen(checks, f"{title}, wave", program, chart, script, Path(folder))
            check_picture(checks, f"{title}, wave", program, chart, script)
            drawings = [check_types(checks, f"{title}, draw", program, chart),
                        check_after(checks, f"{title}, draw --after", program, chart, script)]
            check_tools(checks, title, wave, drawings, Path(folder))
    for file in sorted(HERE.glob("*.expect")):
        check_case(checks, program, file)
    print(f"{checks.passed} passed, {checks.failed} failed")
    return 1 if checks.failed else 0


if __name__ == "__main__":
    sys.exit(main())
