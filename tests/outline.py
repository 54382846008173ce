#!/usr/bin/env python3
"""outline.py PROGRAM [COUNT] [SEED]: holds the outlines that PROGRAM prints (crates/outlines) to a search of its own: for the charts of the
examples, of the pages and of the cases, and for those of COUNT random plants of each mode of tests/reading from SEED on; 20 and 1 where
nothing is said. What is declared must have the same bytes, and each name that is used must lead to the same declaration. The search
knows words and signs, and which words open and close what; it shares nothing with the program or with the second reading.

What differs is shown; the last line is 'N passed, M failed'."""

import re
import subprocess
import sys
from pathlib import Path

TOP = Path(__file__).resolve().parent.parent
sys.path[:0] = [str(TOP / "tests/damage"), str(TOP / "tests/reading")]

import corpus  # noqa: E402
from modes import MODES  # noqa: E402

RESERVED = set("""ACTION AND AT BOOL CONFIGURATION DINT ELSE ELSIF END_ACTION END_CONFIGURATION END_IF END_PROGRAM END_RESOURCE END_STEP
    END_TRANSITION END_VAR FALSE FROM IF INITIAL_STEP INT MOD NOT ON OR PROGRAM RESOURCE STEP TASK THEN TIME TO TRANSITION TRUE VAR
    VAR_EXTERNAL VAR_GLOBAL WITH XOR""".split())
PIECE = re.compile(rb"""\(\*.*?\*\)|\{.*?\}|[ \t\r\n]+|(?P<literal>[A-Za-z]+\#[-A-Za-z0-9_.\#]*|[0-9][A-Za-z0-9_\#]*|%[A-Za-z0-9_.]+)
    |(?P<word>[A-Za-z_][A-Za-z0-9_]*)|(?P<sign>:=|<=|>=|<>|[:;,().+\-*/&<>=])""", re.DOTALL | re.VERBOSE)
QUALIFIERS, TIMED = set("N R S P P0 P1".split()), set("L D SD DS SL".split())


class Piece:
    """A word, a sign or a literal: what it says, in capitals, and its bytes."""

    def __init__(self, said: str, begin: int, end: int, kind: str):
        self.said, self.begin, self.end = said, begin, end
        self.is_name = kind == "word" and said not in RESERVED


def pieces_of(text: bytes) -> list:
    """The pieces of a text."""
    at, found = 3 if text.startswith(b"\xef\xbb\xbf") else 0, []
    while at < len(text):
        match = PIECE.match(text, at)
        if match.lastgroup:
            found.append(Piece(match[0].decode().upper(), match.start(), match.end(), match.lastgroup))
        at = match.end()
    return found


def until(pieces: list, begin: int, word: str) -> int:
    """Where the first such word or sign stands from here on."""
    return next(i for i in range(begin, len(pieces)) if pieces[i].said == word)


def split(pieces: list) -> list:
    """The lists of pieces that end with a semicolon each, which they keep."""
    lists, front = [], []
    for piece in pieces:
        front.append(piece)
        if piece.said == ";":
            lists.append(front)
            front = []
    return lists


def between(pieces: list, opening: str, closing: str) -> list:
    """The lists of pieces from each opening word up to the next closing one, both among them."""
    return [pieces[i:until(pieces, i, closing) + 1] for i, it in enumerate(pieces) if it.said == opening]


class Search:
    """What a text declares and uses, as lines in the program's form."""

    def __init__(self, text: bytes):
        self.pieces = pieces_of(text)
        self.entries, self.uses = [], []
        said = [it.said for it in self.pieces]
        begin, end = said.index("CONFIGURATION"), said.index("END_CONFIGURATION")
        self.configuration = self.pieces[begin:end + 1]
        ends = [(i, until(self.pieces, i, "END_PROGRAM")) for i, word in enumerate(said) if word == "PROGRAM" and not begin < i < end]
        self.programs = [self.pieces[i:j + 1] for i, j in ends]
        self.globals, self.tasks, self.types = {}, {}, {}
        self.name_shared()
        for number, program in enumerate(self.programs):
            if program[0].begin > self.configuration[0].begin and number == sum(it[0].begin < self.configuration[0].begin for it in self.programs):
                self.search_configuration()
            self.search_program(number, program)
        if all(it[0].begin < self.configuration[0].begin for it in self.programs):
            self.search_configuration()

    def lines(self) -> list:
        """What the program is to print."""
        return self.entries + self.uses

    def declare(self, item: str, pieces: list, name=None, without_last=False):
        """Something that is declared, with its pieces."""
        last = pieces[-2] if without_last else pieces[-1]
        shown = f" {name.begin}-{name.end}" if name else ""
        self.entries.append(f"{item} {pieces[0].begin}-{last.end}{shown}")

    def use(self, name: Piece, *spaces: dict):
        """A name that is used, and the first of the spaces that has it."""
        for space in spaces:
            if name.said in space:
                self.uses.append(f"at {name.begin}-{name.end} {space[name.said]}")
                return
        self.uses.append(f"at {name.begin}-{name.end} nothing")

    @staticmethod
    def put(space: dict, name: Piece, item: str):
        """The first of equal names is the one that is meant."""
        space.setdefault(name.said, f"{item} {name.begin}-{name.end}")

    @staticmethod
    def names_before_colon(pieces: list) -> list:
        """The names that a declaration declares."""
        return [it for it in pieces[:until(pieces, 0, ":")] if it.is_name]

    def declarations(self, blocks: list) -> list:
        """Pairs of a name and the pieces of its declaration."""
        return [(name, line) for block in blocks for line in split(block[1:-1]) for name in self.names_before_colon(line)]

    def global_declarations(self) -> list:
        """Those of the configuration."""
        return self.declarations(between(self.configuration, "VAR_GLOBAL", "END_VAR"))

    def resource_lines(self, word: str) -> list:
        """The tasks or the instances."""
        begin = until(self.configuration, 0, "RESOURCE")
        lines = split(self.configuration[begin:])
        found = []
        for line in lines:
            while line and line[0].said not in ("TASK", "PROGRAM"):
                line = line[1:]
            if line and line[0].said == word:
                found.append(line)
        return found

    def name_shared(self):
        """The names that all share."""
        for number, (name, _) in enumerate(self.global_declarations()):
            self.put(self.globals, name, f"Global {{ global: {number} }}")
        for number, line in enumerate(self.resource_lines("TASK")):
            self.put(self.tasks, line[1], f"Task {{ task: {number} }}")
        for number, program in enumerate(self.programs):
            self.put(self.types, program[1], f"ProgramType {{ program: {number} }}")

    def search_configuration(self):
        """The configuration."""
        self.declare("Configuration", self.configuration, self.configuration[1])
        for number, (name, line) in enumerate(self.global_declarations()):
            self.declare(f"Global {{ global: {number} }}", line, name)
        for number, line in enumerate(self.resource_lines("TASK")):
            self.declare(f"Task {{ task: {number} }}", line, line[1])
            for i, piece in enumerate(line):
                if piece.said == "SINGLE" and i > 1 and line[i + 1].said == ":=":
                    self.use(line[i + 2], self.globals)
                    break
        for number, line in enumerate(self.resource_lines("PROGRAM")):
            self.declare(f"Instance {{ instance: {number} }}", line, line[1])
            if line[2].said == "WITH":
                self.use(line[3], self.tasks)
            self.use(line[until(line, 0, ":") + 1], self.types)

    def search_program(self, number: int, program: list):
        """A program type."""
        self.number, self.counts = number, dict.fromkeys(("step", "association", "transition", "action", "local", "external"), 0)
        self.locals, self.steps, self.actions = {}, {}, {}
        for place, (name, _) in enumerate(self.declarations(between(program, "VAR", "END_VAR"))):
            self.put(self.locals, name, self.item("Local", local=place))
        elements = self.elements(program)
        for word, space, kind in (("STEP", self.steps, "Step"), ("ACTION", self.actions, "Action")):
            for place, element in enumerate(it for it in elements if it[0].said in (word, f"INITIAL_{word}")):
                self.put(space, element[1], self.item(kind, **{kind.lower(): place}))
        self.declare(f"ProgramType {{ program: {number} }}", program, program[1])
        self.search_variables(program)
        for element in elements:
            search = {"T": self.search_transition, "A": self.search_action}.get(element[0].said[0], self.search_step)
            search(element)

    def item(self, kind: str, **places: int) -> str:
        """Something of this program type."""
        return f"{kind} {{ program: {self.number}, " + ", ".join(f"{word}: {place}" for word, place in places.items()) + " }"

    def count(self, kind: str) -> int:
        """The next number of a kind."""
        self.counts[kind] += 1
        return self.counts[kind] - 1

    @staticmethod
    def elements(program: list) -> list:
        """The steps, transitions and actions in text order."""
        ends = {"STEP": "END_STEP", "INITIAL_STEP": "END_STEP", "TRANSITION": "END_TRANSITION", "ACTION": "END_ACTION"}
        return [program[i:until(program, i, ends[it.said]) + 1] for i, it in enumerate(program) if it.said in ends]

    def search_variables(self, program: list):
        """Blocks of variables, in text order."""
        for i, piece in enumerate(program):
            if piece.said == "VAR":
                for name, line in self.declarations([program[i:until(program, i, "END_VAR") + 1]]):
                    self.declare(self.item("Local", local=self.count("local")), line, name)
            elif piece.said == "VAR_EXTERNAL":
                for name, _ in self.declarations([program[i:until(program, i, "END_VAR") + 1]]):
                    self.declare(self.item("External", external=self.count("external")), [name], name)
                    self.use(name, self.globals)

    def search_step(self, step: list):
        """A step with its associations."""
        self.declare(self.item("Step", step=self.count("step")), step, step[1])
        for line in split(step[3:-1]):
            self.declare(self.item("Association", association=self.count("association")), line)
            self.use(line[0], self.actions, self.locals, self.globals)
            inside = [it.said for it in line[2:3]]
            names = line[3:] if inside and inside[0] in QUALIFIERS | TIMED else line[2:]
            for name in (it for it in names if it.is_name):
                self.use(name, self.locals, self.globals)

    def search_transition(self, transition: list):
        """A transition with its sides and its condition."""
        place = self.count("transition")
        begin, end = until(transition, 0, "FROM"), until(transition, 0, "TO")
        name = transition[1] if transition[1].is_name else None
        self.declare(self.item("Transition", transition=place), transition, name)
        behind = until(transition, end, ":=")
        for kind, side in (("Preceding", transition[begin:end]), ("Following", transition[end:behind])):
            names = [it for it in side if it.is_name]
            self.declare(self.item(kind, transition=place), names)
            for step in names:
                self.use(step, self.steps)
        condition = transition[behind + 1:until(transition, behind, ";")]
        self.declare(self.item("Condition", transition=place), condition)
        self.search_names(condition)

    def search_names(self, pieces: list):
        """The names in an expression."""
        for before, piece, behind, part in zip([None, *pieces], pieces, [*pieces[1:], None], [*pieces[2:], None, None]):
            if not piece.is_name or before and before.said == ".":
                continue
            if not behind or behind.said != ".":
                self.use(piece, self.locals, self.globals)
            else:
                self.use(piece, self.actions if part.said == "Q" else self.steps)

    def search_action(self, action: list):
        """An action with its statements."""
        place, statement = self.count("action"), 0
        self.declare(self.item("Action", action=place), action, action[1])
        body, i = action[3:-1], 0
        while i < len(body):
            said = body[i].said
            if said == "IF":
                end = self.end_of_if(body, i)
                self.declare(self.item("Statement", action=place, statement=statement), body[i:end + 1])
                statement += 1
            if said in ("IF", "ELSIF"):
                then = until(body, i, "THEN")
                self.search_names(body[i + 1:then])
                i = then
            elif body[i].is_name:
                end = until(body, i, ";")
                self.declare(self.item("Statement", action=place, statement=statement), body[i:end])
                statement += 1
                self.search_names(body[i:end])
                i = end
            i += 1

    @staticmethod
    def end_of_if(body: list, begin: int) -> int:
        """Where the END_IF of this IF stands."""
        depth = 0
        for i in range(begin, len(body)):
            depth += (body[i].said == "IF") - (body[i].said == "END_IF")
            if depth == 0:
                return i
        raise ValueError("an IF without its END_IF")


def charts(count: int, seed: int):
    """Titles and charts, and whether each name in the chart is sure to mean something."""
    for number, (chart, _) in enumerate(corpus.pairs()):
        yield f"chart {number} of the corpus", chart, False
    for mode, plant in MODES.items():
        for number in range(seed, seed + count):
            yield f"plant {number} of mode {mode}", plant(number)[0].encode(), True


def main() -> int:
    """Compares; gives the exit status."""
    program = str(Path(sys.argv[1]).resolve())
    count, seed = (int(it) for it in (sys.argv[2:] + ["20", "1"][len(sys.argv) - 2:])[:2])
    passed = failed = refused = 0
    for title, chart, is_whole in charts(count, seed):
        done = subprocess.run([program], input=chart, capture_output=True, timeout=20)
        if done.returncode and not is_whole:
            refused += 1
            continue
        wanted, found = Search(chart).lines(), done.stdout.decode().splitlines()
        if wanted == found and not (is_whole and any(line.endswith(" nothing") for line in wanted)):
            passed += 1
            continue
        failed += 1
        print(f"not as it should be: {title}")
        for line in sorted(set(wanted) ^ set(found))[:6]:
            print(f"  {'missing' if line in wanted else 'too much'}: {line}")
    print(f"{refused} refused")
    print(f"{passed} passed, {failed} failed")
    return 1 if failed else 0


if __name__ == "__main__":
    sys.exit(main())
