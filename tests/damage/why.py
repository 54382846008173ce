"""Asks the program why a chart and a script are refused, and holds what it tells to what it refuses them for and to the texts."""

import re

from trial import Run, Trial, short

MOST_SECONDS = 10.0
MOST_SECONDS_OF_ALL = 30.0  # a hundred readings of a text of half a megabyte
HEADING = re.compile(rb"(chart|script):([1-9][0-9]*):([1-9][0-9]*): (.*?): (.*)\Z")
REFUSED = re.compile(r"refused ([0-9]+ [A-Za-z]+(?: [A-Za-z]+)?)(?: line ([0-9]+))?\Z")
WARNED = re.compile(rb"warning [0-9]+ [A-Za-z]+\Z")
MARK = b"\xef\xbb\xbf"


def refusal(run: Run) -> tuple:
    """The number and name by which a run refuses its text, and the line, if it tells one."""
    text = run.err.decode("latin-1").removesuffix("\n")
    found = REFUSED.match(text)
    if found:
        return found[1], int(found[2]) if found[2] else None
    line = int(text.removeprefix("script line "))
    return text, line


def line_of(text: bytes, number: int) -> bytes:
    """A line of a text, counted from 1, without the bytes EF BB BF at the start of the text."""
    text = text.removeprefix(MARK)
    lines = text.split(b"\n")
    return lines[number - 1] if number <= len(lines) else b""


def without_near(word: bytes) -> bytes:
    """A word as it is told, without what may be meant."""
    return word.rsplit(b"; near: ", 1)[0]


def place_fault(text: bytes, number: int, column: int, word: bytes) -> str:
    """What is wrong with a place: it lies in the text, and there stands the word, or the text or the line ends."""
    if number > text.count(b"\n") + 1:
        return f"line {number} isn't there"
    line = line_of(text, number).decode("utf-8", "surrogateescape")
    if column > len(line) + 1:
        return f"column {column} isn't there"
    if any("\udc80" <= one <= "\udcff" for one in line):  # a byte that only goes on a character is in no column
        return ""
    if word in (b"the text", b"end of the text", b"end of the line") or b"\\x" in word or number == 1 and text.startswith(MARK):
        return ""
    told = word.removesuffix(b"...").decode("utf-8", "surrogateescape")
    return "" if line[column - 1:].startswith(told) else f"{told!r} doesn't stand at {number}:{column}"


class WhyTrial(Trial):
    """A program that is asked why."""

    def fault(self, chart: bytes, script: bytes) -> tuple:
        """What is wrong with what is told of a chart and a script (empty where nothing is), and the answer in short."""
        self.file("chart", chart)
        self.file("script", script)
        check, replay = self.at("check", "chart"), self.at("replay", "chart", "script")
        first, both = self.at("why", "chart"), self.at("why", "chart", "script")
        why = self.told_fault(first, check, {b"chart": chart}) or self.told_fault(both, replay, {b"chart": chart, b"script": script})
        return why, short(replay)

    def at(self, *words: str) -> Run:
        """Runs the program with these words in the folder of its files."""
        import os
        here = os.getcwd()
        os.chdir(self.folder)
        try:
            return self.run(*words)
        finally:
            os.chdir(here)

    def told_fault(self, told: Run, refused: Run, texts: dict) -> str:
        """What is wrong with what is told, where the program refuses the texts so or doesn't."""
        if told.seconds > MOST_SECONDS:
            return f"why takes {told.seconds:.2f} s of the processor"
        if told.err or told.status not in (0, 1) or (told.status == 0) != (refused.status == 0):
            return f"why ends with status {told.status} and {told.err[:200]!r}, where the other ends with {refused.status}"
        if told.status == 0:
            return self.warned_fault(told.out, texts)
        lines = told.out.split(b"\n")
        heading = HEADING.match(lines[0])
        if not heading or heading[1] not in texts:
            return f"why begins with {lines[0][:200]!r}"
        number, column, name = int(heading[2]), int(heading[3]), heading[4].decode("latin-1")
        wanted, line = refusal(refused)
        if name != wanted:
            return f"why tells {name!r}, the other {wanted!r}"
        if line and line != number:
            return f"why tells line {number}, the other {line}"
        if heading[5] == b"the text" and not name.startswith(("1 ", "script line 0")):
            return f"why finds no place of {name}"
        if heading[1] == b"chart" and not name.startswith("1 ") and not any(one.startswith(b"  in: ") for one in lines):
            return f"why tells no element of {name}"
        return place_fault(texts[heading[1]], number, column, without_near(heading[5]))

    def warned_fault(self, out: bytes, texts: dict) -> str:
        """What is wrong with what is told where nothing is refused: warnings of a script, each at its word, and at the end that there is no fault."""
        if not out.endswith(b"no fault\n"):
            return f"why prints {out[:200]!r}"
        for line in out.split(b"\n")[:-2]:
            heading = HEADING.match(line)
            if line.startswith(b" "):
                continue
            if not heading or not WARNED.match(heading[4]) or heading[1] != b"script" or heading[1] not in texts:
                return f"why warns by {line[:200]!r}"
            why = place_fault(texts[b"script"], int(heading[2]), int(heading[3]), without_near(heading[5]))
            if why:
                return why
        return ""


class AllTrial(WhyTrial):
    """A program that is asked for all faults of a chart."""

    def fault(self, chart: bytes, script: bytes) -> tuple:
        """What is wrong with the faults that are told of a chart (empty where nothing is), and how many there are."""
        self.file("chart", chart)
        first, every = self.at("why", "chart"), self.at("why", "--all", "chart")
        if every.seconds > MOST_SECONDS_OF_ALL:
            return f"why --all takes {every.seconds:.2f} s of the processor", "too long"
        if (every.status, every.err) != (first.status, b""):
            return f"why --all ends with status {every.status} and {every.err[:200]!r}", "wrong"
        if not every.out.startswith(first.out):
            return f"why --all begins with {every.out[:200]!r}", "wrong"
        places = [(int(found[2]), int(found[3])) for found in map(HEADING.match, every.out.split(b"\n")) if found]
        return self.places_fault(places), f"{len(places)} faults"

    def places_fault(self, places: list) -> str:
        """What is wrong with the places of the reports: the first one stands anywhere, and the others behind one another."""
        if len(places) > 100:
            return f"why --all tells {len(places)} faults"
        if len(set(places)) != len(places):
            return "why --all tells two faults of one place"
        return "" if places[1:] == sorted(places[1:]) else "why --all tells faults in another order"
