#!/usr/bin/env python3
"""Runs files of cases through the reading: `cases.py FOLDER`. Their form is told in crates/conformance/README.md.

It plays charts, scripts, tests and refusals. Listings are passed over, since the reading writes none, and so are sessions by hand, what `why`
tells, and what scripts reach together. A case that doesn't end as it is to is shown; the last line is `N passed, M failed`.
"""

import re
import sys
from pathlib import Path

from reading import Ended, plant_of, replayed
from testing import FaultyLine, tested, without_details

TEXTS = ("chart", "globals", "body", "task", "script", "second", "output")
TASK = b"TASK Main(INTERVAL := T#10ms, PRIORITY := 1); PROGRAM P WITH Main : Mix;"
LINE = re.compile(r"([a-z]+)(?:\*([0-9]+)|(<))?(?: (.*))?\Z", re.DOTALL)
ESCAPE = re.compile(r"\\(?:([nrt])|x([0-9a-f]{2})|(#)|(\Z))")
SIMPLE = {"n": "\n", "r": "\r", "t": "\t"}


def unescaped(text: str, number: int) -> str:
    """The text of a line with its marks put in; without one at its end it has a line end."""
    def meant(mark):
        if mark[1]:
            return SIMPLE[mark[1]]
        return chr(int(mark[2], 16)) if mark[2] else str(number) if mark[3] else ""
    return ESCAPE.sub(meant, text) + ("" if text.endswith("\\") else "\n")


def repeated(text: str, count: int) -> str:
    """So many lines of one text; each has its number where the text asks for it."""
    if r"\#" not in text:
        return unescaped(text, 0) * count
    return "".join(unescaped(text, number) for number in range(count))


class Case:
    """A case: its title, what it says by word, and its texts."""

    def __init__(self, title: str, group=None):
        self.title = title
        self.words = dict(group.words) if group else {"command": "replay", "status": "0", "stderr": "", "min": "0"}
        self.texts = {word: list(lines) for word, lines in group.texts.items()} if group else {word: [] for word in TEXTS}

    def add(self, line: str, folder: Path):
        """Takes in a line of the file."""
        word, count, file, text = LINE.match(line).groups()
        if word in self.words:
            self.words[word] = text or ""
        elif file:
            self.texts[word].append((folder / text).read_bytes())
        else:
            self.texts[word].append(repeated(text or "", int(count or 1)).encode("latin-1"))

    def text(self, word: str) -> bytes:
        """All of a text."""
        return b"".join(self.texts[word])

    def chart(self) -> bytes:
        """The chart, made of its parts where they alone are given."""
        if self.texts["chart"]:
            return self.text("chart")
        return (b"PROGRAM Mix\n" + self.text("body") + b"END_PROGRAM CONFIGURATION C RESOURCE R ON Plc VAR_GLOBAL\n"
                + self.text("globals") + b"END_VAR\n" + (self.text("task") or TASK) + b"\nEND_RESOURCE END_CONFIGURATION\n")


def cases_of(path: Path) -> list:
    """The cases of a file of many."""
    found, group, title = [], None, ""
    for line in path.read_text("latin-1").split("\n"):
        word, _, text = line.partition(" ")
        if not line or line.startswith("#"):
            continue
        if word == "group":
            title, group = text, Case(text)
            holder = group
        elif word == "case":
            holder = Case(f"{title}: {text}" if group else text, group)
            found.append(holder)
        else:
            holder.add(line, path.parent)
    return found


def case_of(path: Path) -> Case:
    """The case of a file of one, with the files beside it."""
    found = Case(path.stem)
    for line in path.read_text("latin-1").splitlines():
        found.add(line, path.parent)
    for word, ending in (("chart", ".chart"), ("script", ".script"), ("output", ".expect")):
        if path.with_suffix(ending).exists():
            found.texts[word].append(path.with_suffix(ending).read_bytes())
    return found


def is_played(case: Case) -> bool:
    """Whether the reading answers the case: a replay or a check, or a listing that is refused (`tests/cover.sh` has what scripts reach)."""
    return case.words["command"] in ("replay", "check", "test") or case.words["command"] == "list" and case.words["stderr"] != ""


def answered(case: Case) -> str:
    """What the reading prints for a case, or the text with which it ends."""
    try:
        if case.words["command"] == "replay":
            return replayed(case.chart(), case.text("script"))
        plant = plant_of(case.chart())
        if case.words["command"] == "test":
            return "".join(line + "\n" for line in tested(plant, case.text("script"), "script"))
        return "ok\n"
    except FaultyLine as line:
        return f"ended: script: script line {line}\n"
    except Ended as ended:
        return f"ended: {ended.args[0]}\n"


def differs(case: Case) -> str:
    """How the reading ends where that isn't as it is to be; else an empty text."""
    got, refused = answered(case), case.words["stderr"]
    wanted = f"ended: {refused}\n" if refused else case.text("output").decode("latin-1")
    if case.words["command"] == "test":
        wanted = without_details(wanted)
    return "" if got == wanted else f"wanted\n{wanted}got\n{got}"


def main() -> int:
    """Runs all cases of a folder."""
    folder, passed, failed, over = Path(sys.argv[1]), 0, 0, 0
    for path in sorted(folder.iterdir()):
        found = cases_of(path) if path.suffix == ".cases" else [case_of(path)] if path.suffix == ".case" else []
        for case in found:
            if not is_played(case):
                over += 1
                continue
            why = differs(case)
            passed, failed = passed + (not why), failed + bool(why)
            if why:
                print(f"differs {case.title}\n{why}")
    print(f"{over} passed over")
    print(f"{passed} passed, {failed} failed")
    return 1 if failed else 0


if __name__ == "__main__":
    sys.exit(main())
