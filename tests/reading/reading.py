#!/usr/bin/env python3
"""A second reading of the rules: `reading.py check CHART` and `reading.py replay CHART SCRIPT`, as sfcmon has them."""

import sys

from grammar import read
from lexer import Refused
from loading import load
from playing import Replay
from scripts import FaultyLine, commands

sys.setrecursionlimit(10_000)


class Ended(Exception):
    """The end of a run before anything is written: the text for standard error, and the exit status."""


def plant_of(chart: bytes):
    """The plant of a text; raises Ended where it is refused."""
    try:
        return load(read(chart))
    except Refused as refused:
        raise Ended(str(refused), 1) from None


def replayed(chart: bytes, script: bytes) -> str:
    """All that a replay prints; raises Ended where chart or script is refused."""
    plant = plant_of(chart)
    try:
        found = commands(script, plant)
    except FaultyLine as line:
        raise Ended(f"script line {line}", 1) from None
    return "".join(line + "\n" for line in Replay(plant).lines(found))


def opened(names: list) -> list:
    """The bytes of files, all of which are opened before the first is read."""
    try:
        files = [open(name, "rb") for name in names]
        return [file.read() for file in files]
    except OSError:
        raise Ended("read fault", 3) from None


def run(words: list) -> str:
    """What the words of a command line print; raises Ended."""
    if len(words) == 2 and words[0] == "check":
        plant_of(*opened(words[1:]))
        return "ok\n"
    if len(words) == 3 and words[0] == "replay":
        return replayed(*opened(words[1:]))
    raise Ended("Usage: reading.py check CHART | reading.py replay CHART SCRIPT", 2)


def main() -> int:
    """Runs the command line and gives the exit status."""
    try:
        sys.stdout.buffer.write(run(sys.argv[1:]).encode("latin-1"))
        return 0
    except Ended as ended:
        print(ended.args[0], file=sys.stderr)
        return ended.args[1]


if __name__ == "__main__":
    sys.exit(main())
