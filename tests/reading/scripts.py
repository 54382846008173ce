"""The lines of a script. The format is this project's own."""

import re
from typing import NamedTuple, Optional, Union

from conditions import read_condition, typed_condition
from lexer import duration, whole
from loading import fits, place_of

MOST_BYTES = 1_048_576
MOST_TRANSITION = 65_535
DURATION = re.compile(r"(?:T|TIME)#(-?[A-Z0-9_.]*)\Z", re.IGNORECASE)
NUMBER = re.compile(r"-?[0-9]+\Z")
DIGITS = re.compile(r"[0-9]+\Z")
FIRST = re.compile(r"[ \t]*([^ \t]+)(.*)\Z", re.DOTALL)


class FaultyLine(Exception):
    """The first line of a script that is no command, counted from 1; 0 for a script that is too long."""


class Command(NamedTuple):
    """A line of a script: its instant, its word in capitals, and what stands behind it.

    `name` is that of a task, variable or program; `value` that of INPUT and FORCE, or the duration of SINGLE. A point has its kind,
    STEP, TRANSITION or ACTION, and a name or a transition's number. The condition is that behind WHEN, where the program is known.
    """
    instant: int
    word: str
    name: str = ""
    value: Union[None, int, tuple] = None
    kind: str = ""
    point: Union[str, int] = ""
    condition: Optional[tuple] = None


def first_word(text: str) -> tuple:
    """The first word of a text and the rest behind it; raises ValueError where there is none."""
    found = FIRST.match(text)
    if not found:
        raise ValueError("no word")
    return found.groups()


def all_words(text: str, count: int) -> list:
    """The words of a text that has so many; raises ValueError where it has fewer or more."""
    found = [word for word in re.split(r"[ \t]+", text) if word]
    if len(found) != count:
        raise ValueError(text)
    return found


def duration_word(word: str):
    """Microseconds of a word that is a duration, or None."""
    found = DURATION.match(word)
    return duration(found[1]) if found else None


def needed(value):
    """The value; raises ValueError where there is none."""
    if value is None:
        raise ValueError("no value")
    return value


def value_word(word: str):
    """Kind and value of a word: a truth value, a duration or a whole number (kind None); None where it is no value."""
    if word.upper() in ("FALSE", "TRUE"):
        return "BOOL", word.upper() == "TRUE"
    if NUMBER.match(word):
        value = -whole(word[1:]) if word.startswith("-") else whole(word)
        return (None, value) if fits(value, "DINT") else None
    time = duration_word(word)
    return None if time is None else ("TIME", time)


def point_of(kind: str, word: str) -> tuple:
    """A point; behind TRANSITION a word of digits alone is a number."""
    if kind.upper() not in ("STEP", "TRANSITION", "ACTION"):
        raise ValueError(kind)
    if kind.upper() != "TRANSITION" or not DIGITS.match(word):
        return kind.upper(), word
    if not 1 <= whole(word) <= MOST_TRANSITION:
        raise ValueError(word)
    return kind.upper(), whole(word)


def break_command(instant: int, rest: str, plant) -> Command:
    """BREAK program point, and WHEN with a condition or not; the text of a condition is the rest of the line."""
    program, rest = first_word(rest)
    kind, rest = first_word(rest)
    said, rest = first_word(rest)
    found = Command(instant, "BREAK", program, None, *point_of(kind, said))
    if not rest.strip(" \t"):
        return found
    word, text = first_word(rest)
    if word.upper() != "WHEN":
        raise ValueError(word)
    tree, number = read_condition(text), place_of([instance.name for instance in plant.instances], program)
    if number is None:
        return found
    return found._replace(condition=typed_condition(tree, plant.instances[number].chart.scope))


def other_command(instant: int, word: str, rest: str) -> Command:
    """A command whose words can be counted."""
    if word in ("STOP", "GO", "END", "EPOCH"):
        all_words(rest, 0)
        return Command(instant, word)
    if word in ("SCAN", "RELEASE", "RESET", "READ"):
        return Command(instant, word, *all_words(rest, 1))
    if word in ("INPUT", "FORCE"):
        name, value = all_words(rest, 2)
        return Command(instant, word, name, needed(value_word(value)))
    if word == "SINGLE":
        name, delta = all_words(rest, 2)
        return Command(instant, word, name, needed(duration_word(delta)))
    if word == "UNBREAK":
        name, kind, said = all_words(rest, 3)
        return Command(instant, word, name, None, *point_of(kind, said))
    raise ValueError(word)


def command(line: str, plant):
    """The command of a line, None where the line is skipped; raises ValueError where it is none."""
    if not line.strip(" \t") or line.lstrip(" \t").startswith(";"):
        return None
    at, rest = first_word(line)
    instant = needed(duration_word(at))
    word, rest = first_word(rest)
    word = word.upper()
    return break_command(instant, rest, plant) if word == "BREAK" else other_command(instant, word, rest)


def lines_of(text: str) -> list:
    """The lines of a script; a carriage return belongs to a line's end only directly before the line feed."""
    lines = text.split("\n")
    return [line.removesuffix("\r") for line in lines[:-1]] + lines[-1:]


def commands(script: bytes, plant) -> list:
    """All commands of a script over a plant; raises FaultyLine."""
    if len(script) > MOST_BYTES:
        raise FaultyLine(0)
    found = []
    for number, line in enumerate(lines_of(script.decode("latin-1")), 1):
        try:
            found.append(command(line, plant))
        except ValueError:
            raise FaultyLine(number) from None
    return [one for one in found if one]
