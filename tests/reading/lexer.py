"""Tokens of a chart's text, durations and the TIME text (IEC 61131-3, 2.1 and 2.2)."""

import re
from fractions import Fraction
from typing import NamedTuple, Union

MOST_MICROSECONDS = 2 ** 62
MOST_INTEGER = 4_294_967_295
MOST_BYTES = 1_048_576
MOST_DIGITS = 40

RESERVED = frozenset("""
    ACTION AND AT BOOL CONFIGURATION DINT ELSE ELSIF END_ACTION END_CONFIGURATION END_IF END_PROGRAM END_RESOURCE
    END_STEP END_TRANSITION END_VAR FALSE FROM IF INITIAL_STEP INT MOD NOT ON OR PROGRAM RESOURCE STEP TASK THEN TIME TO
    TRANSITION TRUE VAR VAR_EXTERNAL VAR_GLOBAL WITH XOR
    """.split())

MICROSECONDS = {"D": 86_400_000_000, "H": 3_600_000_000, "M": 60_000_000, "S": 1_000_000, "MS": 1_000}
UNITS = ["D", "H", "M", "S", "MS"]

DIGITS = r"[0-9]+(?:_[0-9]+)*"
PART = re.compile(rf"_?({DIGITS})(?:\.({DIGITS}))?(D|H|MS|M|S)")
INTEGER = re.compile(rf"{DIGITS}\Z")
BASED = re.compile(r"(2|8|16)#([0-9A-F]+(?:_[0-9A-F]+)*)\Z")
LOCATION = re.compile(rf"%([IQM])([XBWDL]?)({DIGITS}(?:\.{DIGITS}){{0,7}})\Z")
SKIPPED = re.compile(r"[ \t\r\n]+|\(\*.*?\*\)|\{.*?\}", re.DOTALL)
SIGN = re.compile(r":=|<=|>=|<>|[:;,().+\-*/&<>=]")
WORD = re.compile(r"[A-Za-z_][A-Za-z0-9_]*")
DURATION_RUN = re.compile(r"(?:T|TIME)#(-?[A-Z0-9_.]*)", re.IGNORECASE)
TYPED_RUN = re.compile(r"(INT|DINT)#(-?)([A-Z0-9_#]*)", re.IGNORECASE)
BOOLEAN_RUN = re.compile(r"BOOL#([A-Z0-9_]*)", re.IGNORECASE)
NUMBER_RUN = re.compile(r"[0-9][A-Za-z0-9_#]*")
LOCATION_RUN = re.compile(r"%[A-Za-z0-9_.#]*")


class Refused(Exception):
    """A chart that is refused; the text is what standard error gets."""


class Token(NamedTuple):
    """A token: its kind, what it says, and the line it stands on.

    Kinds: word (as written), sign, integer, based (numbers), typed (type and value), location, end.
    """
    kind: str
    value: Union[str, int, tuple]
    line: int


def duration(run: str):
    """Whole microseconds that the run behind `T#` says, or None where it is no duration."""
    negative = run.startswith("-")
    rest = run[1:] if negative else run
    rest = rest.upper()
    place, lowest, total = 0, -1, Fraction(0)
    while place < len(rest):
        part = PART.match(rest, place)
        if not part or (place == 0 and rest[0] == "_"):
            return None
        digits, fraction, unit = part.groups()
        if UNITS.index(unit) <= lowest or (fraction and part.end() < len(rest)):
            return None
        lowest, place = UNITS.index(unit), part.end()
        total += whole(digits.replace("_", "")) * MICROSECONDS[unit]
        after = (fraction or "").replace("_", "").rstrip("0")
        if len(after) > MOST_DIGITS:
            return None
        total += Fraction(int(after or "0"), 10 ** len(after)) * MICROSECONDS[unit]
    if place == 0 or total.denominator != 1 or total > MOST_MICROSECONDS:
        return None
    return -int(total) if negative else int(total)


def time_text(microseconds: int) -> str:
    """The TIME text of a number of microseconds, such as T#1s_500ms; zero is T#0s."""
    rest, parts = abs(microseconds), []
    for unit in UNITS[:4]:
        count, rest = divmod(rest, MICROSECONDS[unit])
        if count:
            parts.append(f"{count}{unit.lower()}")
    whole, fraction = divmod(rest, 1_000)
    if fraction:
        parts.append(f"{whole}." + f"{fraction:03}".rstrip("0") + "ms")
    elif whole:
        parts.append(f"{whole}ms")
    return "T#" + ("-" if microseconds < 0 else "") + ("_".join(parts) or "0s")


def whole(digits: str) -> int:
    """The number that decimal digits say; of a number beyond all limits only that it is one."""
    found = digits.lstrip("0")
    return int(found or "0") if len(found) <= MOST_DIGITS else 10 ** MOST_DIGITS


def number(run: str):
    """Kind and value of a run that begins with a digit, or None where it is no number in range."""
    if INTEGER.match(run):
        kind, value = "integer", whole(run.replace("_", ""))
    else:
        based = BASED.match(run.upper())
        if not based:
            return None
        base, digits = int(based[1]), based[2].replace("_", "")
        if any(int(digit, 16) >= base for digit in digits):
            return None
        kind, value = "based", int(digits, base)
    return (kind, value) if value <= MOST_INTEGER else None


class Scanner:
    """Goes through a text and gives its tokens one after the other."""

    def __init__(self, text: str):
        self.text, self.place = text, 0
        self.counted, self.lines = 0, 1

    def line(self) -> int:
        """The line of the present place, counted from 1."""
        self.lines += self.text.count("\n", self.counted, self.place)
        self.counted = self.place
        return self.lines

    def refuse(self, what: str):
        """Tells a fault of the token that begins at the present place."""
        raise Refused(f"refused {what} line {self.line()}")

    def token(self, kind: str, value, length: int) -> Token:
        """A token of so many bytes; the place is behind it afterwards."""
        made = Token(kind, value, self.line())
        self.place += length
        return made

    def skip(self):
        """Goes over white space, comments and pragmas."""
        while skipped := SKIPPED.match(self.text, self.place):
            self.place = skipped.end()

    def next(self) -> Token:
        """The next token; of kind `end` behind the last one."""
        self.skip()
        if self.place == len(self.text):
            return self.token("end", "", 0)
        first = self.text[self.place]
        if ord(first) > 127:
            self.refuse("2 NotAscii")
        if self.text.startswith("(*", self.place):
            self.refuse("3 BadToken")
        if first.isdigit():
            return self.number_token()
        if first == "%":
            return self.location_token()
        if first.isalpha() or first == "_":
            return self.word_token()
        sign = SIGN.match(self.text, self.place)
        if not sign:
            self.refuse("3 BadToken")
        return self.token("sign", sign[0], len(sign[0]))

    def number_token(self) -> Token:
        """A decimal or a based integer."""
        run = NUMBER_RUN.match(self.text, self.place)[0]
        made = number(run)
        if made is None:
            self.refuse("7 BadNumber")
        return self.token(*made, len(run))

    def location_token(self) -> Token:
        """A location: its letter, its size (none is X) and its numbers."""
        run = LOCATION_RUN.match(self.text, self.place)[0]
        made = LOCATION.match(run.upper())
        if not made:
            self.refuse("3 BadToken")
        numbers = tuple(whole(part.replace("_", "")) for part in made[3].split("."))
        if max(numbers) > MOST_INTEGER:
            self.refuse("3 BadToken")
        return self.token("location", (made[1], made[2] or "X", numbers), len(run))

    def word_token(self) -> Token:
        """A word, a duration or a typed literal."""
        word = WORD.match(self.text, self.place)[0]
        if "__" in word or word.endswith("_"):
            self.refuse("3 BadToken")
        if not self.text.startswith("#", self.place + len(word)):
            return self.token("word", word, len(word))
        if run := DURATION_RUN.match(self.text, self.place):
            value = duration(run[1])
            if value is None:
                self.refuse("6 BadDuration")
            return self.token("typed", ("TIME", value), len(run[0]))
        if run := TYPED_RUN.match(self.text, self.place):
            made = number(run[3])
            if made is None:
                self.refuse("7 BadNumber")
            return self.token("typed", (run[1].upper(), -made[1] if run[2] else made[1]), len(run[0]))
        if run := BOOLEAN_RUN.match(self.text, self.place):
            if run[1].upper() in ("0", "1", "FALSE", "TRUE"):
                return self.token("typed", ("BOOL", run[1].upper() in ("1", "TRUE")), len(run[0]))
        self.refuse("3 BadToken")


def tokens(text: bytes) -> list:
    """All tokens of a text, the last of kind `end`; raises Refused at the first fault."""
    if len(text) > MOST_BYTES:
        raise Refused("refused 1 TooLong line 1")
    scanner = Scanner(text.removeprefix(b"\xef\xbb\xbf").decode("latin-1"))
    found = [scanner.next()]
    while found[-1].kind != "end":
        found.append(scanner.next())
    return found
