"""Kinds of damage: each makes another text of one, by a source of random numbers."""

import re

TELLING = [0, 9, 10, 13, 32, 34, 35, 40, 41, 42, 45, 46, 58, 59, 61, 95, 123, 125, 127, 128, 255]
WORD = re.compile(rb"[A-Za-z0-9_#.]+|:=|<=|>=|<>|[^\sA-Za-z0-9_]")
NUMBER = re.compile(rb"[0-9][0-9_.]*")
REPEATS = 100_000
MOST_BYTES = 1_048_576

NUMBERS = [0, 1, 32767, 32768, 65535, 65536, 2 ** 31 - 1, 2 ** 31, 2 ** 32 - 1, 2 ** 32, 2 ** 62, 2 ** 62 + 1, 2 ** 63 - 1, 2 ** 63,
           2 ** 64 - 1, 2 ** 64, 10 ** 30]
DURATIONS = ["T#0s", "T#-0s", "T#0.001ms", "T#0.0001ms", "T#4611686018427387.904ms", "T#4611686018427387.905ms",
             "T#-4611686018427387.904ms", "T#53375995d_14h_27s_387.904ms", "T#53375996d", "T#9223372036854775.807ms", "T#1s1s", "T#"]
CHART_WORDS = """ACTION AND AT BOOL CONFIGURATION DINT ELSE ELSIF END_ACTION END_CONFIGURATION END_IF END_PROGRAM END_RESOURCE END_STEP
    END_TRANSITION END_VAR FALSE FROM IF INITIAL_STEP INT MOD NOT ON OR PROGRAM RESOURCE STEP TASK THEN TIME TO TRANSITION TRUE VAR
    VAR_EXTERNAL VAR_GLOBAL WITH XOR PRIORITY INTERVAL SINGLE N R S P P0 P1 L D SD DS SL := : ; , ( ) . + - * / & < > <= >= <> = (* *)
    { } %IX0.0 %QW1 %MD2 INT#5 DINT#-5 BOOL#1 16#FF 2#1 a__b a_ INT#32767+INT#1 -(32767) 1/0 X T Q .X .T .Q""".split()
SCRIPT_WORDS = """SCAN INPUT FORCE RELEASE RESET READ BREAK UNBREAK STOP GO SINGLE END EPOCH STEP ACTION TRANSITION WHEN TRUE FALSE
    0 1 -1 -0 00 32768 -2147483648 2147483648 65535 65536 ; T#0s T#10ms T#-1ms 1/0=1 NOT ( ) S.X S.T>=T#0s""".split()


def changed(rng, text: bytes) -> bytes:
    """Some bytes changed."""
    made = bytearray(text or b" ")
    for _ in range(rng.choice([1, 1, 1, 2, 4])):
        others = TELLING if rng.random() < 0.5 else [rng.randrange(256), rng.randrange(32, 127)]
        made[rng.randrange(len(made))] = rng.choice(others)
    return bytes(made)


def part(rng, text: bytes) -> tuple:
    """Two places of a text, the first not behind the second, most often near each other."""
    first = rng.randint(0, len(text))
    return first, min(len(text), first + rng.choice([1, 1, 2, 5, 20, 100]))


def removed(rng, text: bytes) -> bytes:
    """Some bytes removed."""
    first, last = part(rng, text)
    return text[:first] + text[last:]


def doubled(rng, text: bytes) -> bytes:
    """Some bytes doubled."""
    first, last = part(rng, text)
    return text[:last] + text[first:]


def lines_changed(rng, text: bytes) -> bytes:
    """Two lines exchanged, one removed, one doubled or one moved."""
    lines = text.splitlines(keepends=True) or [b""]
    first, second = rng.randrange(len(lines)), rng.randrange(len(lines))
    how = rng.randrange(4)
    if how == 0:
        lines[first], lines[second] = lines[second], lines[first]
    elif how == 1:
        del lines[first]
    elif how == 2:
        lines.insert(second, lines[first])
    else:
        lines.insert(second, lines.pop(first))
    return b"".join(lines)


def word_changed(rng, text: bytes, words: list) -> bytes:
    """A word replaced: by another of the text, by one of the language, or by nothing; or one put before it."""
    found = list(WORD.finditer(text))
    if not found:
        return rng.choice(words).encode()
    place, other = rng.choice(found), rng.choice(found)
    new = rng.choice([other[0], rng.choice(words).encode(), rng.choice(words).encode(), b""])
    last = place.start() if rng.random() < 0.3 else place.end()
    return text[:place.start()] + new + (b" " if last == place.start() else b"") + text[last:]


def kind_of(word: bytes) -> int:
    """What kind of word it is: a number, a sign, a word of the language or of a script, or a name."""
    if not word[:1].isalpha():
        return int(word[:1].isdigit())
    return 2 if word.decode().upper() in CHART_WORDS + SCRIPT_WORDS else 3


def word_of_its_kind(rng, text: bytes) -> bytes:
    """A word replaced by another of the text that is of its kind, so that many such texts load."""
    found = list(WORD.finditer(text))
    if not found:
        return text
    place = rng.choice(found)
    others = [one[0] for one in found if kind_of(one[0]) == kind_of(place[0]) and one[0] != place[0]]
    return text[:place.start()] + (rng.choice(others) if others else place[0]) + text[place.end():]


def number_at_its_end(rng, text: bytes) -> bytes:
    """A number, or the word in which it stands, replaced by one at the end of a range."""
    found = [one for one in NUMBER.finditer(text)]
    if not found:
        return text + str(rng.choice(NUMBERS)).encode()
    place = rng.choice(found)
    first, last = place.span()
    new = str(rng.choice(NUMBERS))
    if rng.random() < 0.4:
        new = rng.choice(DURATIONS)
        while first and text[first - 1:first].isalnum() or text[first - 1:first] == b"#":
            first -= 1
        while last < len(text) and (text[last:last + 1].isalnum() or text[last:last + 1] == b"_"):
            last += 1
    return text[:first] + new.encode() + text[last:]


def repeated(rng, text: bytes) -> bytes:
    """A word 10^5 times in a row, or as often as the longest text has room for, or once more."""
    found = list(WORD.finditer(text))
    if not found:
        return text
    place = rng.choice(found)
    piece = place[0] + rng.choice([b"", b" ", b"\n", b" ", b","])
    room = (MOST_BYTES - len(text)) // len(piece)
    count = rng.choice([REPEATS, REPEATS, room, room + 1]) if len(piece) > 1 else REPEATS
    return text[:place.start()] + piece * min(count, room + 1) + text[place.start():]


def nested(rng, text: bytes) -> bytes:
    """What stands behind `:=` or WHEN nested as deep as may be or about so, or with about as many operators."""
    found = list(re.finditer(rb":=|WHEN ", text))
    if not found:
        return text
    place = rng.choice(found).end()
    end = min((one for one in (text.find(mark, place) for mark in (b";", b"\n")) if one >= 0), default=len(text))
    count = rng.choice([62, 63, 64, 65, 66])
    operand = text[place:end]
    how = rng.randrange(5)
    if how == 0:
        operand = b"(" * count + operand + b")" * count
    elif how == 1:
        operand = b" NOT" * count + operand
    elif how == 2:
        operand = b" -" * count + operand
    elif how == 3:
        operand = rng.choice([b" OR ", b" + ", b" & ", b"\n= "]).join([operand] * (count - 64 + rng.choice([256, 257, 128])))
    else:
        operand = b" NOT(" * (count // 2) + operand + b")" * (count // 2)
    return text[:place] + b" " + operand + text[end:]


def nested_statements(rng, text: bytes) -> bytes:
    """The statements of an action inside about as many IF statements as may be open."""
    found = list(re.finditer(rb"ACTION [A-Za-z0-9_]+ *:", text))
    if not found:
        return text
    place = rng.choice(found).end()
    end = text.find(b"END_ACTION", place)
    count = rng.choice([62, 63, 64, 65])
    if end < 0:
        return text
    return text[:place] + b" IF TRUE THEN" * count + text[place:end] + b" END_IF;" * count + text[end:]


def cut(rng, text: bytes) -> bytes:
    """A prefix or a suffix."""
    place = rng.randint(0, len(text))
    return text[:place] if rng.random() < 0.7 else text[place:]


def damaged(rng, text: bytes, other: bytes, words: list) -> bytes:
    """The text with one to three kinds of damage; `other` is a text of the same kind from which a part may come."""
    for _ in range(rng.choice([1, 1, 1, 1, 2, 3])):
        how = rng.random()
        if how < 0.004:
            text = repeated(rng, text)
        elif how < 0.05:
            text = nested(rng, text)
        elif how < 0.06:
            text = nested_statements(rng, text)
        elif how < 0.10:
            text = text[:rng.randint(0, len(text))] + other[rng.randint(0, len(other)):]
        elif how < 0.35:
            text = word_of_its_kind(rng, text)
        elif how < 0.45:
            text = word_changed(rng, text, words)
        elif how < 0.60:
            text = number_at_its_end(rng, text)
        else:
            text = rng.choice([changed, removed, doubled, lines_changed, lines_changed, cut])(rng, text)
    return text


def pair(rng, found: list) -> tuple:
    """A chart and a script of which one, or both, are damaged."""
    chart, script = rng.choice(found)
    other_chart, other_script = rng.choice(found)
    how = rng.random()
    if how < 0.6:
        chart = damaged(rng, chart, other_chart, CHART_WORDS)
    if how >= 0.5:
        script = damaged(rng, script, other_script, SCRIPT_WORDS)
    return chart, script
