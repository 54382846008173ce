"""Charts and scripts at each limit, and one beyond it."""

FRAME = """PROGRAM Mix
{own}
{body}
END_PROGRAM
{types}
CONFIGURATION C RESOURCE R ON Plc VAR_GLOBAL V, W : BOOL; I AT %IX0.0 : BOOL; {globals} END_VAR
TASK Main(INTERVAL := T#10ms, PRIORITY := 1); {tasks}
PROGRAM P WITH Main : Mix; {instances}
END_RESOURCE END_CONFIGURATION
"""
STEP = "INITIAL_STEP S: END_STEP"
SCRIPT = "T#0s SCAN Main\nT#10ms SCAN Main\n"


def chart(body=STEP, own="", types="", globals_="", tasks="", instances="") -> bytes:
    """A chart of these parts."""
    return FRAME.format(own=own, body=body, types=types, globals=globals_, tasks=tasks, instances=instances).encode()


def with_condition(text: str) -> bytes:
    """A chart whose transition has this condition."""
    return chart(f"{STEP} STEP U: END_STEP TRANSITION FROM S TO U := {text}; END_TRANSITION")


def with_number(text: str, kind: str) -> bytes:
    """A chart with a variable of a type that begins with this."""
    return chart(own=f"VAR n : {kind} := {text}; END_VAR")


def many(count: int, text: str) -> str:
    """So many texts, each with its number."""
    return " ".join(text.format(number) for number in range(count))


def padded(size: int) -> bytes:
    """A chart of so many bytes."""
    made = chart()
    return made + b" " * (size - len(made))


def charts() -> list:
    """Titles and charts."""
    found = []
    for more in (0, 1):
        found += [
            (f"bytes of a chart + {more}", padded(1_048_576 + more)),
            (f"parentheses + {more}", with_condition("(" * (64 + more) + "V" + ")" * (64 + more))),
            (f"NOT + {more}", with_condition("NOT " * (64 + more) + "V")),
            (f"minus + {more}", chart(own="VAR n : INT; END_VAR", body=f"{STEP} ACTION A: n := {'- ' * (64 + more)}n; END_ACTION")),
            (f"IF + {more}", chart(f"{STEP} ACTION A: {'IF V THEN ' * (64 + more)}V := V; {'END_IF; ' * (64 + more)} END_ACTION")),
            (f"operators + {more}", with_condition(" OR ".join(["V"] * (257 + more)))),
            (f"steps + {more}", chart(STEP + many(1_023 + more, " STEP T{}: END_STEP"))),
            (f"transitions + {more}", chart(STEP + many(2_048 + more, " TRANSITION FROM S TO S := V; END_TRANSITION"))),
            (f"associations + {more}", chart("INITIAL_STEP S: " + "V(); " * (4_096 + more) + "END_STEP")),
            (f"tasks + {more}", chart(tasks=many(15 + more, "TASK T{}(PRIORITY := 1);"))),
            (f"instances + {more}", chart(instances=many(63 + more, "PROGRAM Q{} WITH Main : Mix;"))),
            (f"variables + {more}", chart(globals_=many(4_093 + more, "g{} : INT;"))),
            (f"variables of instances + {more}", chart(own="VAR " + many(63, "n{} : INT;") + " END_VAR", instances=many(
                63, "PROGRAM Q{} WITH Main : Mix;"), globals_=many(61 + more, "g{} : BOOL;"))),
            (f"an integer + {more}", with_number(str(2 ** 32 - 1 + more), "DINT")),
            (f"an INT + {more}", with_number(str(32_767 + more), "INT")),
            (f"an INT - {more}", with_number(str(-32_768 - more), "INT")),
            (f"a DINT + {more}", with_number(str(2 ** 31 - 1 + more), "DINT")),
            (f"a DINT - {more}", with_number(str(-2 ** 31 - more), "DINT")),
            (f"a duration + {more}", with_number(f"T#4611686018427387.{904 + more}ms", "TIME")),
            (f"a duration - {more}", with_number(f"T#-4611686018427387.{904 + more}ms", "TIME")),
            (f"an interval - {more}", chart(tasks=f"TASK T(INTERVAL := T#-0.00{more}ms, PRIORITY := 1);")),
            (f"PRIORITY + {more}", chart(tasks=f"TASK T(PRIORITY := {2 ** 32 - 1 + more});")),
            (f"numbers of a location + {more}", chart(globals_=f"L AT %MX{'.'.join(['1'] * (8 + more))} : BOOL;")),
            (f"a number of a location + {more}", chart(globals_=f"L AT %MX{2 ** 32 - 1 + more} : BOOL;")),
            (f"an INT that is added to + {more}", chart(own="VAR n : INT := 32766; END_VAR", body=f"""
                INITIAL_STEP S: A(N); END_STEP ACTION A: n := n + {1 + more}; END_ACTION""")),
        ]
    found += [(f"the number {value}", with_number(str(value), kind)) for value in (2 ** 62, 2 ** 63, 2 ** 64) for kind in ("INT", "DINT")]
    return found


def scripts() -> list:
    """Titles, charts and scripts."""
    plain, steps = chart(), chart(STEP + many(65, " STEP T{}: END_STEP"))
    top = "T#4611686018427387.90{}ms"
    found = []
    for more in (0, 1):
        found += [
            (f"bytes of a script + {more}", plain, ";" * (1_048_576 + more)),
            (f"an instant + {more}", plain, top.format(4 + more) + " SCAN Main\n"),
            (f"an instant - {more}", plain, f"T#-0.00{more}ms SCAN Main\n"),
            (f"SINGLE + {more}", plain, f"T#0s STOP\nT#0s SINGLE Main {top.format(4 + more)}\nT#0s SINGLE Main T#0s\n"),
            (f"SINGLE - {more}", plain, f"T#0s STOP\nT#0s SINGLE Main T#-0.00{more}ms\n"),
            (f"a run instant + {more}", plain, f"T#0s STOP\nT#0s SINGLE Main {top.format(4)}\nT#0s GO\nT#0.00{more}ms SCAN Main\n"),
            (f"a value + {more}", plain, f"T#0s FORCE V {2 ** 31 - 1 + more}\n"),
            (f"a value - {more}", plain, f"T#0s FORCE V {-2 ** 31 - more}\n"),
            (f"a value of a BOOL + {more}", plain, f"T#0s INPUT I {1 + more}\n"),
            (f"a transition + {more}", plain, f"T#0s BREAK P TRANSITION {65_535 + more}\n"),
            (f"a transition - {more}", plain, f"T#0s BREAK P TRANSITION {1 - more}\n"),
            (f"breakpoints + {more}", steps, "".join(f"T#0s BREAK P STEP T{number}\n" for number in range(64 + more))),
            (f"a condition's parentheses + {more}", plain, f"T#0s BREAK P STEP S WHEN {'(' * (64 + more)}V{')' * (64 + more)}\n"),
            (f"a condition's operators + {more}", plain, f"T#0s BREAK P STEP S WHEN {' OR '.join(['V'] * (257 + more))}\n"),
        ]
    found += [(f"the number {value}", plain, f"T#0s FORCE V {value}\n") for value in (2 ** 62, 2 ** 63, 2 ** 64, -2 ** 63)]
    return [(title, text, script.encode()) for title, text, script in found]


def inputs() -> list:
    """All titles, charts and scripts."""
    return [(title, text, SCRIPT.encode()) for title, text in charts()] + scripts()
