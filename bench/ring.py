#!/usr/bin/env python3
"""The chart and the script of the bench: `ring.py [--plain] STEPS SCANS CHART SCRIPT` writes both.

A ring of STEPS steps (2 to 1,024) with one token, scanned every 10 ms. Each step has an action of its own by N, and one by S that the
next step resets by R. Of four steps one has a timed action, by D, L, SD and SL in turn (T#10ms; those of SD and SL are reset by the
next step too), and another one a body by P. Each transition waits until the time of its step is T#20ms. In the plain ring each step has
the one action by N, and all conditions are TRUE.
"""

import sys

TIMED = ["D", "L", "SD", "SL"]


def timed_qualifier(step: int) -> str:
    """The qualifier of a step's timed action, or an empty text where it has none."""
    return TIMED[step // 4 % 4] if step % 4 == 0 else ""


def associations(step: int, steps: int) -> list:
    """The associations of a step."""
    before = (step - 1) % steps
    found = [f"On{step}(N)", f"Kept{step}(S)", f"Kept{before}(R)"]
    if timed_qualifier(step):
        found.append(f"Timed{step}({timed_qualifier(step)}, T#10ms)")
    if timed_qualifier(before) in ("SD", "SL"):
        found.append(f"Timed{before}(R)")
    if step % 4 == 2 or steps < 3:
        found.append("Count(P)")
    return found


def plain_chart(steps: int) -> str:
    """The text of the plain ring."""
    lines = ["PROGRAM Ring"]
    for step in range(steps):
        lines.append(f"  {'STEP' if step else 'INITIAL_STEP'} S{step}: On{step}(N); END_STEP")
    for step in range(steps):
        lines.append(f"  TRANSITION FROM S{step} TO S{(step + 1) % steps} := TRUE; END_TRANSITION")
    lines += ["END_PROGRAM", "CONFIGURATION Bench RESOURCE Cpu ON Plc VAR_GLOBAL"]
    lines += [f"  On{step} : BOOL;" for step in range(steps)]
    lines += ["END_VAR", "TASK Main(INTERVAL := T#10ms, PRIORITY := 1);", "PROGRAM P WITH Main : Ring;", "END_RESOURCE END_CONFIGURATION"]
    return "\n".join(lines) + "\n"


def variables(steps: int) -> list:
    """The names of the variables that are actions by themselves."""
    return ([f"On{step}" for step in range(steps)] + [f"Kept{step}" for step in range(steps)]
            + [f"Timed{step}" for step in range(steps) if timed_qualifier(step)])


def elements(steps: int) -> list:
    """The lines of the ring's steps, transitions and action."""
    lines = []
    for step in range(steps):
        word = "STEP" if step else "INITIAL_STEP"
        lines.append(f"  {word} S{step}: " + "".join(one + "; " for one in associations(step, steps)) + "END_STEP")
    for step in range(steps):
        lines.append(f"  TRANSITION FROM S{step} TO S{(step + 1) % steps} := S{step}.T >= T#20ms; END_TRANSITION")
    return lines + ["  ACTION Count: IF Count.Q THEN Turns := Turns + 1; END_IF; END_ACTION", "END_PROGRAM"]


def chart(steps: int) -> str:
    """The text of the chart."""
    lines = ["PROGRAM Ring", *elements(steps), "CONFIGURATION Bench RESOURCE Cpu ON Plc VAR_GLOBAL"]
    lines += [f"  {name} : BOOL;" for name in variables(steps)]
    lines += ["  Turns : DINT;", "END_VAR", "TASK Main(INTERVAL := T#10ms, PRIORITY := 1);", "PROGRAM P WITH Main : Ring;",
              "END_RESOURCE END_CONFIGURATION"]
    return "\n".join(lines) + "\n"


def script(scans: int) -> str:
    """The text of the script."""
    return "".join(f"T#{10 * scan}ms SCAN Main\n" for scan in range(scans))


def main() -> int:
    """Writes both texts."""
    words = sys.argv[1:]
    is_plain = words[:1] == ["--plain"]
    if is_plain:
        words = words[1:]
    if len(words) != 4 or not 2 <= int(words[0]) <= 1_024:
        print("usage: ring.py [--plain] STEPS SCANS CHART SCRIPT", file=sys.stderr)
        return 2
    text = plain_chart(int(words[0])) if is_plain else chart(int(words[0]))
    for name, text in ((words[2], text), (words[3], script(int(words[1])))):
        with open(name, "w", encoding="ascii") as file:
            file.write(text)
    return 0


if __name__ == "__main__":
    sys.exit(main())
