#!/usr/bin/env python3
"""`tasks.py TASKS SCANS CHART SCRIPT` writes a chart of so many tasks (1 to 16), and a script of so many scans.

Each task has an interval of 10 ms, a priority of its own, and a program: the ring of ring.py of 8 steps, with variables of its own. At
each instant the tasks are scanned one after the other, by their priorities.
"""

import sys

from ring import elements, variables

STEPS = 8


def chart(tasks: int) -> str:
    """The text of the chart."""
    lines = ["PROGRAM Ring VAR", *[f"  {name} : BOOL;" for name in variables(STEPS)], "  Turns : DINT;", "END_VAR", *elements(STEPS),
             "CONFIGURATION Bench RESOURCE Cpu ON Plc"]
    lines += [f"TASK Task{number}(INTERVAL := T#10ms, PRIORITY := {number});" for number in range(tasks)]
    lines += [f"PROGRAM P{number} WITH Task{number} : Ring;" for number in range(tasks)] + ["END_RESOURCE END_CONFIGURATION"]
    return "\n".join(lines) + "\n"


def script(tasks: int, scans: int) -> str:
    """The text of the script."""
    return "".join(f"T#{10 * (scan // tasks)}ms SCAN Task{scan % tasks}\n" for scan in range(scans))


def main() -> int:
    """Writes both texts."""
    words = sys.argv[1:]
    if len(words) != 4 or not (words[0] + words[1]).isdigit() or not 1 <= int(words[0]) <= 16:
        print("usage: tasks.py TASKS SCANS CHART SCRIPT", file=sys.stderr)
        return 2
    tasks, scans = int(words[0]), int(words[1])
    for name, text in ((words[2], chart(tasks)), (words[3], script(tasks, scans))):
        with open(name, "w", encoding="ascii") as file:
            file.write(text)
    return 0


if __name__ == "__main__":
    sys.exit(main())
