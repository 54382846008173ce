#!/usr/bin/env python3
"""snippets.py TOP PROGRAM: whether what VS Code's snippets make, with the words that stand in them, is a chart that PROGRAM takes. The last
line is 'N passed, M failed'."""

import json
import re
import subprocess
import sys
import tempfile
from pathlib import Path

WHOLE = """PROGRAM Machine
  VAR Count : INT; END_VAR
  INITIAL_STEP Idle: END_STEP
  STEP Filling: END_STEP
  STEP First: END_STEP
  STEP Second: END_STEP
  STEP Left: END_STEP
  STEP Right: END_STEP
  STEP LeftEnd: END_STEP
  STEP RightEnd: END_STEP
  STEP Done: END_STEP
{}
END_PROGRAM
CONFIGURATION Plant RESOURCE Cpu ON Plc
  VAR_GLOBAL A : BOOL; B : BOOL; Start AT %IX0.0 : BOOL; END_VAR
  TASK Main(INTERVAL := T#10ms, PRIORITY := 1);
  PROGRAM P WITH Main : Machine;
END_RESOURCE END_CONFIGURATION
"""
# In place of what a snippet leaves open: the chart round it.
ROUND = {
    "step": WHOLE.replace("  STEP Filling: END_STEP\n", "").replace("Start AT", "Valve : BOOL; Start AT"),
    "stept": WHOLE.replace("  STEP Filling: END_STEP\n", "").replace("Start AT", "Valve : BOOL; Start AT"),
    "transition": WHOLE,
    "selection": WHOLE,
    "simultaneous": WHOLE,
    "action": WHOLE,
}


def filled(body):
    """A snippet with its own words; of a choice the first."""
    text = re.sub(r"\$\{\d+\|([^,|]*)[^|]*\|\}", r"\1", "\n".join(body))
    return re.sub(r"\$\{\d+:([^}]*)\}", r"\1", text).replace("$0", "")


def charts(snippets):
    """The charts that are tried, by their names."""
    texts = {it["prefix"]: filled(it["body"]) for it in snippets.values()}
    for name, text in texts.items():
        if name in ROUND:
            yield name, ROUND[name].format(text)
    yield "program and configuration", f'{texts["program"]}\n{texts["configuration"]}\n'


def main(top, program):
    passed = failed = 0
    snippets = json.loads((Path(top) / "editors/vscode/snippets/chart.json").read_text(encoding="utf-8"))
    with tempfile.TemporaryDirectory() as room:
        for name, text in charts(snippets):
            chart = Path(room) / "one.chart"
            chart.write_text(text, encoding="utf-8")
            ran = subprocess.run([program, "why", str(chart)], capture_output=True, text=True)
            passed, failed = passed + (ran.returncode == 0), failed + (ran.returncode != 0)
            if ran.returncode:
                print(f"the snippet {name}: {ran.stdout}\n{text}")
    print(f"{passed} passed, {failed} failed")


if __name__ == "__main__":
    main(*sys.argv[1:])
