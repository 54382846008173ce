#!/usr/bin/env python3
"""mutants.py PROGRAM FOLDER ..: see mutants.sh."""

import re
import subprocess
import sys
import tempfile
from concurrent.futures import ThreadPoolExecutor
from pathlib import Path

TRANSITION = re.compile(r"(TRANSITION[^;]*:=\s*)([^;]+);\s*END_TRANSITION")
TIME = re.compile(r"T#(\d+)(ms|s)\b")
ASSOCIATION = re.compile(r"^\s+\w+\((?:N|R|S|L|D|P|P1|P0|SD|DS|SL)(?:, [^)]*)?\);.*$", re.MULTILINE)


def changed(text, found, new):
    return text[:found.start()] + new + text[found.end():]


def mutants(text):
    """The changed texts, each with what was changed."""
    for it in TRANSITION.finditer(text):
        yield changed(text, it, f"{it[1]}NOT ({it[2]}); END_TRANSITION"), f"{it[2]} negated"
    for it in TIME.finditer(text):
        line = text[text.rfind("\n", 0, it.start()) + 1:text.find("\n", it.start())]
        if "INTERVAL" not in line:
            yield changed(text, it, f"T#{2 * int(it[1])}{it[2]}"), f"{it[0]} doubled in {line.strip()}"
    for it in ASSOCIATION.finditer(text):
        yield changed(text, it, ""), f"{it[0].strip()} left out"


def is_found(program, chart, text):
    """Whether a case of the example fails on this text."""
    with tempfile.TemporaryDirectory() as folder:
        mutant = Path(folder) / chart.name
        mutant.write_text(text, encoding="ascii")
        ran = subprocess.run([program, "test", mutant, chart.with_suffix(".sfctest")], stdin=subprocess.DEVNULL, capture_output=True,
                             text=True, check=False)
    return ran.returncode == 1 and not ran.stderr and "\nFAILED " in "\n" + ran.stdout


def main():
    program, folders = sys.argv[1], [Path(it) for it in sys.argv[2:]]
    charts = [chart for folder in folders for chart in sorted(folder.glob("*.chart"))]
    tried = [(chart, *it) for chart in charts for it in mutants(chart.read_text(encoding="ascii"))]
    with ThreadPoolExecutor() as pool:
        found = list(pool.map(lambda it: is_found(program, it[0], it[1]), tried))
    for (chart, _, what), is_one in zip(tried, found):
        if not is_one:
            print(f"no test finds: {chart.name}: {what}")
    print(f"{sum(found)} passed, {len(found) - sum(found)} failed")
    return 0 if all(found) and found else 1


sys.exit(main())
