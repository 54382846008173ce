#!/usr/bin/env python3
"""Writes what a fuzzer begins with: `seeds.py FOLDER` puts each chart of examples/ and of the cases there, with its script behind it.

The two are parted by a line `====`, as split.c wants it. Charts of more than MOST bytes are left out, since a fuzzer is slow on them.
"""

import sys
from pathlib import Path

TOP = Path(__file__).resolve().parents[2]
sys.path.insert(0, str(TOP / "tests/reading"))

from cases import case_of, cases_of  # noqa: E402 (the second reading stands in another folder)

MOST = 4_000
MARK = b"====\n"


def texts() -> list:
    """Pairs of a chart and a script."""
    found = [(chart.read_bytes(), chart.with_suffix(".script").read_bytes()) for chart in sorted((TOP / "examples").glob("*.chart"))]
    data = TOP / "crates/conformance/data"
    for path in sorted(data.glob("*.cases")):
        found += [(case.chart(), case.text("script")) for case in cases_of(path)]
    return found + [(case.chart(), case.text("script")) for case in map(case_of, sorted(data.glob("*.case")))]


def main():
    """Writes each pair once."""
    folder = Path(sys.argv[1])
    folder.mkdir(parents=True, exist_ok=True)
    inputs = {chart.rstrip(b"\n") + b"\n" + MARK + script for chart, script in texts() if len(chart) + len(script) <= MOST}
    for number, text in enumerate(sorted(inputs)):
        (folder / f"{number:04}").write_bytes(text)
    print(f"{len(inputs)} inputs")


if __name__ == "__main__":
    main()
