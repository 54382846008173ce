"""The texts that are damaged: the charts and scripts of examples/, of the cases of crates/conformance, and of the pages."""

import re
import sys
from pathlib import Path

TOP = Path(__file__).resolve().parents[2]
sys.path.insert(0, str(TOP / "tests/reading"))

from cases import case_of, cases_of  # noqa: E402 (the second reading stands in another folder)

MOST = 12_000
FENCE = re.compile(r"^```[a-z]*\n(.*?)^```$", re.DOTALL | re.MULTILINE)


def shown(page: str, word: str) -> list:
    """The charts that a page shows: its blocks that begin with this word, or with a comment."""
    blocks = FENCE.findall((TOP / "docs" / page).read_text())
    return [block.encode() for block in blocks if block.startswith((word, "(*")) and "END_CONFIGURATION" in block]


def pairs() -> list:
    """Pairs of a chart and a script, each once; those of more than MOST bytes are left out."""
    found = [(chart.read_bytes(), chart.with_suffix(".script").read_bytes()) for chart in sorted((TOP / "examples").glob("*.chart"))]
    data = TOP / "crates/conformance/data"
    for path in sorted(data.glob("*.cases")):
        found += [(case.chart(), case.text("script")) for case in cases_of(path)]
    found += [(case.chart(), case.text("script")) for case in map(case_of, sorted(data.glob("*.case")))]
    found += [(chart, b"T#0s SCAN Fast\n") for chart in shown("LANGUAGE.md", "PROGRAM")]
    found += [(chart, b"T#0s SCAN main\n") for chart in shown("FORMATS.md", "PROGRAM")]
    return [pair for pair in dict.fromkeys(found) if len(pair[0]) + len(pair[1]) <= MOST]
