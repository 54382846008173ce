"""What happens in many random plants, as the reading tells it."""

import re
from collections import Counter

from modes import MODES
from reading import Ended, replayed

PATTERNS = {
    "scans accepted": r"^T#\S+ SCAN ",
    "scans that hit": r"^T#\S+ SCAN .* hit$",
    "single scans accepted": r"^T#\S+ SINGLE ",
    "breakpoints set": r"^T#\S+ BREAK ",
    "of these with a condition": r"^T#\S+ BREAK .* WHEN ",
    "program scans": r"^  \S+ [0-9]+ steps ",
    "program scans that clear a transition": r"^  \S+ [0-9]+ steps \S+ cleared [0-9]",
    "program scans skipped": r"^  \S+ skipped ",
}


def printed(mode: str, seed: int) -> str:
    """What a replay of a plant prints, or an empty text where its script is refused."""
    try:
        return replayed(*[text.encode() for text in MODES[mode](seed)])
    except Ended:
        return ""


def summary(mode: str, count: int, seed=1) -> str:
    """Counts over so many plants of a mode, from a seed on."""
    found, kinds, refusals, faulted = Counter(), Counter(), Counter(), 0
    for number in range(seed, seed + count):
        output = printed(mode, number)
        for title, pattern in PATTERNS.items():
            found[title] += len(re.findall(pattern, output, re.MULTILINE))
        faults = re.findall(r"^  \S+ fault (\S+)", output, re.MULTILINE)
        kinds.update(faults)
        refusals.update(re.findall(r"^refused [0-9]+ (\S+)", output, re.MULTILINE))
        faulted += bool(faults)
    lines = [f"{title}: {found[title]}" for title in PATTERNS]
    lines += [f"refused {name}: {number}" for name, number in sorted(refusals.items())]
    lines += [f"faults {kind}: {number}" for kind, number in sorted(kinds.items())]
    return "\n".join(lines + [f"plants with a fault: {faulted} of {count}"])
