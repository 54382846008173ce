#!/usr/bin/env python3
"""both.py OLD NEW COUNT [SEED]: asks the `why` of two programs about COUNT damaged charts and scripts, one for each seed from SEED on, as
`damaged.sh why` does, and about those of the cases, undamaged. Each difference of their reports is told, at most 40; the last line is
'N passed, M failed'. It judges a new way of finding places against the one before it."""

import difflib
import subprocess
import sys
import tempfile
from pathlib import Path
from random import Random

import corpus
import damages

MOST_TOLD = 40


def report(program: str, folder: str, words: list) -> tuple:
    """What `why` prints of these files, and its status."""
    done = subprocess.run([program, "why", *words], cwd=folder, capture_output=True, timeout=20)
    return done.stdout, done.stderr, done.returncode


def inputs(count: int, seed: int):
    """Titles, charts and scripts."""
    found = corpus.pairs()
    for number, (chart, script) in enumerate(found):
        yield f"case {number}", chart, script
    for number in range(seed, seed + count):
        yield (f"{number}", *damages.pair(Random(number), found))


def main() -> int:
    """Compares both; gives the exit status."""
    old, new = (str(Path(program).resolve()) for program in sys.argv[1:3])
    count, seed = int(sys.argv[3]), int(sys.argv[4]) if len(sys.argv) > 4 else 1
    passed = failed = 0
    with tempfile.TemporaryDirectory(prefix="both-") as folder:
        for title, chart, script in inputs(count, seed):
            Path(folder, "chart").write_bytes(chart)
            Path(folder, "script").write_bytes(script)
            for words in (["chart"], ["chart", "script"]):
                before, after = report(old, folder, words), report(new, folder, words)
                if before == after:
                    passed += 1
                    continue
                failed += 1
                if failed <= MOST_TOLD:
                    print(f"not as it should be: {title}: {words}: {before[2]} {after[2]} {after[1][:200]!r}")
                    lines = [text.decode("utf-8", "backslashreplace").splitlines() for text in (before[0], after[0])]
                    print("\n".join(difflib.unified_diff(*lines, "old", "new", lineterm="", n=9)), flush=True)
    print(f"{passed} passed, {failed} failed")
    return 1 if failed else 0


if __name__ == "__main__":
    sys.exit(main())
