#!/usr/bin/env python3
"""What damaged.sh does; its head says what that is."""

import argparse
import sys
import tempfile
from collections import Counter
from pathlib import Path
from random import Random

import corpus
import damages
import limits
from trial import Trial
from why import AllTrial, WhyTrial

MARK = b"\n====\n"
BYTES = [0x00, ord("("), ord("{"), ord("#"), 0xFF]
EXAMPLE = "listed_mix.chart"


def random_inputs(count: int, seed: int):
    """Titles, charts and scripts: one for each seed from the first on."""
    found = corpus.pairs()
    for number in range(seed, seed + count):
        yield (f"{number}", *damages.pair(Random(number), found))


def byte_inputs():
    """Every prefix of the example's text, and the text with each byte replaced in turn."""
    chart = (corpus.TOP / "crates/conformance/data" / EXAMPLE).read_bytes()
    script = b"T#0s SCAN main\nT#10ms SCAN main\n"
    for place in range(len(chart) + 1):
        yield f"prefix-{place}", chart[:place], script
    for place in range(len(chart)):
        for byte in BYTES:
            yield f"byte-{place}-{byte:02x}", chart[:place] + bytes([byte]) + chart[place + 1:], script


def file_inputs(folder: str):
    """The files of a folder, in which a line `====` parts chart and script, as those of tests/fuzz."""
    for path in sorted(Path(folder).iterdir()):
        if path.is_file():
            chart, mark, script = path.read_bytes().partition(MARK)
            yield path.name, chart + mark[:1], script


def inputs(given):
    """The inputs that the words of the command line ask for."""
    if given.what in ("why", "all"):
        return random_inputs(int(given.more or 1), int(given.seed or 1))
    if given.what == "bytes":
        return byte_inputs()
    if given.what == "limits":
        return ((title.replace(" ", "-"), chart, script) for title, chart, script in limits.inputs())
    if given.what == "files":
        return file_inputs(given.more)
    return random_inputs(int(given.what), int(given.more or 1))


def keep(folder: Path, title: str, chart: bytes, script: bytes, why: str, program: str, command: str):
    """Keeps an input, and tells what is wrong and how it is run again."""
    folder.mkdir(parents=True, exist_ok=True)
    files = [folder / f"{title}.chart", folder / f"{title}.script"]
    files[0].write_bytes(chart)
    files[1].write_bytes(script)
    print(f"not as it should be: {title}: {why}\n  again: {program} {command} {files[0]} {files[1]}", flush=True)


def main() -> int:
    """Tries all inputs; gives the exit status."""
    parser = argparse.ArgumentParser(prog="damaged.sh")
    parser.add_argument("program")
    parser.add_argument("what", help="how many, or bytes, limits, files, why or all")
    parser.add_argument("more", nargs="?", help="the first seed, or the folder of files; behind why and all how many")
    parser.add_argument("seed", nargs="?", help="behind why and all the first seed")
    given = parser.parse_args()
    kept, answers, failed = Path(tempfile.gettempdir()) / "damaged", Counter(), 0
    with tempfile.TemporaryDirectory(prefix="damaged-") as work:
        kinds = {"why": WhyTrial, "all": AllTrial}
        trial = kinds.get(given.what, Trial)(given.program, Path(work))
        for title, chart, script in inputs(given):
            why, answer = trial.fault(chart, script)
            answers[answer] += 1
            failed += bool(why)
            if why:
                keep(kept, title, chart, script, why, given.program, "why" if given.what in kinds else "replay")
    for answer, count in sorted(answers.items()):
        print(f"{count} {answer}")
    print(f"{answers.total() - failed} passed, {failed} failed")
    return 1 if failed else 0


if __name__ == "__main__":
    sys.exit(main())
