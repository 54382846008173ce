"""What compare.sh does: random plants through a program and through the reading, all in one process of Python."""

import argparse
import os
import shlex
import subprocess
import sys
import tempfile
from pathlib import Path

from modes import MODES
from reading import Ended, replayed

SECONDS = 60


def read_here(chart: bytes, script: bytes) -> tuple:
    """Standard output, standard error and exit status as the reading has them."""
    try:
        return replayed(chart, script), "", 0
    except Ended as ended:
        return "", ended.args[0] + "\n", ended.args[1]


def run_there(command: list, chart: Path, script: Path) -> tuple:
    """The same of the program."""
    try:
        done = subprocess.run(command + ["replay", str(chart), str(script)], capture_output=True, timeout=SECONDS,
                              stdin=subprocess.DEVNULL, check=False)
    except subprocess.TimeoutExpired:
        return "", f"no end within {SECONDS} seconds\n", -1
    return done.stdout.decode("latin-1"), done.stderr.decode("latin-1"), done.returncode


def first_difference(ours: str, theirs: str) -> str:
    """The first line in which two outputs differ."""
    left, right = ours.split("\n"), theirs.split("\n")
    longest = max(len(left), len(right))
    left += ["(nothing)"] * (longest - len(left))
    right += ["(nothing)"] * (longest - len(right))
    number = next(number for number in range(longest) if left[number] != right[number])
    return f"line {number + 1}\n  the reading: {left[number]}\n  the program: {right[number]}"


def told(ours: tuple, theirs: tuple) -> str:
    """What differs between two runs."""
    if ours[2] != theirs[2] or ours[1] != theirs[1]:
        return f"status {theirs[2]} for {ours[2]}, standard error {theirs[1]!r} for {ours[1]!r}"
    return first_difference(ours[0], theirs[0])


def keep(folder: Path, seed: int, ours: tuple, theirs: tuple):
    """Puts both outputs beside the chart and the script."""
    for name, run in (("reading", ours), ("program", theirs)):
        (folder / f"{seed}.{name}").write_text(run[0] + run[1] + f"status {run[2]}\n", "latin-1")


def compared(command: list, folder: Path, seed: int, plant) -> bool:
    """Whether both play the plant of a seed alike; where not, the difference is printed and its files stay."""
    texts = [text.encode() for text in plant(seed)]
    files = [folder / f"{seed}.chart", folder / f"{seed}.script"]
    for file, text in zip(files, texts):
        file.write_bytes(text)
    ours, theirs = read_here(*texts), run_there(command, *files)
    if ours == theirs:
        for file in files:
            file.unlink()
        return True
    keep(folder, seed, ours, theirs)
    print(f"{folder / str(seed)}.* differ: {told(ours, theirs)}", flush=True)
    return False


def words() -> argparse.Namespace:
    """The words of the command line."""
    parser = argparse.ArgumentParser(prog="compare.sh")
    parser.add_argument("--mode", choices=MODES, default="whole", help="the subject of the plants")
    parser.add_argument("command", metavar="COMMAND", help="the program, as one word")
    parser.add_argument("count", metavar="N", type=int, help="how many plants")
    parser.add_argument("seed", metavar="SEED", type=int, nargs="?", default=1, help="the seed of the first one")
    return parser.parse_args()


def main() -> int:
    """Compares so many plants; gives the exit status."""
    given = words()
    folder = Path(os.environ.get("DIFFERENCES") or tempfile.mkdtemp(prefix="differences-"))
    folder.mkdir(parents=True, exist_ok=True)
    seeds = range(given.seed, given.seed + given.count)
    differ = sum(not compared(shlex.split(given.command), folder, seed, MODES[given.mode]) for seed in seeds)
    if not differ and not any(folder.iterdir()):
        folder.rmdir()
    print(f"{given.count - differ} passed, {differ} failed")
    return 1 if differ else 0


if __name__ == "__main__":
    sys.exit(main())
