"""What epochs.sh does; its head says what that is."""

import re
import subprocess
import sys
import tempfile
import threading
import time
from pathlib import Path

HELD = 1_048_576
LEAST = 1_200_000
PAUSE = 0.2
MOST_GROWTH = 4_096
BUSY = re.compile(r"([0-9]+ T#\S+ SCAN \S+ overruns [0-9]+|lost [0-9]+ commands|known again behind [0-9]+ commands)")
READ = re.compile(r"([0-9]+) T#\S+ READ Lamp (TRUE|FALSE)")
CHART = """PROGRAM Blink
  INITIAL_STEP Dark: END_STEP
  STEP Lit: Lamp(N); END_STEP
  TRANSITION FROM Dark TO Lit := TRUE; END_TRANSITION
  TRANSITION FROM Lit TO Dark := TRUE; END_TRANSITION
END_PROGRAM
CONFIGURATION C RESOURCE R ON Plc
VAR_GLOBAL Lamp AT %QX0.0 : BOOL; END_VAR
TASK Main(INTERVAL := T#0.001ms, PRIORITY := 1);
PROGRAM Blink1 WITH Main : Blink;
END_RESOURCE END_CONFIGURATION
"""


def memory_of(number: int) -> int:
    """Kilobytes that a process holds; 0 where it has ended."""
    try:
        found = re.search(r"VmRSS:\s+([0-9]+)", Path(f"/proc/{number}/status").read_text())
    except OSError:
        return 0
    return int(found[1]) if found else 0


class Run:
    """A run whose session reads a variable from time to time, so that it is seen how many commands were accepted."""

    def __init__(self, program: str, wanted: int, folder: Path):
        (folder / "epochs.chart").write_text(CHART)
        self.err = open(folder / "err", "w+b")
        self.child = subprocess.Popen([program, "run", "--trace", "96", str(folder / "epochs.chart")], stdin=subprocess.PIPE,
                                      stdout=subprocess.PIPE, stderr=self.err)
        self.wanted, self.number, self.epochs, self.last = wanted, 0, 0, ""
        self.asked = self.read = 0
        self.memory = []

    def ask(self):
        """Reads until as many commands as are wanted were accepted, and then ends the session; watches the memory."""
        while self.number < self.wanted and self.child.poll() is None:
            self.child.stdin.write(b"READ Lamp\n")
            self.child.stdin.flush()
            self.asked += 1
            time.sleep(PAUSE)
            self.memory.append((self.number, memory_of(self.child.pid)))
        self.child.stdin.close()

    def play(self) -> int:
        """Runs to the end; gives the exit status."""
        other = threading.Thread(target=self.ask)
        other.start()
        for line in self.child.stdout:
            text = line.decode("latin-1").rstrip("\n")
            found = READ.fullmatch(text)
            if found:
                self.number, self.read = int(found[1]), self.read + 1
            self.epochs += text.endswith(" EPOCH")
            self.last = text
        other.join()
        return self.child.wait()

    def growth(self) -> int:
        """Kilobytes by which the memory grew after as many commands as may be held."""
        late = [size for number, size in self.memory if number > HELD and size]
        return max(late) - late[0] if late else MOST_GROWTH + 1


def checks_of(run: Run, status: int, said: str) -> list:
    """What is to hold of a run, each with its title."""
    audit = re.fullmatch(r"audit ok ([0-9]+)", run.last)
    lines = said.splitlines()
    lost = sum(int(line.split()[1]) for line in lines if line.startswith("lost "))
    return [
        ("the status is 0", status == 0),
        ("nothing but overruns and lost lines stands on standard error", all(map(BUSY.fullmatch, lines))),
        ("the audit is right", audit is not None), ("the audit counts all commands", bool(audit) and int(audit[1]) >= run.number),
        ("as many commands as are wanted", run.number >= run.wanted),
        ("each READ has its line, or was lost", 0 <= run.asked - run.read <= lost),
        ("the run cut its history", run.epochs > 0 or lost > 0),
        ("memory doesn't grow", run.growth() <= MOST_GROWTH),
    ]


def main() -> int:
    """Plays a run and prints what doesn't hold; the exit status."""
    program, wanted = sys.argv[1], max(int(sys.argv[2]), LEAST)
    with tempfile.TemporaryDirectory() as folder:
        begin = time.monotonic()
        run = Run(program, wanted, Path(folder))
        status = run.play()
        run.err.seek(0)
        said = run.err.read().decode("latin-1")
    sizes = [size for _, size in run.memory if size]
    print(f"{run.last} in {time.monotonic() - begin:.0f} s, {run.epochs} epochs, {min(sizes)} to {max(sizes)} kB, "
          f"of which {run.growth()} came after {HELD} commands")
    passed = failed = 0
    for title, holds in checks_of(run, status, said):
        passed, failed = passed + holds, failed + (not holds)
        if not holds:
            print(f"not as it should be: {title}")
    if failed:
        print(said[:2_000])
    print(f"{passed} passed, {failed} failed")
    return failed > 0


if __name__ == "__main__":
    sys.exit(main())
