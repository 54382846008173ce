"""What pressure.sh does; its head says what that is."""

import re
import subprocess
import sys
import tempfile
import threading
import time
from pathlib import Path

TASKS = 16
EACH = 1_000
WARM = 70_000
SEEN = 10
MOST_GROWTH = 1_024
MOST_MEMORY = 16_384
LINE = re.compile(r"([0-9]+) T#\S+ ([A-Z]+)")
BUSY = re.compile(r"([0-9]+ T#\S+ SCAN \S+ overruns [0-9]+|lost [0-9]+ commands|known again behind [0-9]+ commands)")
INSTANCE = "PROGRAM P{0} WITH Task{0} : Mix;"
CHART = """PROGRAM Mix
  VAR Count : INT; END_VAR
  INITIAL_STEP Idle: Work(N); END_STEP
  STEP Busy: Work(P1); END_STEP
  TRANSITION FROM Idle TO Busy := TRUE; END_TRANSITION
  TRANSITION FROM Busy TO Idle := Busy.T >= T#2ms; END_TRANSITION
  ACTION Work: Count := (Count + 1) MOD 1000; END_ACTION
END_PROGRAM
CONFIGURATION C RESOURCE R ON Plc
{tasks}
{instances}
END_RESOURCE END_CONFIGURATION
"""


def chart() -> str:
    """A chart of 16 tasks of a millisecond with a program each."""
    tasks = "\n".join(f"TASK Task{number}(INTERVAL := T#1ms, PRIORITY := 1);" for number in range(TASKS))
    return CHART.format(tasks=tasks, instances="\n".join(INSTANCE.format(number) for number in range(TASKS)))


def memory_of(number: int) -> int:
    """Kilobytes that a process holds; 0 where it has ended."""
    try:
        found = re.search(r"VmRSS:\s+([0-9]+)", Path(f"/proc/{number}/status").read_text())
    except OSError:
        return 0
    return int(found[1]) if found else 0


class Pressure:
    """A run, what was seen of its lines, and its memory as the numbers went on."""

    def __init__(self, program: str, wanted: int, folder: Path):
        (folder / "pressure.chart").write_text(chart())
        self.err = open(folder / "err", "w+b")
        self.child = subprocess.Popen([program, "run", str(folder / "pressure.chart")], stdin=subprocess.PIPE, stdout=subprocess.PIPE,
                                      stderr=self.err)
        self.wanted, self.number, self.kinds, self.last = wanted, 0, {}, ""
        self.missing = self.falling = self.scans_in_halts = self.halts = self.gaps_in_halts = 0
        self.stopped_at, self.memory = None, []

    def send(self, text: str):
        """Sends lines of the session."""
        self.child.stdin.write(text.encode())
        self.child.stdin.flush()

    def see(self, line: str):
        """Takes in a line of a command."""
        found = LINE.match(line)
        if not found:
            self.last = line
            return
        number, kind = int(found[1]), found[2]
        gap = number - self.number - 1
        self.falling += gap < 0
        self.missing += max(0, gap)
        if self.stopped_at is not None:
            self.scans_in_halts += kind == "SCAN"
            self.gaps_in_halts += gap != 0
        if kind == "STOP":
            self.stopped_at = number
        if kind == "GO":
            self.stopped_at, self.halts = None, self.halts + 1
        self.number = number
        self.kinds[kind] = self.kinds.get(kind, 0) + 1

    def steer(self):
        """Sends a halt and an epoch for each thousand commands, and ends the input behind the last; watches the memory."""
        sent = 0
        while self.number < self.wanted and self.child.poll() is None:
            time.sleep(0.005)
            if self.number // EACH > sent:
                sent = self.number // EACH
                self.send("STOP\nREAD P0.Count\n")
                time.sleep(0.003)
                self.send("GO\nEPOCH\n")
                self.memory.append((self.number, memory_of(self.child.pid)))
        self.child.stdin.close()

    def play(self) -> int:
        """Runs to the end; gives the exit status."""
        other = threading.Thread(target=self.steer)
        other.start()
        for line in self.child.stdout:
            self.see(line.decode("latin-1").rstrip("\n"))
        other.join()
        return self.child.wait()

    def growth(self) -> int:
        """Kilobytes by which the memory grew after WARM commands, which fill the feed's 65,536 rows once."""
        late = [size for number, size in self.memory if number > WARM]
        return max(late) - late[0] if late else 0

    def is_compared(self) -> bool:
        """Whether the memory was looked at often enough after WARM commands, so that growth would be seen."""
        return sum(number > WARM for number, _ in self.memory) >= SEEN

    def sizes(self) -> list:
        """Kilobytes of memory, each time it was looked at."""
        return [size for _, size in self.memory if size]


def checks_of(run: Pressure, status: int, said: str) -> list:
    """What is to hold of a run, each with its title."""
    audit = re.fullmatch(r"audit ok ([0-9]+)", run.last)
    checks = [
        ("the status is 0", status == 0),
        ("nothing but overruns and lost lines stands on standard error", all(map(BUSY.fullmatch, said.splitlines()))),
        ("the audit is right", audit is not None), ("the audit counts all commands", bool(audit) and int(audit[1]) >= run.number),
        ("as many commands as are wanted", run.number >= run.wanted), ("numbers rise", run.falling == 0),
        ("halts, each with its GO", run.halts > 0 and run.stopped_at is None), ("no scan in a halt", run.scans_in_halts == 0),
        ("no line is missing in a halt", run.gaps_in_halts == 0),
        (f"at most {MOST_MEMORY} kB of memory", 0 < max(run.sizes(), default=0) <= MOST_MEMORY),
    ]
    if run.is_compared():
        return checks + [("memory doesn't grow", run.growth() <= MOST_GROWTH)]
    if run.wanted >= WARM + 2 * SEEN * EACH:
        return checks + [(f"memory is looked at after {WARM} commands", False)]
    print(f"not asked: whether memory grows, which is seen after {WARM} commands, when the feed has gone round")
    return checks


def figures(run: Pressure, seconds: float) -> str:
    """What the run did, in a line."""
    kinds = ", ".join(f"{count} {kind}" for kind, count in sorted(run.kinds.items()))
    sizes = run.sizes() or [0]
    grown = f", grown by {run.growth()} kB after {WARM} commands" if run.is_compared() else ""
    return (f"{run.number} commands in {seconds:.0f} s; lines: {kinds}; {run.missing} lines left out; {run.halts} halts; "
            f"memory {min(sizes)} to {max(sizes)} kB{grown}")


def main() -> int:
    """Runs, prints the figures and what is wrong; gives the exit status."""
    with tempfile.TemporaryDirectory(prefix="pressure-") as work:
        begin = time.monotonic()
        run = Pressure(sys.argv[1], int(sys.argv[2]), Path(work))
        status = run.play()
        run.err.seek(0)
        said = run.err.read().decode("latin-1")
    checks = checks_of(run, status, said)
    for title, holds in checks:
        if not holds:
            print(f"not as it should be: {title} (status {status}, {said[:200]!r}, last line {run.last!r})")
    print(figures(run, time.monotonic() - begin))
    failed = sum(not holds for _, holds in checks)
    print(f"{len(checks) - failed} passed, {failed} failed")
    return 1 if failed else 0


if __name__ == "__main__":
    sys.exit(main())
