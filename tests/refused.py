"""What refused.sh does; its head says what that is."""

import json
import os
import re
import signal
import subprocess
import sys
import tempfile
import threading
import time
from concurrent.futures import ThreadPoolExecutor
from pathlib import Path
from typing import NamedTuple

TOP = Path(__file__).resolve().parent.parent
EXAMPLES = TOP / "examples"
DATA = TOP / "crates/conformance/data"
PATIENCE = 60
CALM = 100
MOST = 20_000
MARK = "`?tests/refused.sh`? refuses each allocation"
SWEPT = ["openings::the_opening_of_no_event_begins_anew", "debugger::a_debugger_is_interrupted_once",
         "crews::a_worker_keeps_the_receipts_of_twenty_scans", "crews::a_crew_of_one_keeps_the_receipts_of_twenty_scans"]
RETRIED = "retries::the_same_source_and_plant_are_right_once_there_is_memory"
SCANS = ["scans::ten_are_accepted", "scans::a_hundred_thousand_are_accepted"]
WANT = re.compile(rb"^error: .*(Memory|AllocError|AllocFailed)", re.MULTILINE)
SESSION = b"STOP\nREAD Lamp\nGO\nGO\nJUMP\n"
AUDIT = b"audit ok 4\n"


class Ended(NamedTuple):
    """How a run ended: its exit status (negative: a signal), both outputs, and how many allocations and reads it made, if that is known."""
    status: int
    out: bytes
    err: bytes
    counts: tuple


class Watch(threading.Thread):
    """Ends each run that goes on for longer than it may."""

    def __init__(self):
        super().__init__(daemon=True)
        self.lock, self.began = threading.Lock(), {}

    def run(self):
        while True:
            time.sleep(1)
            with self.lock:
                for child, begin in self.began.items():
                    if time.monotonic() - begin > PATIENCE:
                        os.kill(child, signal.SIGKILL)

    def wait_for(self, child: int) -> int:
        """The exit status of a child."""
        with self.lock:
            self.began[child] = time.monotonic()
        os.waitid(os.P_PID, child, os.WEXITED | os.WNOWAIT)
        with self.lock:
            del self.began[child]
        return os.waitstatus_to_exitcode(os.waitpid(child, 0)[1])


class Runs:
    """Runs programs with what refuses, several at once, and counts what is as it should be."""

    def __init__(self, program: str, library: str, folder: Path):
        self.program, self.library, self.folder = program, library, folder
        self.passed = self.failed = 0
        self.local, self.watch = threading.local(), Watch()
        self.watch.start()
        self.pool = ThreadPoolExecutor(os.cpu_count() or 1)

    def place(self) -> Path:
        """The folder of the thread that asks."""
        if not hasattr(self.local, "place"):
            self.local.place = Path(tempfile.mkdtemp(dir=self.folder))
        return self.local.place

    def run(self, words: list, setting: str = "", given: bytes = b"", program: str = "") -> Ended:
        """Runs the program with these words, a setting of refuse.c (NAME=VALUE), and this on standard input."""
        place = self.place()
        out, err, counts, into = place / "out", place / "err", place / "counts", place / "in"
        into.write_bytes(given)
        name, _, value = (setting or "SFC_NONE=").partition("=")
        environment = {"LD_PRELOAD": self.library, "SFC_COUNTS": str(counts), name: value}
        flags = os.O_WRONLY | os.O_CREAT | os.O_TRUNC
        files = [(os.POSIX_SPAWN_OPEN, 0, str(into), os.O_RDONLY, 0), (os.POSIX_SPAWN_OPEN, 1, str(out), flags, 0o600),
                 (os.POSIX_SPAWN_OPEN, 2, str(err), flags, 0o600)]
        program = program or self.program
        status = self.watch.wait_for(os.posix_spawn(program, [program, *map(str, words)], environment, file_actions=files))
        made = tuple(int(it) for it in counts.read_text().split()) if counts.exists() else (0, 0)
        counts.unlink(missing_ok=True)
        return Ended(status, out.read_bytes(), err.read_bytes(), made)

    def note(self, holds: bool, title: str, ended: Ended = None):
        """Counts one."""
        self.passed, self.failed = self.passed + bool(holds), self.failed + (not holds)
        if not holds:
            status = f" (status {ended.status}, {ended.err[-200:]!r})" if ended else ""
            print(f"not as it should be: {title}{status}", flush=True)

    def all_of(self, trials: list):
        """Does each trial, which is a call, several at once; each gives what `note` takes."""
        for noted in self.pool.map(lambda trial: trial(), trials):
            self.note(*noted)


class Sweep:
    """A command with all that can be refused to it; undisturbed it writes `whole` and ends with status `ends`."""

    def __init__(self, runs: Runs, whole: bytes, words: list, ends: int = 0, given: bytes = b""):
        self.runs, self.whole, self.words, self.ends, self.given = runs, whole, words, ends, given

    def is_whole(self, ended: Ended) -> bool:
        """Whether it is the undisturbed run."""
        return ended[:3] == (self.ends, self.whole, b"")

    def is_out_of_memory(self, ended: Ended) -> bool:
        """Whether it tells of want of memory, perhaps behind the name of a file, and wrote a front of the output."""
        told = [b"out of memory\n", *(f"{word}: out of memory\n".encode() for word in self.words)]
        return ended.status == 4 and ended.err in told and self.whole.startswith(ended.out)

    def trial(self, title: str, setting: str, holds):
        """A trial with a setting."""
        def run():
            ended = self.runs.run(self.words, setting, self.given)
            return holds(ended), f"{self.words[0]}, {title}", ended
        return run

    def memory(self, allocations: int):
        """Each allocation is refused."""
        def holds(ended):
            return self.is_whole(ended) or self.is_out_of_memory(ended)
        self.runs.all_of([self.trial(f"allocation {n} of {allocations} refused", f"SFC_REFUSE=alloc:{n}", holds)
                          for n in range(1, allocations + 1)])

    def files(self, reads: int):
        """Each read is refused, and the files fail after each number of bytes."""
        def holds(ended):
            return ended[:3] == (3, b"", b"read fault\n")
        size = len(self.given) + sum(Path(word).stat().st_size for word in self.words if Path(word).is_file())
        self.runs.all_of([self.trial(f"read {n} of {reads} refused", f"SFC_REFUSE=read:{n}", holds) for n in range(1, reads + 1)]
                         + [self.trial(f"files that fail after {k} of {size} bytes", f"SFC_REFUSE=take:{k}", holds) for k in range(size)])

    def output(self):
        """The output has room for each number of bytes."""
        def has_room_for(k):
            return lambda ended: ended[:3] == (3, self.whole[:k], b"write fault\n")
        size = len(self.whole)
        self.runs.all_of([self.trial(f"an output that has room for {k} of {size} bytes ({kind})", f"SFC_REFUSE={kind}:{k}", has_room_for(k))
                          for kind in ("write", "full") for k in range(size)])

    def undisturbed(self) -> tuple:
        """The counts of the undisturbed run; reads and writes of one byte change nothing of it."""
        ended = self.runs.run(self.words, "", self.given)
        self.runs.note(self.is_whole(ended), f"{self.words[0]}, the undisturbed run", ended)
        self.runs.all_of([self.trial("reads and writes of one byte", "SFC_SHORT=1", self.is_whole)])
        return ended.counts

    def all(self):
        """All of it."""
        allocations, reads = self.undisturbed()
        self.runs.note(allocations > 0 and reads > 0, f"{self.words[0]}, allocations and reads are counted")
        self.memory(allocations)
        self.files(reads)
        self.output()


def shown_in(page: str, heading: str) -> bytes:
    """The first block behind a heading of a page."""
    text = (TOP / "docs" / page).read_text(encoding="utf-8")
    return re.search(r"^```\w*\n(.*?)^```$", text[text.index(f"\n{heading}"):], re.DOTALL | re.MULTILINE)[1].encode()


def try_commands(runs: Runs):
    """Replays, among them sessions with breakpoints that are hit, single scans and halts, one with a condition, and one that is cut while
    it is halted; a listing, a check and an explanation."""
    for name, folder in (("mixing", EXAMPLES), ("commissioning", EXAMPLES), ("late_dose", EXAMPLES), ("epoch_while_stopped", DATA)):
        chart, script = folder / f"{name}.chart", folder / f"{name}.script"
        Sweep(runs, (folder / f"{name}.expect").read_bytes(), ["replay", chart, script]).all()
    listed = DATA / "listed_mix.chart"
    Sweep(runs, (DATA / "listed_mix.expect").read_bytes(), ["list", listed]).all()
    Sweep(runs, b"ok\n", ["check", listed]).all()
    explained = Sweep(runs, shown_in("FORMATS.md", "## Refusals"), ["explain", "14"])
    explained.memory(explained.undisturbed()[0])
    explained.output()


def try_memory(runs: Runs):
    """Drawings, a waveform, what is never reached, tests, and sessions by hand: each allocation is refused."""
    chart, script, late = EXAMPLES / "mixing.chart", EXAMPLES / "mixing.script", EXAMPLES / "late_dose.chart"
    typed = late.with_suffix(".script").read_bytes() + b"IMAGE\nAGAIN 20\n"
    for words, given in ((["lint", chart], b""), (["draw", chart], b""), (["draw", "--after", script, chart], b""), (["wave", chart, script], b""),
                         (["cover", chart, script], b""), (["test", chart, chart.with_suffix(".sfctest")], b""),
                         (["debug", chart], script.read_bytes()), (["debug", late], typed)):
        calm = runs.run(words, "", given)
        runs.note(calm.status == 0 and calm.out and not calm.err, f"{words[0]}, the undisturbed run", calm)
        sweep = Sweep(runs, calm.out, words, 0, given)
        sweep.memory(sweep.undisturbed()[0])


def including(folder: Path) -> Path:
    """Tests in a file that another includes, beside their chart; the one that includes."""
    (folder / "beside.chart").write_bytes((EXAMPLES / "lamp.chart").read_bytes())
    (folder / "beside_lit.sfctest").write_text("TEST lit\nRUN T#0s\nEXPECT Lamp\n")
    tests = folder / "beside.sfctest"
    tests.write_text("INCLUDE beside_lit.sfctest\nTEST dark\nEXPECT NOT Lamp\n")
    return tests


def try_including(runs: Runs):
    """Tests that are included: each allocation is refused, while they are run and while an editor shows their faults."""
    tests = including(runs.folder)
    document = {"uri": f"file://{tests}", "languageId": "sfc-test", "version": 1, "text": tests.read_text() + "EXPECT Lmap\n"}
    opened = {"jsonrpc": "2.0", "method": "textDocument/didOpen", "params": {"textDocument": document}}
    calls = [{"jsonrpc": "2.0", "id": number, "method": method, "params": {}} for number, method in ((1, "initialize"), (2, "shutdown"))]
    lsp = framed([calls[0], opened, calls[1], {"jsonrpc": "2.0", "method": "exit"}])
    for words, given, told in ((["test", tests.with_suffix(".chart"), tests], b"", b"2 passed, 0 failed"), (["lsp"], lsp, b"Lmap")):
        calm = runs.run(words, "", given)
        runs.note(calm.status == 0 and told in calm.out and not calm.err, f"{words[0]}, files that are included, the undisturbed run", calm)
        sweep = Sweep(runs, calm.out, words, 0, given)
        sweep.memory(sweep.undisturbed()[0])


def framed(messages: list) -> bytes:
    """Messages as editors send them."""
    texts = [json.dumps(it).encode() for it in messages]
    return b"".join(b"Content-Length: %d\r\n\r\n%s" % (len(it), it) for it in texts)


def try_editors(runs: Runs):
    """A session of each protocol of editors: each allocation is refused."""
    chart = EXAMPLES / "lamp.chart"
    uri, text = f"file://{chart}", chart.read_text(encoding="utf-8")
    document = {"uri": uri, "languageId": "sfc-chart", "version": 1, "text": text.replace("Lamp(N)", "Lmap(N)")}
    place = {"textDocument": {"uri": uri}, "position": {"line": 3, "character": 6}}
    asked = [("initialize", {"capabilities": {}}), ("textDocument/hover", place), ("textDocument/documentSymbol", place), ("shutdown", None)]
    calls = [{"jsonrpc": "2.0", "id": number, "method": method, "params": params} for number, (method, params) in enumerate(asked, 1)]
    opened = {"jsonrpc": "2.0", "method": "textDocument/didOpen", "params": {"textDocument": document}}
    lsp = framed([calls[0], opened, *calls[1:], {"jsonrpc": "2.0", "method": "exit"}])
    wanted = [("initialize", {"adapterID": "sfcmon"}), ("launch", {"program": str(chart), "stopOnEntry": True}), ("configurationDone", {}),
              ("threads", {}), ("next", {"threadId": 1}), ("stackTrace", {"threadId": 1}), ("stepBack", {"threadId": 1}), ("disconnect", {})]
    dap = framed([{"seq": seq, "type": "request", "command": command, "arguments": given} for seq, (command, given) in enumerate(wanted, 1)])
    for word, given in (("lsp", lsp), ("dap", dap)):
        calm = runs.run([word], "", given)
        runs.note(calm.status == 0 and calm.out and not calm.err, f"{word}, the undisturbed run", calm)
        sweep = Sweep(runs, calm.out, [word], 0, given)
        sweep.memory(sweep.undisturbed()[0])


def try_why(runs: Runs):
    """What is told where there is no fault; of a chart that can't be read, of one that can't be loaded, of three faults, and of a script."""
    lamp, script = EXAMPLES / "lamp.chart", EXAMPLES / "lamp.script"
    text = lamp.read_bytes()
    Sweep(runs, b"no fault\n", ["why", lamp, script]).all()
    charts = {"cut": text.replace(b"Lamp(N);", b"Lamp(N)"), "token": b"PROGRAM Mix\n  VAR a__b : INT; END_VAR\n",
              "name": text.replace(b"Lamp(N)", b"Lmap(N)"), "dark": text.replace(b"INITIAL_STEP", b"STEP")}
    scripts = {"name": b"T#0s BREAK P STEP S WHEN Lmap\n", "jump": b"T#0s JUMP\n"}
    tests = {"word": b"LET a = Lmap\nEXPECT a\n", "names": b"SCAN Mian\nEVERY T#1s INPUT Strat TOGGLE\n", "right": b"NEVER Lamp AND NOT Lamp\n"}
    for name, body in charts.items():
        file = runs.folder / f"{name}.chart"
        file.write_bytes(body)
        Sweep(runs, runs.run(["why", file]).out, ["why", file], 1).all()
    file = runs.folder / "three.chart"
    file.write_bytes(text.replace(b"Lamp(N);", b"Lmap(N); Lamp(L); Lamp(N)"))
    Sweep(runs, runs.run(["why", "--all", file]).out, ["why", "--all", file], 1).all()
    file = runs.folder / "warned.script"
    file.write_bytes(b"T#0s SCAN Mian\n")
    Sweep(runs, runs.run(["why", lamp, file]).out, ["why", lamp, file], 0).all()
    for name, body in scripts.items():
        file = runs.folder / f"{name}.script"
        file.write_bytes(body)
        Sweep(runs, runs.run(["why", lamp, file]).out, ["why", lamp, file], 1).all()
    for name, body in tests.items():
        file = runs.folder / f"{name}.sfctest"
        file.write_bytes(body)
        calm = runs.run(["why", lamp, file])
        sweep = Sweep(runs, calm.out, ["why", lamp, file], calm.status)
        sweep.memory(sweep.undisturbed()[0])
        sweep.output()


def try_refused_chart(runs: Runs):
    """A chart that is refused, with a script that fails after each number of bytes: the chart's refusal is told."""
    chart, script = runs.folder / "dark.chart", EXAMPLES / "lamp.script"
    front = chart.stat().st_size
    sweep = Sweep(runs, b"", ["replay", chart, script])
    runs.all_of([sweep.trial(f"a refused chart, and a script that fails after {k} bytes", f"SFC_REFUSE=take:{front + k}",
                             lambda ended: ended[:3] == (1, b"", b"refused 14 NoInitial\n")) for k in range(1, script.stat().st_size)])


def edge_chart(runs: Runs) -> Path:
    """The lamp with a task that is never due."""
    text = (EXAMPLES / "lamp.chart").read_text(encoding="utf-8")
    text = re.sub(r"TASK Main\(.*PRIORITY := 1\)", "TASK Main(SINGLE := Go, PRIORITY := 1)", text)
    file = runs.folder / "edge.chart"
    file.write_text(text.replace("VAR_GLOBAL", "VAR_GLOBAL Go AT %IX0.7 : BOOL;"), encoding="utf-8")
    return file


def try_run(runs: Runs):
    """A run whose task is never due, with a session: what is refused is told, or the run is undisturbed."""
    chart = edge_chart(runs)
    sweep = Sweep(runs, AUDIT, ["run", "--trace", "0", chart], given=SESSION)
    calm = runs.run(sweep.words, "", SESSION)
    runs.note(calm.status == 0 and calm.out == AUDIT, "run, the undisturbed run", calm)
    allocations = calm.counts[0]

    def is_calm(ended):
        return ended[:3] == calm[:3]

    def wants_memory(ended):
        return is_calm(ended) or ended.status == 4 and (not ended.err or ended.err.splitlines()[-1] == b"out of memory")

    def has_room_for(k):
        return lambda ended: (ended.status, ended.out, ended.err.splitlines()[-1:]) == (3, AUDIT[:k], [b"write fault"])
    runs.all_of([sweep.trial(f"allocation {n} of {allocations} refused", f"SFC_REFUSE=alloc:{n}", wants_memory)
                 for n in range(1, allocations + 6)]
                + [sweep.trial(f"the last line has room for {k} bytes ({kind})", f"SFC_REFUSE={kind}:{k}", has_room_for(k))
                   for kind in ("write", "full") for k in range(len(AUDIT))]
                + [sweep.trial("reads and writes of one byte", "SFC_SHORT=1", is_calm)])
    try_cut_run(runs, sweep, chart.stat().st_size)


def try_cut_run(runs: Runs, sweep: Sweep, front: int):
    """The run's chart and session fail after each number of bytes: the chart's fault is a read fault, and a session that fails goes as one
    that ends there, with the fault told behind the rest."""
    def after(k):
        def trial():
            ended = runs.run(sweep.words, f"SFC_REFUSE=take:{k}", SESSION)
            if k <= front:
                holds = ended[:3] == (3, b"", b"read fault\n")
            else:
                short = runs.run(sweep.words, "SFC_SHORT=1", SESSION[:k - front])
                holds = short.status == 0 and ended[:3] == (3, short.out, short.err + b"read fault\n")
            return holds, f"run, chart and session fail after {k} of {front + len(SESSION)} bytes", ended
        return trial
    runs.all_of([after(k) for k in range(front + len(SESSION))])


def test_program(name: str) -> str:
    """The built tests of the crate that has a test; empty where rt hasn't built them."""
    module, test = name.split("::")
    for file in TOP.glob(f"crates/*/src/**/{module}.rt"):
        crate = file.relative_to(TOP / "crates").parts[0]
        if f"fn {test}(" in file.read_text(encoding="utf-8"):
            program = TOP / f"crates/{crate}/out/{crate}_tests"
            return str(program) if os.access(program, os.X_OK) else ""
    raise LookupError(f"no crate has the test {name}")


def swept() -> list:
    """The tests in code each of whose allocations is refused: those that are named here, and those that say so of themselves."""
    found = list(SWEPT)
    for file in sorted(TOP.glob("crates/*/src/**/*.rt")):
        for name in re.findall(rf"// {MARK}[^\n]*\n(?://[^\n]*\n)*#\[test\]\nfn (\w+)", file.read_text(encoding="utf-8")):
            found.append(f"{file.stem}::{name}")
    return [name for name in dict.fromkeys(found) if name != RETRIED]


def tells_of_memory(ended: Ended) -> bool:
    """Whether a test ends well, or for want of memory."""
    return ended.status == 0 or bool(WANT.search(ended.out + ended.err))


def sweep(runs: Runs, name: str, program: str, how: str) -> int:
    """Each allocation of a test in code is refused, or each with the one behind it (`pair`): it ends for want of memory, or well. A hundred
    that end well in turn are behind the last one. It gives how often it ended with `Memory`."""
    def refused(n):
        def trial():
            ended = runs.run([name], f"SFC_REFUSE={how}:{n}", program=program)
            return ended, n
        return trial
    calm = ends = first = 0
    while calm < CALM and first < MOST:
        batch = [refused(n) for n in range(first + 1, first + CALM + 1)]
        first += CALM
        for ended, n in runs.pool.map(lambda trial: trial(), batch):
            if calm < CALM:
                runs.note(tells_of_memory(ended), f"{name}, allocation {n} refused ({how})", ended)
                calm = calm + 1 if ended.status == 0 else 0
                ends += b"error: Memory" in (ended.out + ended.err).splitlines()
    runs.note(calm == CALM, f"{name}, the undisturbed run ({how})")
    return ends


def try_test(runs: Runs, name: str, program: str):
    """Each allocation of a test in code is refused. A worker asks for room for many receipts, and where that is refused for room for one: it
    ends for want of memory where both are, and says so itself (`Memory`), once the test has seen a receipt of each accepted call."""
    ends = sweep(runs, name, program, "alloc")
    if name.startswith("crews::"):
        both = sweep(runs, name, program, "pair")
        runs.note(both > ends, f"{name}, a worker's want of memory ({both - ends} times)")


def try_retries(runs: Runs, program: str):
    """A load and a listing that memory is refused to are called again with the same source and plant: the answer is right then. What
    was called again has made more allocations than the undisturbed run."""
    calm = runs.run([RETRIED], program=program)
    allocations, again = calm.counts[0], 0
    runs.note(calm.status == 0 and allocations > 0, f"{RETRIED}, the undisturbed run", calm)
    trials = [lambda n=n: (runs.run([RETRIED], f"SFC_REFUSE=alloc:{n}", program=program), n) for n in range(1, allocations + 1)]
    for ended, n in runs.pool.map(lambda trial: trial(), trials):
        runs.note(tells_of_memory(ended), f"{RETRIED}, allocation {n} of {allocations} refused", ended)
        again += ended.status == 0 and ended.counts[0] > allocations
    runs.note(again > 20, f"{RETRIED}, calls that were made again ({again})")
    print(f"{again} of {allocations} refused allocations, after which a load or a listing was called again and was right")


def try_scans(runs: Runs, programs: list):
    """Ten scans and a hundred thousand make equally many allocations: all memory is taken at the opening."""
    few, many = (runs.run([name], program=program) for name, program in zip(SCANS, programs))
    for name, ended in zip(SCANS, (few, many)):
        runs.note(ended.status == 0 and 0 < ended.counts[0] == few.counts[0],
                  f"{name}: {ended.counts[0]} allocations, where ten make {few.counts[0]}", ended)


def try_code(runs: Runs):
    """Tests in code that make openings, read conditions, open a debugger and run workers, which no command does by itself."""
    programs = {name: test_program(name) for name in [*swept(), RETRIED, *SCANS]}
    missing = sorted(name for name, program in programs.items() if not program)
    if missing:
        print(f"not asked, since neither rt ci nor rt test has built them: {', '.join(missing)}")
    for name in swept():
        if programs[name]:
            try_test(runs, name, programs[name])
    if programs[RETRIED]:
        try_retries(runs, programs[RETRIED])
    if all(programs[name] for name in SCANS):
        try_scans(runs, [programs[name] for name in SCANS])


def main() -> int:
    """Tries all; gives the exit status."""
    here = Path(__file__).resolve().parent
    with tempfile.TemporaryDirectory(prefix="refused-") as work:
        library = f"{work}/refuse.so"
        subprocess.run(["cc", "-O1", "-shared", "-fPIC", "-o", library, str(here / "refuse.c"), "-ldl"], check=True)
        runs = Runs(sys.argv[1], library, Path(work))
        for part in (try_commands, try_memory, try_editors, try_including, try_why, try_refused_chart, try_run, try_code):
            part(runs)
        runs.pool.shutdown()
    print(f"{runs.passed} passed, {runs.failed} failed")
    return 1 if runs.failed else 0


if __name__ == "__main__":
    sys.exit(main())
