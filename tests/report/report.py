"""What report.sh does; its head says what that is."""

import hashlib
import re
import shutil
import subprocess
import sys
import tempfile
import time
from pathlib import Path

HERE = Path(__file__).resolve().parent
TOP = HERE.parent.parent
sys.path[:0] = [str(HERE.parent / "drawing"), str(HERE)]

from browser import Page  # noqa: E402
from listed import Standing, instances_of, standings_of, types_of  # noqa: E402

# What the page shows: of each chart the elements of a class, without the chart's name; and the table of values.
SHOWN = """(() => {
  const marks = {};
  for (const chart of document.querySelectorAll("#charts .chart")) {
    marks[chart.id] = {title: chart.querySelector("text").textContent, times: {}};
    for (const name of ["on", "fired", "ran", "forced"])
      marks[chart.id][name] = [...chart.querySelectorAll("." + name)].map(it => it.id.slice(chart.id.length + 1));
    for (const step of chart.querySelectorAll(".on")) marks[chart.id].times[step.id] = step.querySelector(":scope > .time").textContent;
  }
  const values = [...document.querySelectorAll("#values tbody tr")].map(it => it.textContent && [it.cells[0].textContent, it.cells[1].textContent]);
  return {marks, values, said: document.getElementById("said").textContent};
})()"""
GO = "(() => { const it = document.getElementById('place'); it.value = %d; it.dispatchEvent(new Event('input')); })()"


class Checks:
    """What holds, and what does not."""

    def __init__(self, program: str, folder: Path, browser: str):
        self.program, self.folder, self.browser, self.passed, self.failed = program, folder, browser, 0, 0

    def note(self, holds: bool, title: str):
        """Counts one."""
        if holds:
            self.passed += 1
        else:
            self.failed += 1
            print(f"not as it should be: {title[:500]}", flush=True)

    def run(self, *words):
        """The outcome of a command line of the program."""
        return subprocess.run([self.program, *map(str, words)], capture_output=True, text=True, timeout=120, check=False)

    def report(self, title: str, *files) -> Path:
        """The report of a chart and scripts, as a file."""
        done, page = self.run("report", *files), self.folder / "report.html"
        self.note((done.returncode, done.stderr) == (0, ""), f"{title}: status {done.returncode}, {done.stderr!r}")
        page.write_text(done.stdout)
        return page


def instant_of(line: str) -> str:
    """The instant of a line of replay."""
    return line.split()[0]


def commands_of(output: str) -> list:
    """The lines of replay that answer commands."""
    return [line for line in output.splitlines() if line and not line.startswith(("  ", "image "))]


def lines_of(script: str) -> list:
    """The lines of a script that say something."""
    return [line for line in script.splitlines() if line.split(";")[0].strip()]


def check_place(checks: Checks, title: str, page: Page, chart: Path, front: Path, place: int):
    """Holds what the page shows at a place to the replay of the front of the script."""
    page.eval(GO % place)
    shown, output = page.eval(SHOWN), checks.run("replay", chart, front).stdout
    listing = checks.run("list", chart).stdout
    types, instances = types_of(listing), instances_of(listing)
    standings, forced = standings_of(output)
    checks.note(shown["said"] == commands_of(output)[-1], f"{title}: the page says {shown['said']}")
    image = [line.split()[1:] for line in output.splitlines() if line.startswith("image ")]
    wanted = [[words[0], " ".join(words[1:])] for words in image]
    checks.note(shown["values"] == wanted, f"{title}: values {[it for it in zip(shown['values'], wanted) if it[0] != it[1]][:3]}")
    for name, program in instances.items():
        marks, standing, of_type = shown["marks"][name], standings.get(name, Standing()), types[program]
        checks.note(set(marks["on"]) == {f"step-{it}" for it in standing.steps}, f"{title}: {name} active {marks['on']}")
        checks.note(set(marks["fired"]) == {f"transition-{it}" for it in standing.cleared}, f"{title}: {name} cleared {marks['fired']}")
        rows = {(step, number): row.action for step, its in of_type.steps.items() for number, row in enumerate(its, 1)}
        ran = {f"step-{step}-{number}" for (step, number), action in rows.items() if step in standing.steps and action in standing.ran}
        ran |= {f"action-{it}" for it in standing.ran if it in of_type.bodies}
        checks.note(set(marks["ran"]) == ran, f"{title}: {name} executed {marks['ran']}, {ran}")
        own = {it.removeprefix(f"{name}.") for it in forced if it.startswith(f"{name}.")} | {it for it in forced if "." not in it} - of_type.variables
        wanted = {f"step-{step}-{number}" for (step, number), action in rows.items() if action in own - of_type.bodies.keys()}
        checks.note(set(marks["forced"]) == wanted, f"{title}: {name} forced {marks['forced']}")
        for step, time_said in standing.steps.items():
            told = marks["times"].get(f"{name}-step-{step}", "")
            checks.note(time_said.startswith(told.rstrip(".")) and told != "", f"{title}: the time of {step}: {told}")


def check_run(checks: Checks, title: str, page: Page, chart: Path, script: Path):
    """Goes through a run, place by place where time goes on."""
    said, commands = lines_of(script.read_text()), commands_of(checks.run("replay", chart, script).stdout)
    front = checks.folder / "front.script"
    places = [place for place in range(len(said)) if not commands[place].startswith("refused")
              and (place + 1 == len(said) or instant_of(commands[place + 1]) not in (instant_of(commands[place]), "refused"))]
    for place in places[:: max(1, len(places) // 25)]:
        front.write_text("\n".join(said[: place + 1]) + "\n")
        check_place(checks, f"{title}, place {place}", page, chart, front, place)


def check_page(checks: Checks, title: str, page: Page, files: list):
    """Versions, sums, outcomes and coverage."""
    facts = page.eval("[...document.querySelectorAll('.facts tr')].slice(1).map(it => [...it.cells].map(cell => cell.textContent))")
    kinds = ["chart"] + ["script"] * (len(files) - 1)
    wanted = [[kind, str(it), f"{it.stat().st_size} bytes", hashlib.sha256(it.read_bytes()).hexdigest()] for kind, it in zip(kinds, files)]
    checks.note(facts == wanted, f"{title}: files {facts}")
    covered = page.eval("document.getElementById('coverage').textContent")
    checks.note(covered == checks.run("cover", *files).stdout, f"{title}: coverage")
    rows = page.eval("[...document.querySelectorAll('#runs tbody tr')].map(it => [...it.cells].map(cell => cell.textContent))")
    wanted = []
    for script in files[1:]:
        output = checks.run("replay", files[0], script).stdout
        commands = commands_of(output)
        scans = [it for it in commands if re.match(r"T#\S+ (SCAN|SINGLE) ", it)]
        faults = len(re.findall(r"(?m)^  \w+ fault ", output))
        wanted.append([str(script), *map(str, (len(commands), sum(it.startswith("refused") for it in commands), len(scans),
                                               sum(it.endswith(" hit") for it in scans), faults))])
    checks.note(rows == wanted, f"{title}: runs {rows}, {wanted}")
    checks.note(page.eval("[...document.images].every(it => it.complete && it.naturalWidth > 0)"), f"{title}: a picture isn't shown")


def check_examples(checks: Checks):
    """The examples: each page is opened, and gone through."""
    for chart in sorted((TOP / "examples").glob("*.chart")):
        script = chart.with_suffix(".script")
        page = Page(checks.browser, checks.report(chart.stem, chart, script))
        check_page(checks, chart.stem, page, [chart, script])
        check_run(checks, chart.stem, page, chart, script)
        checks.note(page.messages == [], f"{chart.stem}: the browser says {page.messages[:2]}")
        checks.note([it for it in page.requests if not it.startswith(("file:", "data:"))] == [], f"{chart.stem}: requests {page.requests[:3]}")
        page.close()


def check_several(checks: Checks):
    """Two scripts, the second of which is chosen; keys and buttons; a hit and a refusal that lead to their places."""
    chart, other = TOP / "examples/pump.chart", checks.folder / "other.script"
    other.write_text("T#0s BREAK Pump1 STEP Pumping\nT#0s INPUT Start TRUE\nT#1ms SCAN Main\nT#1ms SCAN Main\nT#2ms GO\nT#300ms SCAN Main\n")
    files = [chart, chart.with_suffix(".script"), other]
    page = Page(checks.browser, checks.report("two scripts", *files))
    check_page(checks, "two scripts", page, files)
    page.eval("(() => { const it = document.getElementById('which'); it.value = 1; it.dispatchEvent(new Event('change')); })()")
    check_run(checks, "the second script", page, chart, other)
    commands = commands_of(checks.run("replay", chart, other).stdout)
    events = page.eval("[...document.querySelectorAll('#events li')].map(it => it.lastChild.textContent)")
    checks.note(events == [it for it in commands if it.endswith(" hit") or it.startswith("refused")], f"two scripts: events {events}")
    page.eval("document.querySelector('#events button').click()")
    checks.note(page.eval(SHOWN)["said"] == events[0], "two scripts: the event leads to its place")
    scans = [number for number, it in enumerate(commands) if re.match(r"T#\S+ SCAN ", it)]
    page.eval(GO % -1)
    for place in scans:
        page.eval("document.getElementById('behind').click()")
        checks.note(page.eval("Number(document.getElementById('place').value)") == place, f"two scripts: the scan at {place}")
    page.eval("document.getElementById('before').click()")
    checks.note(page.eval("Number(document.getElementById('place').value)") == scans[-2], "two scripts: the scan before")
    checks.note(page.messages == [], f"two scripts: the browser says {page.messages[:2]}")
    page.close()


def check_tests(checks: Checks):
    """What came of tests, and of a file of them that can't be read."""
    chart, good, bad = TOP / "examples/pump.chart", checks.folder / "good.sfctest", checks.folder / "bad.sfctest"
    good.write_text("TEST it stands\nT#0s SCAN Main\nEXPECT NOT Pump\nTEST <it> & fails\nT#0s SCAN Main\nEXPECT Pump\n")
    bad.write_text("TEST one\nEXPECT\n")
    page = Page(checks.browser, checks.report("tests", chart, good))
    wanted = checks.run("test", chart, good).stdout
    checks.note("1 passed, 1 failed" in wanted and page.eval("document.getElementById('tests').textContent") == wanted, "tests: what came of them")
    checks.note(page.messages == [], f"tests: the browser says {page.messages[:2]}")
    page.close()
    done = checks.run("report", chart, bad)
    checks.note((done.returncode, done.stdout) == (1, "") and done.stderr == f"{bad}: script line 2\n", f"tests that can't be read: {done.stderr!r}")


def check_hostile(checks: Checks):
    """Names of files that look like markup are text; a chart without a script has no slider."""
    folder = checks.folder / "<b>&amp;<script>alert(1)<"
    folder.mkdir(parents=True)
    chart = folder / "script>.chart"
    shutil.copy(TOP / "examples/lamp.chart", chart)
    page = Page(checks.browser, checks.report("names", chart))
    checks.note(page.eval("document.querySelector('h1').textContent") == str(chart), "names: the heading")
    checks.note(page.eval("document.scripts.length") == 1 and page.messages == [], f"names: {page.messages[:2]}")
    checks.note(page.eval("document.querySelector('.controls').hidden"), "names: controls without a script")
    page.close()


def check_long(checks: Checks):
    """A run of 20,000 scans is shown within two seconds: on a machine that others keep busy, two seconds of the page's processor time."""
    chart, script = TOP / "examples/pump.chart", checks.folder / "long.script"
    lines = []
    for number in range(20_000):
        if number % 50 == 0:
            lines.append(f"T#{number * 20}ms INPUT {'Start' if number % 100 == 0 else 'Stop'} {'TRUE' if number % 200 < 100 else 'FALSE'}")
        lines.append(f"T#{number * 20}ms SCAN Main")
    script.write_text("\n".join(lines) + "\n")
    file = checks.report("20,000 scans", chart, script)
    page = Page(checks.browser, file)
    took = page.eval("performance.getEntriesByName('first-contentful-paint')[0]?.startTime ?? performance.now()")
    shown, begin = page.busy(), time.monotonic()
    checks.note(min(took, shown) < 2000, f"20,000 scans: first paint after {took:.0f} ms, {shown:.0f} of them at work")
    for place in range(0, 20_000, 2_000):
        page.eval(GO % place)
    took, gone = (time.monotonic() - begin) * 1000, page.busy() - shown
    checks.note(min(took, gone) < 2000, f"20,000 scans: ten places took {took:.0f} ms, {gone:.0f} of them at work")
    page.close()


def check_lines(checks: Checks):
    """Command lines that are wrong, and what can't be read or written."""
    chart, script = TOP / "examples/pump.chart", TOP / "examples/pump.script"
    missing = checks.folder / "missing"
    for words, status, told in (
        ([], 2, "FILE"),
        ([missing], 3, "read fault\n"),
        ([chart, missing], 3, f"{missing}: read fault\n"),
        ([chart, chart], 1, f"{chart}: script line 1"),
        ([script], 1, "refused "),
    ):
        done = checks.run("report", *words)
        checks.note(done.returncode == status and told in done.stderr and not done.stdout, f"report {words}: {done.returncode}, {done.stderr!r}")
    with open("/dev/full", "w", encoding="ascii") as full:
        done = subprocess.run([checks.program, "report", chart], stdout=full, stderr=subprocess.PIPE, text=True, check=False)
    checks.note((done.returncode, done.stderr) == (3, "write fault\n"), "report to a full device")


def main() -> int:
    """Checks all; gives the exit status."""
    browser = shutil.which("chromium") or ""
    with tempfile.TemporaryDirectory(prefix="report-") as folder:
        checks = Checks(sys.argv[1], Path(folder), browser)
        check_lines(checks)
        if browser:
            check_examples(checks)
            check_several(checks)
            check_tests(checks)
            check_hostile(checks)
            check_long(checks)
        else:
            print("skipped: chromium isn't installed")
        print(f"{checks.passed} passed, {checks.failed} failed")
    return 1 if checks.failed else 0


if __name__ == "__main__":
    sys.exit(main())
