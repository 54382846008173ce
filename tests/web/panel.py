"""panel.py INDEX PROGRAM: the page over a run (share/python/panel.py), in Chromium: looked at, and steered.

The last line is 'N passed, M failed'.
"""
import subprocess
import sys
import tempfile
import urllib.error
import urllib.request
from pathlib import Path

from browsers import Chromium
from webpage import Webpage

TOP = Path(__file__).resolve().parent.parent.parent
CHART = TOP / "examples/mixing.chart"
COUNTS = [0, 0]


def attempt(name, act):
    try:
        act()
        COUNTS[0] += 1
    except Exception as error:  # whatever it is, the others are tried
        COUNTS[1] += 1
        print(f"not as it should be: {name}: {type(error).__name__}: {str(error)[:500]}", flush=True)


def same(found, wanted):
    assert found == wanted, f"{found!r} for {wanted!r}"


def status(address, **more):
    try:
        return urllib.request.urlopen(urllib.request.Request(address, **more), timeout=20).status
    except urllib.error.HTTPError as error:
        return error.code


def begin(program, index, *words):
    command = [sys.executable, str(TOP / "share/python/panel.py"), str(CHART), "--program", program, "--page", index, *words]
    process = subprocess.Popen(command, stdout=subprocess.PIPE, stderr=subprocess.DEVNULL, text=True)
    return process, process.stdout.readline().strip()


def strangers(address):
    """Who may not look and not steer: without the token, from another page, under another name."""
    root = address.rsplit("/", 2)[0]
    same(status(f"{root}/"), 404)
    same(status(f"{root}/{'x' * 32}/chart"), 404)
    same(status(f"{address}chart", headers={"Host": "elsewhere.example"}), 404)
    same(status(f"{address}say", data=b"STOP", headers={"Origin": "http://elsewhere.example"}), 404)
    same(status(f"{address}../chart"), 404)
    same(status(f"{address}say", data=b"STOP\nEND"), 403)
    same(status(f"{address}say", data=b"x" * 5000), 404)


def looked_at(page, address):
    page.until("#output", "Tank1 2 steps Ready=", 90)
    same(page.attribute("body", "data-live"), "look")
    same(page.value("getComputedStyle(document.getElementById('halt')).display"), "none")
    page.click(f"{page.variable('Start')} .switch")
    page.until("#notice", "only looked at")
    same(status(f"{address}say", data=b"STOP"), 403)


def steered(page):
    page.until("#output", "Tank1 1 steps Ready=", 90)
    page.click(f"{page.variable('Start')} .switch")
    page.until_has(page.point("Tank1-step-Water"), "on")
    page.click("#halt")
    page.until("#mode", "halted")
    page.click("#single")
    page.until("#output", "SINGLE Main")
    page.click("#go")
    page.until("#mode", "running")


def looked_back(page):
    page.click("#back")
    place, count = page.text("#where").split(" of ")
    page.wait(f"Number(document.getElementById('where').textContent.split(' of ')[1]) > {int(count) + 3}", 60)
    same(page.text("#where").split(" of ")[0], place)


def replayed(page, program):
    """What the page has heard is a script that the program plays with nothing refused."""
    script = page.script()
    with tempfile.TemporaryDirectory() as folder:
        file = Path(folder, "script")
        file.write_text(script)
        done = subprocess.run([program, "replay", "--strict", str(CHART), str(file)], capture_output=True, text=True, check=False)
    same(done.returncode, 0)
    assert done.stdout.count("\n  Tank1 ") > 5


def main():
    index, program = sys.argv[1:3]
    for words, act in (((), None), (("--control",), steered)):
        process, address = begin(program, index, *words)
        browser = Chromium()
        try:
            page = Webpage(browser, address)
            browser.size(1300, 850)
            browser.open(address)
            page.ready()
            attempt(f"the run {' '.join(words)}", (lambda: steered(page)) if act else lambda: looked_at(page, address))
            if act:
                attempt("looking back", lambda: looked_back(page))
                attempt("its script", lambda: replayed(page, program))
                attempt("strangers", lambda: strangers(address))
            attempt("the console", lambda: same(browser.console, []))
            others = [it for it in browser.requests if not it.startswith((address, "blob:", "data:", "about:"))]
            attempt("requests", lambda: same(others, []))
        finally:
            browser.close()
            process.terminate()
            attempt("its end", lambda: same(process.wait(30), 0))
    print(f"{COUNTS[0]} passed, {COUNTS[1]} failed")
    return COUNTS[1] > 0


sys.exit(main())
