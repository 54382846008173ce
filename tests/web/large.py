"""large.py INDEX: a chart of 1,000 steps and a script of 20,000 lines in the page, in Chromium, and how long they take.

The last line is 'N passed, M failed'.
"""
import sys
from pathlib import Path

from browsers import Chromium
from webpage import Webpage

STEPS, LINES = 1000, 20_000
SCAN, SLIDE, REPLAY = 60, 200, 30_000  # milliseconds


def ring(count):
    steps = "".join(f"  {'' if k else 'INITIAL_'}STEP S{k}:\n    Lamp(N);\n  END_STEP\n" for k in range(count))
    ways = "".join(f"  TRANSITION FROM S{k} TO S{(k + 1) % count} := TRUE; END_TRANSITION\n" for k in range(count))
    return (f"PROGRAM Ring\n{steps}{ways}END_PROGRAM\nCONFIGURATION C\n  RESOURCE R ON Plc\n    VAR_GLOBAL\n      Lamp AT %QX0.0 : BOOL;\n"
            "    END_VAR\n    TASK Main(INTERVAL := T#100ms, PRIORITY := 1);\n    PROGRAM P WITH Main : Ring;\n  END_RESOURCE\nEND_CONFIGURATION\n")


# The middle one of the times of so many clicks, each behind a frame that has shown what the one before did: in milliseconds.
CLICKS = """(async () => { const it = document.getElementById('%s'), times = [], soon = () => new Promise(done => setTimeout(done));
  for (let k = 0; k < %d; k++) { const from = performance.now(); it.click(); await soon(); document.body.offsetHeight;
  times.push(performance.now() - from); await new Promise(done => requestAnimationFrame(() => setTimeout(done))); }
  return times.sort((a, b) => a - b)[times.length >> 1]; })()"""
# The same of going to places by the slider.
SLIDES = """(async () => { const it = document.getElementById('slider'), where = document.getElementById('where'), times = [];
  for (const place of [%s]) { const from = performance.now(); it.value = place; it.dispatchEvent(new Event('input'));
  while (!where.textContent.startsWith(place + ' of')) await new Promise(done => setTimeout(done)); document.body.offsetHeight;
  times.push(performance.now() - from); } return times.sort((a, b) => a - b)[times.length >> 1]; })()"""


def tell(what, found, limit):
    print(f"{what}: {found:.0f} ms, of {limit}", flush=True)
    return found <= limit


def main():
    browser, fine = Chromium(), []
    try:
        page = Webpage(browser, f"file://{Path(sys.argv[1]).resolve()}")
        browser.size(1400, 900)
        page.start()
        page.put("script", "")
        page.put("chart", ring(STEPS))
        browser.wait(f"document.querySelectorAll('#drawing .step').length === {STEPS}", 120)
        fine.append(tell(f"a scan of {STEPS} steps", browser.value(CLICKS % ("scan", 30)), SCAN))
        page.example("mixing")
        script = "".join(f"T#{k * 100}ms SCAN Main\n" for k in range(LINES))
        page.put("script", script)
        from_ = browser.value("performance.now()")
        page.choose("#slider", str(LINES))
        page.until("#where", f"{LINES} of {LINES}", 120)
        fine.append(tell(f"going to line {LINES}", browser.value("performance.now()") - from_, REPLAY))
        fine.append(tell("going to and fro", browser.value(SLIDES % "500, 12345, 19999, 3, 10000, 15500, 20000"), SLIDE))
        fine.append(tell(f"a scan behind {LINES} lines", browser.value(CLICKS % ("scan", 10)), SCAN * 2))
    finally:
        browser.close()
    print(f"{sum(fine)} passed, {len(fine) - sum(fine)} failed")
    return not all(fine)


sys.exit(main())
