"""pictures.py INDEX FOLDER: pictures of the page in both themes and at the width of a phone, to be looked at."""
import sys
from pathlib import Path

from browsers import Chromium
from webpage import Webpage

TOP = Path(__file__).resolve().parent.parent.parent


def take(page, folder, theme):
    page.size(1400, 900)
    page.start()
    for it in ("scan", "scan"):
        page.click(f"#{it}")
    page.go(2)
    page.example("mixing")
    page.go(9)
    page.tab("script")
    page.wait("document.querySelector('#drawing .on')")
    page.tab("waves")
    page.wait("document.getElementById('waves').height > 200")
    page.picture(folder / f"{theme}.png")
    page.tab("chart")
    page.put("chart", (TOP / "examples/mixing.chart").read_text().replace("Mixer(N);", "Mixer(N)"))
    page.picture(folder / f"{theme}-fault.png")
    page.example("press")
    page.go(6)
    page.tab("output")
    page.click("#drawing .box")
    page.until(".popover h3", "Breakpoint")
    page.picture(folder / f"{theme}-break.png")
    page.press("Escape")
    page.tab("coverage")
    page.wait("document.querySelector('#drawing .never')")
    page.picture(folder / f"{theme}-coverage.png")
    page.size(390, 844)
    page.value("document.getElementById('drawing').scrollIntoView()")
    page.picture(folder / f"{theme}-phone-coverage.png")
    page.tab("output")
    page.value("scrollTo(0, 0)")
    page.picture(folder / f"{theme}-phone.png")
    page.value("document.getElementById('texts').scrollIntoView()")
    page.picture(folder / f"{theme}-phone-texts.png")


def main():
    folder = Path(sys.argv[2])
    folder.mkdir(parents=True, exist_ok=True)
    for theme in ("light", "dark"):
        browser = Chromium(dark=theme == "dark")
        try:
            take(Webpage(browser, f"file://{Path(sys.argv[1]).resolve()}"), folder, theme)
        finally:
            browser.close()


main()
