"""tutorial.py BROWSER INDEX: plays the first five parts of docs/TUTORIAL.md in the page.

Each text and change is put into its editor, and what the page then tells is what the program prints there. The last line is
'N passed, M failed'.
"""
import re
import sys
from pathlib import Path

from browsers import BROWSERS
from webpage import Webpage

TOP = Path(__file__).resolve().parent.parent.parent


def parts():
    """The blocks of the first five parts: the line above each, its kind and its text."""
    page = (TOP / "docs/TUTORIAL.md").read_text()
    above, kind, text = "", None, ""
    for line in page[page.index("\n## 1. "):page.index("\n## 6. ")].split("\n"):
        if kind is None and line.startswith("```"):
            kind, text = line[3:], ""
        elif line == "```":
            yield above, kind, text
            kind = None
        elif kind is None:
            above = line
        else:
            text += f"{line}\n"


def changed(text, change):
    """A text behind a change, whose lines stand in it once."""
    lines = change.split("\n")[:-1]
    before = "".join(f"{it[1:]}\n" for it in lines if it[0] != "+")
    after = "".join(f"{it[1:]}\n" for it in lines if it[0] != "-")
    assert text.count(before) == 1, f"it stands there {text.count(before)} times: {before}"
    return text.replace(before, after)


def commands(block):
    """Each command of a console with what it prints."""
    for part in re.split(r"^\$ ", block, flags=re.M)[1:]:
        command, _, printed = part.partition("\n")
        yield command, printed


def piped(text, command):
    """What the filters behind a command leave of a text."""
    for it in command.split(" | ")[1:]:
        lines = text.split("\n")[:-1]
        if it.startswith("tail -n "):
            lines = lines[-int(it[8:]):]
        else:
            wanted = re.compile(it.removeprefix("grep ").removeprefix("-E ").strip("'"))
            lines = [line for line in lines if wanted.search(line)]
        text = "".join(f"{line}\n" for line in lines)
    return text


class Tutorial:
    def __init__(self, page):
        self.page, self.files, self.told = page, {"pusher.chart": "", "pusher.script": ""}, 0

    def write(self, name, text):
        self.files[name] = text
        kind = name.split(".")[1]
        self.page.tab(kind)
        self.page.put(kind, text)

    def faults(self, kind, name):
        """The reports of a text as the page shows them, in the form of the program, without its picture of the line."""
        all_ = f"[...document.querySelectorAll('#faults-{kind} > *')]"
        heads = self.page.value(f"{all_}.map(it => (it.tagName === 'BUTTON' ? '' : '  ') + it.textContent)")
        return "".join(f"{it}\n" for it in ([f"{name}:{heads[0]}", *heads[1:]] if heads else ["no fault"]))

    def replayed(self):
        where = self.page.text("#where").split(" ")
        self.page.go(int(where[2]))
        self.page.tab("output")
        lines = self.page.text("#output")
        self.page.tab("image")
        image = self.page.text("#image")
        self.page.tab("output")
        return lines + image

    def check(self, printed):
        faults = self.faults("chart", "")
        number = re.match(r"refused (.*?)(?: line \d+)?\n", printed)
        assert (f": {number[1]}" in faults) if number else faults == "no fault\n", faults

    def why(self, command, printed):
        name = command.split()[-1]
        told = self.faults(name.split(".")[1], name).split("\n")
        wanted = [it for it in printed.rstrip("\n").split("\n") if not re.match(r" +\d* \|", it)]
        assert told[:len(wanted)] == wanted, f"{told} for {wanted}"

    def replay(self, command, printed):
        if printed.startswith("script line"):
            self.faulty_script(printed)
            return
        found = piped(self.replayed(), command)
        assert found == printed, f"{found!r} for {printed!r}"

    def faulty_script(self, printed):
        assert printed.strip() in self.faults("script", "pusher.script"), printed

    def explain(self, printed):
        """The page tells what a refusal means below a command that is refused."""
        name = printed.split("\n", 1)[0]
        assert name in self.page.text("#output"), name

    def console(self, command, printed):
        words = command.split()[1]
        if words == "check":
            self.check(printed)
        elif words == "why":
            self.why(command, printed)
        elif words == "replay":
            self.replay(command, printed)
        elif words == "explain":
            self.explain(printed)

    def block(self, above, kind, text):
        name = re.search(r"`(pusher\.(?:chart|script))`[^`]*$", above)
        if kind == "diff":
            self.write(name[1], changed(self.files[name[1]], text))
        elif kind == "console":
            for command, printed in commands(text):
                self.console(command, printed)
        elif name:
            self.write(name[1], text)


def main():
    kind, index = sys.argv[1], Path(sys.argv[2]).resolve()
    browser, passed, failed = BROWSERS[kind][1](), 0, 0
    try:
        page = Webpage(browser, f"file://{index}")
        browser.size(1400, 900)
        page.start()
        page.put("script", "")
        tutorial = Tutorial(page)
        for k, (above, what, text) in enumerate(parts()):
            try:
                tutorial.block(above, what, text)
                passed += 1
            except Exception as error:  # whatever it is, the others are played
                failed += 1
                print(f"not as it should be: block {k + 1} ({what}, {kind}): {type(error).__name__}: {str(error)[:700]}", flush=True)
    finally:
        browser.close()
    print(f"{passed} passed, {failed} failed")
    return failed > 0


sys.exit(main())
