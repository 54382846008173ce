"""The page in a browser, as somebody uses it."""
import json


class Webpage:
    def __init__(self, browser, address):
        self.browser, self.address = browser, address

    def __getattr__(self, name):
        return getattr(self.browser, name)

    def start(self, link=""):
        self.browser.open("about:blank")
        self.browser.open(self.address + link)
        self.ready()

    def ready(self):
        self.browser.wait("document.readyState === 'complete'", 180)
        self.browser.wait("document.querySelector('main')?.getAttribute('aria-busy') === 'false'", 180)

    def text(self, selector):
        return self.browser.value(f"document.querySelector({json.dumps(selector)})?.textContent ?? null")

    def count(self, selector):
        return self.browser.value(f"document.querySelectorAll({json.dumps(selector)}).length")

    def has(self, selector, name):
        return self.browser.value(f"Boolean(document.querySelector({json.dumps(selector)})?.classList.contains({json.dumps(name)}))")

    def attribute(self, selector, name):
        return self.browser.value(f"document.querySelector({json.dumps(selector)})?.getAttribute({json.dumps(name)}) ?? null")

    def until(self, selector, text, seconds=60):
        """Waits until what is selected has the text in it."""
        quoted = json.dumps(selector)
        self.browser.wait(f"(document.querySelector({quoted})?.textContent ?? '').includes({json.dumps(text)})", seconds)

    def until_has(self, selector, name, is_=True, seconds=60):
        has = f"Boolean(document.querySelector({json.dumps(selector)})?.classList.contains({json.dumps(name)}))"
        self.browser.wait(f"{has} === {json.dumps(is_)}", seconds)

    def tab(self, name):
        self.browser.click(f"#tab-{name}")

    def put(self, kind, text):
        """Puts a text in the place of the one that is there, as a paste does."""
        area = f"document.querySelector('#panel-{kind} textarea')"
        put = f"it.value = {json.dumps(text)}; it.dispatchEvent(new Event('input')); return true;"
        self.browser.value(f"(() => {{ const it = {area}; {put} }})()")
        self.ready()

    def choose(self, selector, value):
        quoted = json.dumps(selector)
        self.browser.value(f"(() => {{ const it = document.querySelector({quoted}); it.value = {json.dumps(value)};"
                           f" it.dispatchEvent(new Event('change')); it.dispatchEvent(new Event('input')); return true; }})()")

    def example(self, name):
        self.choose("#example", name)
        self.ready()

    def go(self, place):
        self.choose("#slider", str(place))
        self.until("#where", f"{place} of ")

    def script(self):
        self.tab("script")
        self.browser.wait("true")
        return self.browser.value("document.querySelector('#panel-script textarea').value")

    def point(self, name):
        """The selector of an element of the drawing, by its id."""
        return f'[id="{name}"]'

    def variable(self, name):
        return f'.variable[data-name="{name}"]'
