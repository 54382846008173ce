"""drive.py BROWSER INDEX PROGRAM [PICTURES]: what is clicked and typed in the page, with what is seen behind each.

BROWSER is chromium or firefox. Interactions come in the order of this file, each over what the ones before have left; then links that mean
harm. PROGRAM plays the script that the page has made. The last line is 'N passed, M failed'.
"""
import base64
import gzip
import json
import re
import subprocess
import sys
import tempfile
from pathlib import Path

from browsers import BROWSERS
from webpage import Webpage

TOP = Path(__file__).resolve().parent.parent.parent
MIXING = (TOP / "examples/mixing.chart").read_text()
READY, WATER, MIX, BEGIN = "Tank1-step-Ready", "Tank1-step-Water", "Tank1-step-Mixing", "Tank1-transition-1"
STEPS = []


def step(function):
    STEPS.append(function)
    return function


def same(found, wanted):
    assert found == wanted, f"{found!r} for {wanted!r}"


@step
def it_begins_with_an_example(site):
    same(site.text("#mode"), "running")
    assert site.count("#drawing .step") == 7


@step
def the_chart_is_drawn_by_the_program(site):
    same(site.attribute(site.point(READY), "aria-label"), "initial step Ready")


@step
def a_scan_is_a_line(site):
    site.click("#scan")
    site.until("#output", "Tank1 1 steps Ready=T#0s")
    same(site.text("#where"), "1 of 1")


@step
def the_active_step_is_marked(site):
    assert site.has(site.point(READY), "on") and not site.has(site.point(WATER), "on")


@step
def an_executed_action_is_marked(site):
    assert site.has(site.point(f"{READY}-1"), "ran")


@step
def an_enabled_transition_is_marked(site):
    site.until_has(site.point(BEGIN), "enabled")


@step
def an_input_is_a_switch(site):
    site.click(f"{site.variable('Start')} .switch")
    site.until(f"{site.variable('Start')} .switch", "TRUE")
    same(site.attribute(f"{site.variable('Start')} .switch", "aria-checked"), "true")


@step
def the_next_scan_comes_when_it_is_due(site):
    site.click("#scan")
    site.until("#output", "T#100ms SCAN Main overruns 0")
    site.until_has(site.point(WATER), "on")


@step
def a_cleared_transition_is_marked(site):
    assert site.has(site.point(BEGIN), "fired")


@step
def back_is_the_place_before(site):
    site.click("#back")
    site.until("#where", "2 of 3")
    assert site.has(site.point(READY), "on") and not site.has(site.point(WATER), "on")


@step
def forward_is_the_place_behind(site):
    site.click("#forward")
    site.until("#where", "3 of 3")
    assert site.has(site.point(WATER), "on")


@step
def the_slider_goes_to_a_place(site):
    site.go(0)
    assert site.count("#drawing .on") == 0
    site.go(3)


@step
def keys_go_back_and_forward(site):
    site.value("document.activeElement.blur()")
    site.press("[")
    site.until("#where", "2 of 3")
    site.press("]")
    site.until("#where", "3 of 3")


@step
def a_key_scans(site):
    site.press("s")
    site.until("#output", "T#200ms SCAN Main")


@step
def a_transition_tells_what_it_waits_for(site):
    site.move(f"{site.point('Tank1-transition-2')} .bar")
    site.until("#waits", "condition FALSE: Full")


@step
def a_breakpoint_is_set_by_a_click(site):
    site.click(f"{site.point(MIX)} .box")
    site.until(".popover h3", "Breakpoint: Tank1 STEP Mixing")
    site.type("Batches = 0")
    site.press("Enter")
    site.until("#output", "BREAK Tank1 STEP Mixing WHEN Batches = INT#0")


@step
def a_breakpoint_with_a_condition_is_marked(site):
    site.until_has(site.point(MIX), "waits")


@step
def a_condition_with_a_fault_is_told(site):
    site.click(f"{site.point(READY)} .box")
    site.until(".popover h3", "Ready")
    site.type("Nothing > 1")
    site.press("Enter")
    site.until("#notice", "Nothing")
    assert site.has("#notice", "bad")
    same(site.text("#where"), "5 of 5")


@step
def it_runs_in_time_and_halts_at_the_breakpoint(site):
    site.click(f"{site.variable('Full')} .switch")
    site.until(f"{site.variable('Full')} .switch", "TRUE")
    site.choose("#speed", "10")
    site.click("#run")
    site.until("#mode", "halted")
    site.until_has(site.point(MIX), "on")
    site.until("#notice", "breakpoint")


@step
def a_halted_resource_refuses_a_scan(site):
    before = site.text("#where")
    site.click("#scan")
    site.until("#notice", "34 Stopped")
    same(site.text("#where"), before)


@step
def single_scans_a_halted_resource(site):
    site.click("#single")
    site.until("#output", "SINGLE Main T#100ms")
    same(site.text("#mode"), "halted")


@step
def go_lets_it_run_on(site):
    site.click("#go")
    site.until("#mode", "running")


@step
def a_breakpoint_is_removed(site):
    site.click(f"{site.point(MIX)} .box")
    site.until(".popover", "Remove")
    site.click(".popover .choices button:nth-child(2)")
    site.until("#output", "UNBREAK Tank1 STEP Mixing")
    site.until_has(site.point(MIX), "broken", False)


@step
def a_variable_is_forced(site):
    site.click(f"{site.variable('Mixer')} .force")
    site.until(".popover h3", "Force Mixer")
    site.click(".popover .choices button:nth-child(2)")
    site.until("#output", "FORCE Mixer FALSE")
    site.until_has(site.variable("Mixer"), "forced")


@step
def a_forced_action_is_marked(site):
    assert site.has(site.point(f"{MIX}-1"), "forced")


@step
def a_number_is_forced(site):
    site.click(f"{site.variable('Tank1.Batches')} .force")
    site.until(".popover h3", "Force Tank1.Batches")
    site.value("document.querySelector('.popover input').select()")
    site.type("7")
    site.press("Enter")
    site.until(f"{site.variable('Tank1.Batches')} .value", "7")


@step
def a_force_is_released(site):
    site.click(f"{site.variable('Mixer')} .force")
    site.until(".popover", "Release")
    site.click(".popover .choices button:nth-child(3)")
    site.until("#output", "RELEASE Mixer")
    site.until_has(site.variable("Mixer"), "forced", False)


@step
def it_halts_by_a_key(site):
    site.value("document.activeElement.blur()")
    site.press("h")
    site.until("#mode", "halted")
    site.press("g")
    site.until("#mode", "running")


@step
def a_program_is_reset(site):
    site.click("#reset")
    site.until("#output", "RESET Tank1")
    site.until_has(site.point(MIX), "on", False)


@step
def the_image_is_told(site):
    site.tab("image")
    site.until("#image", "image Tank1.Batches 7 forced")


@step
def the_waves_are_drawn(site):
    site.tab("waves")
    site.until("#waves-told", "Tank1.steps.active")
    assert site.value("document.getElementById('waves').height") > 200


@step
def the_coverage_is_told(site):
    site.tab("coverage")
    site.until("#coverage", "program Tank1 Batch scans")


@step
def what_was_never_reached_is_marked(site):
    never = "Array.from(document.querySelectorAll('#drawing .never'), it => it.id).sort()"
    with tempfile.TemporaryDirectory() as folder:
        for name, text in (("chart", MIXING), ("script", site.script())):
            Path(folder, name).write_text(text)
        words = [site.program, "draw", "--cover", "script", "chart"]
        drawn = subprocess.run(words, cwd=folder, capture_output=True, text=True, check=True).stdout
    wanted = sorted(re.findall(r'<g (?=[^>]*class="[^"]*\bnever\b)[^>]*id="([^"]*)"', drawn))
    assert wanted
    site.wait(f"JSON.stringify({never}) === {json.dumps(json.dumps(wanted, separators=(',', ':')))}")


@step
def the_tests_are_run(site):
    site.tab("outcome")
    same(site.count("#drawing .never"), 0)
    site.until("#outcome", "4 passed, 0 failed")
    site.tab("output")


@step
def the_program_plays_the_script_to_the_byte(site):
    script = site.script()
    with tempfile.TemporaryDirectory() as folder:
        for name, text in (("chart", MIXING), ("script", script)):
            Path(folder, name).write_text(text)
        said = subprocess.run([site.program, "replay", "chart", "script"], cwd=folder, capture_output=True, text=True, check=True).stdout
    told = site.text("#output")
    same(told.rstrip("\n"), "".join(it + "\n" for it in said.split("\n") if it and not it.startswith("image ")).rstrip("\n"))


@step
def a_link_has_all_of_it(site):
    site.click("#back")
    site.click("#share")
    site.until("#notice", "address")
    where, output = site.text("#where"), site.text("#output")
    site.reload()
    site.ready()
    site.until("#where", where)
    same(site.text("#output"), output)


@step
def a_fault_is_told_at_its_place(site):
    site.tab("chart")
    site.put("chart", MIXING.replace("Mixer(N);", "Mixer(N)"))
    site.until("#faults-chart .fault", "4 Syntax: END_STEP")
    site.until("#faults-chart", "mend: ; ends what stands before it")
    assert site.count(".copy .faulty") == 1 or site.text("#tab-chart .count") == "1"
    same(site.text("#mode"), "faulty chart")


@step
def a_click_goes_to_the_fault(site):
    site.click("#faults-chart .fault")
    chosen = "(() => { const it = document.activeElement; return it.value.slice(it.selectionStart, it.selectionEnd); })()"
    same(site.value(chosen), "END_STEP")


@step
def a_mended_chart_runs_on(site):
    before = site.text("#where")
    site.put("chart", MIXING)
    site.until("#mode", "running")
    same(site.count("#faults-chart *"), 0)
    same(site.text("#where"), before)


@step
def names_are_completed(site):
    area = "document.querySelector('#panel-chart textarea')"
    site.value(f"(() => {{ const it = {area}; it.focus(); it.setSelectionRange(0, 0); return true; }})()")
    for letter in "DrainV":
        site.press(letter)
    site.until("#offered-chart", "DrainValve")
    site.press("Enter")
    site.wait(f"{area}.value.startsWith('DrainValve')")
    site.put("chart", MIXING)


@step
def typed_words_have_colours(site):
    assert site.count("#panel-chart .copy .word") > 3


@step
def a_faulty_line_of_a_script_is_told(site):
    site.tab("script")
    site.put("script", "T#0s SCAN Main\n100ms SCAN Main\n")
    site.until("#faults-script .fault", "script line 2: 100ms")
    same(site.text("#mode"), "faulty script")
    site.put("script", "T#0s SCAN Main\nT#100ms SCAN Main\n")
    site.until("#mode", "running")


@step
def arrow_keys_go_through_the_chart(site):
    site.value("document.querySelector('#drawing [tabindex=\"0\"]').focus()")
    first = site.value("document.activeElement.id")
    site.press("ArrowDown")
    assert site.value("document.activeElement.id") != first
    site.press("Enter")
    site.until(".popover h3", "Breakpoint")
    site.press("Escape")
    same(site.count(".popover"), 0)


@step
def tabs_go_by_arrow_keys(site):
    site.value("document.getElementById('tab-output').focus()")
    site.press("ArrowRight")
    same(site.attribute("#tab-waves", "aria-selected"), "true")
    site.press("ArrowLeft")
    same(site.attribute("#tab-output", "aria-selected"), "true")


@step
def every_example_is_played(site):
    for chart in sorted((TOP / "examples").glob("*.chart")):
        site.example(chart.stem)
        count = chart.with_suffix(".script").read_text().count("\n")
        site.until("#where", f"{count} of {count}")
        site.tab("image")
        wanted = [it for it in chart.with_suffix(".expect").read_text().split("\n") if it.startswith("image ")]
        site.until("#image", wanted[-1])
        same(site.text("#image").strip(), "\n".join(wanted))
        site.tab("output")


@step
def a_line_behind_the_place_is_forgotten(site):
    site.example("pump")
    site.go(2)
    site.click("#scan")
    site.until("#where", "3 of 3")


@step
def a_new_instance_replays_behind_a_trap(site):
    site.example("mixing")
    site.go(3)
    told = site.text("#output")
    site.value("globalThis.trapNext = true")
    site.click("#scan")
    site.until("#notice", "replayed")
    site.until("#where", "3 of ")
    same(site.text("#output"), told)
    site.click("#scan")
    site.until("#where", "4 of 4")


# Throws what a trap throws, once, where it is asked for.
TRAP = """const make = WebAssembly.instantiate;
WebAssembly.instantiate = async (...all) => { const {exports} = await make(...all); return {exports: {...exports, sfc_command: (...words) => {
  if (!globalThis.trapNext) return exports.sfc_command(...words);
  globalThis.trapNext = false;
  throw new WebAssembly.RuntimeError('trap'); }}}; };"""


def packed(text):
    return "#" + base64.urlsafe_b64encode(gzip.compress(text)).decode().rstrip("=")


SCRIPTS = "<img src=x onerror=\"document.title='harm'\"><script>document.title='harm'</script>"
LINKS = {
    "of a megabyte": "#" + "A" * 1_000_000,
    "of broken UTF-8": packed(b'["\xff\xfe","",0]'),
    "of signs": "#%00%ff<script>document.title='harm'</script>",
    "with a bomb": packed(b"[\"" + b" " * 20_000_000 + b"\",\"\",0]"),
    "of another form": packed(b'{"chart": 1}'),
    "with tags in comments": packed(json.dumps([f"(* {SCRIPTS} *) {MIXING}", f"; {SCRIPTS}\nT#0s SCAN Main\n", 2]).encode()),
    "with tags in names": packed(json.dumps([MIXING.replace("Start", SCRIPTS), "", 0]).encode()),
    "with a deep chart": packed(json.dumps([MIXING.replace("Start AND", "(" * 100_000), "", 0]).encode()),
    "with a place that is none": packed(b'["","",1e308]'),
}


def no_harm(site, name):
    site.browser.open("about:blank")
    site.browser.open(site.address + LINKS[name])
    site.ready()
    same(site.value("document.title"), "Zadorike: a chart in a page")
    same(site.count("main script, main img, #drawing foreignObject"), 0)


def attempt(name, act, counts):
    try:
        act()
        counts[0] += 1
    except Exception as error:  # whatever it is, the others are tried
        counts[1] += 1
        print(f"not as it should be: {name}: {type(error).__name__}: {str(error)[:900]}", flush=True)


def main():
    kind, index, program = sys.argv[1], Path(sys.argv[2]).resolve(), sys.argv[3]
    browser, counts = BROWSERS[kind][1](), [0, 0]
    site = Webpage(browser, f"file://{index}")
    site.program = program
    try:
        browser.before(TRAP)
        browser.size(1400, 900)
        site.start()
        for it in STEPS:
            attempt(f"{it.__name__.replace('_', ' ')} ({kind})", lambda it=it: it(site), counts)
        for name in LINKS:
            attempt(f"a link {name} ({kind})", lambda name=name: no_harm(site, name), counts)
        attempt(f"nothing is on the console ({kind})", lambda: same(browser.console, []), counts)
        others = [it for it in browser.requests if not it.startswith((site.address, "about:", "data:", "blob:"))]
        attempt(f"nothing is requested ({kind})", lambda: same(others, []), counts)
    finally:
        browser.close()
    print(f"{counts[0]} passed, {counts[1]} failed")
    return counts[1] > 0


sys.exit(main())
