"""same.py PROGRAM MODULE COUNT [SEED]: whether the module for pages tells the same as the program, to the byte.

Of each example with its script and its tests, of COUNT random plants with their scripts (tests/reading), and of damaged charts and scripts.
The last line is 'N passed, M failed'; what differs stands above it.
"""
import base64
import hashlib
import json
import random
import subprocess
import sys
import tempfile
from pathlib import Path

HERE = Path(__file__).resolve().parent
TOP = HERE.parent.parent
sys.path.insert(0, str(TOP / "tests/reading"))
from modes import MODES  # noqa: E402

QUESTIONS = b"WHY\nSHOW\nIMAGE\nPOINTS\nTRACE 5\n"
ALL = ["lines", "play", "list", "draw", "draw_after", "wave", "cover", "draw_cover", "why_chart", "why_script",
       "ask"]
OF_TESTS = ["test", "why_tests"]
OF_PLANTS = ["lines", "play"]
WORDS = {
    "lines": ["replay", "chart", "script"], "play": ["replay", "chart", "script"], "list": ["list", "chart"], "draw": ["draw", "chart"],
    "draw_after": ["draw", "--after", "script", "chart"], "wave": ["wave", "chart", "script"], "cover": ["cover", "chart", "script"],
    "draw_cover": ["draw", "--cover", "script", "chart"],
    "test": ["test", "chart", "tests.sfctest"], "why_chart": ["why", "--all", "chart"], "why_script": ["why", "chart", "script"],
    "why_tests": ["why", "chart", "tests.sfctest"],
}


def run(program, folder, words, given=b""):
    done = subprocess.run([program, *words], cwd=folder, input=given, capture_output=True, check=False)
    return done.stdout, done.stderr


class Native:
    """What the program prints of the texts in a folder."""

    def __init__(self, program, folder):
        self.program, self.folder, self.kept = program, Path(folder), {}

    def put(self, case):
        self.kept = {}
        for name, text in case.items():
            (self.folder / (name if name != "tests" else "tests.sfctest")).write_bytes(text)

    def told(self, name):
        words = " ".join(WORDS.get(name, []))
        if words not in self.kept:
            self.kept[words] = run(self.program, self.folder, WORDS[name])
        return self.kept[words]

    def asked(self, script):
        """What the prompt answers behind the script. At the prompt a line without words is a command, and in a script it is none."""
        front = b"".join(it + b"\n" for it in script.split(b"\n") if it.strip())
        before, _ = run(self.program, self.folder, ["debug", "chart"], front)
        whole, error = run(self.program, self.folder, ["debug", "chart"], front + QUESTIONS)
        return whole[len(before):], error


def examples():
    for chart in sorted((TOP / "examples").glob("**/*.chart")):
        beside = {end: chart.with_suffix(f".{end}") for end in ("script", "sfctest")}
        case = {"chart": chart.read_bytes(), "script": beside["script"].read_bytes() if beside["script"].exists() else b""}
        if beside["sfctest"].exists() and b"INCLUDE" not in beside["sfctest"].read_bytes():
            case["tests"] = beside["sfctest"].read_bytes()
        yield chart.stem, case, ALL + OF_TESTS * ("tests" in case)


def plants(count, seed):
    modes = sorted(MODES)
    for k in range(count):
        mode = modes[k % len(modes)]
        chart, script = (it.encode() for it in MODES[mode](seed + k))
        yield f"{mode} {seed + k}", {"chart": chart, "script": script}, ALL if k % 10 == 0 else OF_PLANTS


def damage(rng, text):
    text = bytearray(text)
    for _ in range(rng.choice([1, 1, 2])):
        at, how = rng.randrange(len(text)), rng.randrange(4)
        if how == 0:
            del text[at:at + rng.randrange(1, 12)]
        elif how == 1:
            text[at:at + 1] = bytes([rng.randrange(256)])
        elif how == 2:
            text[at:at] = text[rng.randrange(len(text)):][:rng.randrange(40)]
        else:
            text[at:at] = rng.choice([b" END_STEP ", b";", b"(*", b"T#1s", b"\n", b" := ", b"9999999999"])
        text = text or bytearray(b" ")
    return bytes(text)


def damaged(count, seed):
    rng, sound = random.Random(seed), [case for _, case, _ in examples() if case["script"]]
    for k in range(count):
        case = rng.choice(sound)
        which = rng.choice(["chart", "chart", "script"])
        calls = ["play", "list", "why_chart", "why_script"] + ["why_tests"] * ("tests" in case)
        yield f"damaged {seed} {k}", {**case, which: damage(rng, case[which])}, calls


def say(text):
    return hashlib.md5(text).hexdigest()


def is_same(native, name, case, answer):
    """Whether an answer of the module is what the program prints; where it tells a code, whether the program prints nothing or fails."""
    code, sum_, _ = answer.split()
    text, error = native.asked(case["script"]) if name == "ask" else native.told(name)
    if name == "why_tests":
        text = text.replace(b"tests.sfctest:", b"tests:")
    if int(code) == 0:
        return say(text) == sum_
    return name.startswith("why") or (not text and bool(error))


def main():
    program, module, count = sys.argv[1], sys.argv[2], int(sys.argv[3])
    seed = int(sys.argv[4]) if len(sys.argv) > 4 else 1
    cases = [*examples(), *plants(count, seed), *damaged(count // 4, seed)]
    rows = [json.dumps({"calls": calls, **{k: base64.b64encode(v).decode() for k, v in case.items()}}) for _, case, calls in cases]
    words = ["node", str(HERE / "told.mjs"), module]
    ran = subprocess.run(words, input="\n".join(rows) + "\n", capture_output=True, text=True, check=False)
    answers = [json.loads(it) for it in ran.stdout.splitlines()]
    if len(answers) != len(cases):
        print(f"not as it should be: the module answers {len(answers)} of {len(cases)} cases: {ran.stderr[:600]}")
    passed = failed = len(cases) - len(answers)
    passed = 0
    with tempfile.TemporaryDirectory() as folder:
        native = Native(program, folder)
        for (name, case, _), told in zip(cases, answers):
            native.put(case)
            for call, answer in told.items():
                if is_same(native, call, case, answer):
                    passed += 1
                else:
                    failed += 1
                    print(f"not as it should be: {call} of {name}: {answer}")
    print(f"{passed} passed, {failed} failed")
    return failed > 0


sys.exit(main())
