"""Plays NAME.script on each NAME.chart through sfc.py, in two ways. Line by line with Plc.command: the lines are those of NAME.expect, to
the byte. And call by call: what each call and each reader answers is what the lines of NAME.expect tell. The exit status is 1 where
something differs."""

import re
import sys
from datetime import timedelta
from itertools import count

from sfc import Plc, Refused, explain

UNITS = {"d": 86_400_000_000, "h": 3_600_000_000, "m": 60_000_000, "s": 1_000_000, "ms": 1000}


def time(text):
    body = text.split("#")[1]
    total = sum(round(float(n) * UNITS[u]) for n, u in re.findall(r"([\d.]+)(ms|d|h|m|s)", body))
    return -total if body.startswith("-") else total


def value(text):
    words = {"TRUE": 1, "FALSE": 0}
    return words[text.upper()] if text.upper() in words else timedelta(microseconds=time(text)) if "#" in text else int(text)


def point(words):
    program, kind, name = words
    return program, kind.lower(), int(name) - 1 if name.isdigit() else name


def obey(plc, words, conditions):
    """What one command answers: the words behind its instant and name, as far as they can be read."""
    t, verb, *rest = words
    t = time(t)
    if verb in ("SCAN", "SINGLE"):
        did = plc.scan(rest[0], t) if verb == "SCAN" else plc.single(rest[0], time(rest[1]), t)
        return ["overruns", str(did.overruns)] + ["hit"] * did.hit
    if verb == "READ":
        return [plc.read(rest[0], t)]
    if verb in ("INPUT", "FORCE"):
        (plc.input if verb == "INPUT" else plc.force)(rest[0], value(rest[1]), t)
    elif verb in ("RELEASE", "RESET"):
        (plc.release if verb == "RELEASE" else plc.reset)(rest[0], t)
    elif verb == "BREAK" and "WHEN" in rest:
        plc.set_break(*point(rest[:3]), t, condition=next(conditions))
    elif verb in ("BREAK", "UNBREAK"):
        (plc.set_break if verb == "BREAK" else plc.unbreak)(*point(rest), t)
    else:
        {"STOP": plc.stop, "GO": plc.go, "END": plc.end}[verb](t)
    return []


def states(plc, program, kind):
    """The points of a kind, by number."""
    k = 0
    while True:
        try:
            yield k, plc.state(program, kind, k)
        except Refused:
            return
        k += 1


def check_program(plc, line):
    """The line of a program below a scan."""
    words = line.split()
    if words[1] in ("fault", "skipped"):
        kinds = ["DivZero", "Range", "TwoTimed", "SdWhileSl", "SlWhileSd"]
        state = plc.state(words[0])
        assert state.fault == 1 + kinds.index(words[2]), line
        assert state.place in ((1, 3) if state.fault <= 2 else (2,)) and state.number >= 0 and (state.statement > 0) == (state.place == 3), line
        return
    program, scans, _, steps, _, cleared, _, actions = words
    state = plc.state(program)
    assert state.scans == int(scans) and (state.fault, state.place, state.number, state.statement) == (0, 0, -1, 0), line
    wanted = {} if steps == "-" else dict(it.split("=") for it in steps.split(","))
    for name, elapsed in wanted.items():
        state = plc.state(program, "step", name)
        assert state.active and state.elapsed == time(elapsed), (line, name, state.active, state.elapsed)
    assert sum(state.active for _, state in states(plc, program, "step")) == len(wanted), line
    did = [str(k + 1) for k, state in states(plc, program, "transition") if state.happened]
    assert (",".join(did) or "-") == cleared, (line, did)
    names = plc.names("action", program)
    done = [names[k] for k, state in states(plc, program, "action") if state.happened]
    assert (",".join(done) or "-") == actions, (line, done)


def compare(plc, words, conditions, line):
    """One command, and the line that it is to give."""
    wanted = line.split()
    try:
        told = obey(plc, words, conditions)
    except Refused as it:
        assert wanted[:3] == ["refused", str(it.code), type(it).__name__], (line, it)
        assert explain(it.code).split()[:2] == wanted[1:3], line
        if it.code == 29:
            assert it.reply.next == (-1 if wanted[3] == "none" else time(wanted[3])), (line, it.reply.next)
        if it.code == 30:
            assert plc.names("task")[it.reply.first] == wanted[3], line
        return
    assert wanted[0] != "refused", line
    assert plc.status().instant == time(wanted[0]), (line, plc.status().instant)
    if words[1] == "READ":
        assert told == [value(wanted[-1])], (line, told)
    elif "WHEN" in words:
        assert wanted[1:6] == words[1:6], line
    else:
        assert wanted[1:] == words[1:] + told, (line, told)


def play_calls(base, script):
    """Call by call: how many lines were compared."""
    said = [it.split() for it in script.splitlines() if it.split() and not it.split()[0].startswith(";")]
    lines = open(f"{base}.expect").read().splitlines()
    at, conditions = 0, count()
    with Plc.of(f"{base}.chart", script.encode(), raises=False) as plc:
        for words in said:
            compare(plc, words, conditions, lines[at])
            at += 1
            while at < len(lines) and lines[at].startswith("  "):
                check_program(plc, lines[at])
                at += 1
        image = plc.image()
        assert len(image) == len(lines) - at, base
        for line in lines[at:]:
            _, name, text, *forced = line.split()
            assert plc[name] == image[name] == value(text) and plc.forced(name) == bool(forced), (line, plc[name])
    return len(lines)


def play_lines(base, script):
    """Line by line, to the byte."""
    with Plc.of(f"{base}.chart", script.encode(), raises=False) as plc:
        told = "".join(plc.command(line) for line in script.splitlines()) + plc.image_text()
    assert told == open(f"{base}.expect").read(), base


for chart in sys.argv[1:]:
    base = chart.removesuffix(".chart")
    script = open(f"{base}.script").read()
    play_lines(base, script)
    print(chart, play_calls(base, script), "lines")
sys.exit(0 if sys.argv[1:] else 1)
