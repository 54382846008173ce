"""What sfc.py is for a test bench: python_bench.py TOP. What is wanted stands in the charts and in docs/FORMATS.md. The exit status is 1 where
something isn't so."""

import os
import subprocess
import sys
import tempfile
from datetime import timedelta

import sfc
from sfc import Plc, ms, time_text

TOP = sys.argv[1]
PUMP, BELT, MIXING = (os.path.join(TOP, "examples", f"{name}.chart") for name in ("pump", "belt", "mixing"))
FAULTY = b"""PROGRAM P VAR N : INT := 3; Q : INT; END_VAR INITIAL_STEP S: Count(N); END_STEP
ACTION Count: N := N - 1; Q := 6 / N; END_ACTION END_PROGRAM CONFIGURATION C RESOURCE R ON X
VAR_GLOBAL Wait : TIME; Level AT %IW2 : INT; END_VAR
TASK T(INTERVAL := T#10ms, PRIORITY := 1); PROGRAM I WITH T : P; END_RESOURCE END_CONFIGURATION"""
PLACED = b"""PROGRAM P VAR N : INT; END_VAR INITIAL_STEP S: END_STEP STEP A: END_STEP STEP B: END_STEP
TRANSITION FROM S TO A := N > 0; END_TRANSITION TRANSITION Out FROM S TO B := 1 / N = 0; END_TRANSITION END_PROGRAM
PROGRAM Q INITIAL_STEP S: Lamp(N); END_STEP END_PROGRAM
PROGRAM H INITIAL_STEP S: Lamp(N); Heater(L, T#1s); Heater(D, T#1s); END_STEP END_PROGRAM CONFIGURATION C RESOURCE R ON X
VAR_GLOBAL Lamp, Heater : BOOL; END_VAR TASK T(INTERVAL := T#10ms, PRIORITY := 1);
PROGRAM I WITH T : P; PROGRAM J WITH T : Q; PROGRAM K WITH T : H; END_RESOURCE END_CONFIGURATION"""


def raises(kind, call, *words):
    """The exception of this kind that the call raises, in whose text the words are."""
    try:
        call()
    except kind as it:
        for word in words:
            assert word in str(it), (word, str(it))
        return it
    raise AssertionError(f"{kind.__name__} wasn't raised")


def names():
    with Plc.of(PUMP) as plc:
        raises(sfc.NotFound, lambda: plc.input("Strat", True), "-3 NotFound", "'Strat'", "near: Start")
        raises(sfc.NotFound, lambda: plc.programs["Pump2"], "'Pump2'", "near: Pump1")
        raises(sfc.NotFound, lambda: plc.programs["Pump1"].steps["Pumpin"], "'Pumpin' in Pump1", "near: Pumping")
        raises(sfc.NotFound, lambda: plc.scan("Mian"), "'Mian'", "near: Main")
        raises(sfc.NotInput, lambda: plc.input("Pump", True), "INPUT Pump TRUE at T#0s")
        raises(sfc.NoValue, lambda: plc.input("Start", 2), "2 is no value of Start, which is of type BOOL")
        plc.advance(0)
        early = raises(sfc.NotDue, lambda: plc.scan("Main", ms(50)), "SCAN Main at T#50ms", "next at T#200ms")
        assert early.reply.next == 200_000
        raises(sfc.NoExpression, lambda: plc.set_break("Pump1", "step", "Idle", condition="Strat"), "'Strat'")
        assert [it.name for it in plc.inputs] == ["Start", "Stop"] and plc.about("%IX0.1").name == "Stop"
        assert plc.about("start").location == "%IX0.0" and plc.about("Pump").area == "output" and plc.about("Pump").program is None
        assert list(plc.programs) == ["Pump1"] and list(plc.programs["Pump1"].steps) == ["Idle", "Pumping", "RunningOn"]
    wrong = raises(sfc.ChartRefused, lambda: Plc(b"PROGRAM P\n  STEP\nEND_PROGRAM"), "chart:3:1: 4 Syntax")
    assert (wrong.code, wrong.line, wrong.column, wrong.length) == (4, 3, 1, len("END_PROGRAM"))
    with open(PUMP, "rb") as file:
        text = file.read().replace(b"Pumping TO RunningOn", b"Pumpin TO RunningOn")
    raises(sfc.ChartRefused, lambda: Plc(text), "chart:15:19: 15 UnknownStep: Pumpin; near: Pumping")


def values():
    with Plc(FAULTY) as plc:
        plc.force("Wait", timedelta(seconds=1.5))
        plc["Level"] = -3
        assert plc["Wait"] == timedelta(seconds=1.5) and plc["Level"] == -3 and plc["I.N"] == 3 and plc.programs["I"]["N"] == 3
        assert plc.image() == {"Wait": ms(1500), "Level": -3, "I.N": 3, "I.Q": 0} and plc.about("I.N").program == "I"
        raises(sfc.NoValue, lambda: plc.input("Level", 40000), "no value of Level, which is of type INT")
        raises(sfc.NoValue, lambda: plc.input("Level", ms(1)), "T#1ms is no value of Level")
        assert plc.read("Wait") == ms(1500) and plc.script().splitlines()[0] == "T#0s FORCE Wait T#1s_500ms" and plc.forced("Wait")
    with Plc.of(PUMP) as plc:
        assert plc["Pump"] is False
    for micros, text in ((0, "T#0s"), (90_061_001_500, "T#1d_1h_1m_1s_1.5ms"), (-5000, "T#-5ms"), (60_000_000, "T#1m")):
        assert time_text(micros) == text and sfc._instant(text) == micros


def faults():
    with Plc(FAULTY) as plc:
        assert plc.programs["I"].fault is None and plc.programs["I"].fault_place is None
        fault = raises(sfc.ScanFault, lambda: plc.advance(ms(100)), "I ended with DivZero in statement 2 of action Count at T#20ms")
        assert fault.faults == {"I": "DivZero"} and plc.now == 20_000 and plc.programs["I"].fault == "DivZero"
        assert fault.places == {"I": ("body", "Count", 0, 2)} and plc.programs["I"].fault_place == fault.places["I"]
        there = plc.snapshot()
        plc.programs["I"].reset()
        assert plc.programs["I"].fault_place is None
        raises(sfc.ScanFault, lambda: plc.run("T", ms(200)), "I ended with DivZero in statement 2 of action Count at T#50ms")
        plc.programs["I"].reset()
        there.restore()
        assert plc.programs["I"].fault_place == fault.places["I"]
    with Plc(FAULTY, raises=False) as plc:
        assert plc.advance(ms(100)).end == sfc.FAULT and plc.programs["I"].fault == "DivZero"


def places():
    """Each kind of place, by names. In the first scan a step becomes active; the conditions behind it are read in the second, with N of 0."""
    with Plc(PLACED, raises=False) as plc:
        assert plc.advance(0).end == sfc.FAULT and plc.programs["K"].fault_place == ("control", "Heater", 1, None)
        assert str(plc.programs["K"].fault_place) == "in the control of action Heater" and plc.programs["K"].fault == "TwoTimed"
        assert plc.advance(ms(10)).end == sfc.FAULT and plc.programs["I"].fault_place == ("condition", "Out", 1, None)
        assert str(plc.programs["I"].fault_place) == "in the condition of transition 2 (Out)" and plc.programs["J"].fault is None
        assert plc.programs["J"].fault_place is None
    with Plc(PLACED.replace(b"TRANSITION Out", b"TRANSITION")) as plc:
        raises(sfc.ScanFault, lambda: plc.advance(0), "K ended with TwoTimed in the control of action Heater at T#0s")
        raises(sfc.ScanFault, lambda: plc.advance(ms(10)), "I ended with DivZero in the condition of transition 2 at T#10ms")


def clock():
    with Plc.of(PUMP) as plc:
        assert plc.advance(ms(300)).scans == 2 and plc.now == 300_000 and plc.next == (400_000, "Main")
        plc["Start"] = True
        assert plc.until("Pump", within=ms(200)) == ms(100) and plc.now == 400_000
        assert plc.programs["Pump1"].steps["Pumping"].active and plc.programs["Pump1"].active == ["Pumping"]
        late = raises(sfc.TimedOut, lambda: plc.until(lambda plc: plc["IdleLamp"], within=ms(500)), "T#500ms", "T#400ms", "SCAN Main")
        assert isinstance(late, AssertionError) and plc.now == 900_000
        plc.programs["Pump1"].steps["RunningOn"].break_here("Stop")
        plc["Stop"] = True
        assert plc.advance(ms(1000)).end == sfc.HIT and plc.now == 1_000_000 and plc.mode == "halted" and plc.next is None
        raises(sfc.Stopped, lambda: plc.advance(ms(1000)), "34 Stopped")
        plc.go()
        assert plc.programs["Pump1"].steps["RunningOn"].elapsed == timedelta() and plc.programs["Pump1"].transitions[1].happened


def going_back():
    with Plc.of(MIXING) as plc:
        plc["Start"] = True
        plc.advance(ms(100))
        before, script = plc.image(), plc.script()
        with plc.snapshot() as there:
            plc["Full"] = True
            plc.advance(ms(900))
            assert plc.image() != before
        assert plc.image() == before and plc.now == 100_000 and plc.script() == script
        others = [plc.snapshot() for _ in range(20)]
        plc.advance(ms(500))
        others[7].restore()
        assert plc.image() == before and plc._slots == 21
        del others
        assert plc.snapshot().number < 21 and there.number == 0


def scripts(program):
    """A saved script replays to the same values, to the byte."""
    with tempfile.TemporaryDirectory() as folder, Plc.of(BELT) as plc:
        path = os.path.join(folder, "run.script")
        for k, it in enumerate(plc.inputs * 3):
            plc.input(it.name, k % 2 == 0)
            plc.advance(ms(7 + 13 * k))
        plc.save(path)
        with open(path, encoding="utf-8") as file:
            script = file.read()
        with open(BELT, "rb") as file, Plc(file.read(), script.encode(), raises=False) as again:
            told = "".join(again.command(line) for line in script.splitlines())
            assert "refused" not in told and again.image_text() == plc.image_text()
        assert told.count(" SCAN ") > 10 and plc.last_scans(3).count(" SCAN ") == 3
        if program:
            ran = subprocess.run([program, "replay", BELT, path], capture_output=True, text=True, check=True)
            assert ran.stdout == told + plc.image_text()
    with tempfile.TemporaryDirectory() as folder, Plc.of(PUMP) as plc:
        plc.set_break("Pump1", "step", "Pumping", condition="Start AND NOT Stop")
        plc["Start"] = True
        plc.advance(ms(500))
        assert plc.script().splitlines()[0] == "T#0s BREAK Pump1 STEP Pumping WHEN Start AND NOT Stop" and plc.mode == "halted"
        with Plc.of(PUMP, plc.script().encode()) as again:
            assert "hit" in "".join(again.command(line) for line in plc.script().splitlines())


def conditions():
    """Conditions by number, by text and in a line, also behind a snapshot, in the script that is saved."""
    with open(PUMP, "rb") as file, Plc(file.read(), b"T#0s BREAK Pump1 STEP Pumping WHEN Start\n") as plc:
        plc.set_break("Pump1", "step", "Pumping", condition=0)
        there = plc.snapshot()
        plc.set_break("Pump1", "transition", 0, condition="Stop AND NOT Start")
        there.restore()
        plc.command("T#10ms break Pump1 STEP Idle when Stop AND NOT Start")
        assert plc.now == 10_000 and plc.script().splitlines() == [
            "T#0s BREAK Pump1 STEP Pumping WHEN Start", "T#10ms break Pump1 STEP Idle when Stop AND NOT Start"]
        plc["Start"] = True
        assert plc.advance(ms(1000)).end == sfc.HIT and plc.script().splitlines()[-1] == "T#200ms SCAN Main"


names()
values()
conditions()
faults()
places()
clock()
going_back()
scripts(os.environ.get("SFCMON"))
assert sfc.version().count(".") == 2 and sfc.explain(29).startswith("29 NotDue")
