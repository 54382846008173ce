"""What sfc_hypothesis.py draws, and what it tells of a failure: python_hypothesis.py TOP. The exit status is 1 where something isn't so."""

import os
import sys
from datetime import timedelta

from hypothesis import find, given, settings
from hypothesis.errors import NoSuchExample
from hypothesis.stateful import run_state_machine_as_test
from sfc import Plc, ScanFault, ms
from sfc_hypothesis import bench, cycle_of, durations, inputs, values

TOP = sys.argv[1]
PUMP, BELT = (os.path.join(TOP, "examples", f"{name}.chart") for name in ("pump", "belt"))
PLAIN = settings(database=None, deadline=None)
# The scan that follows a level of 0 ends with a fault, of which the place is known.
DIVIDES = b"""PROGRAM P VAR Rate : INT; END_VAR INITIAL_STEP S: Divide(N); END_STEP ACTION Divide: Rate := 100 / Level; END_ACTION END_PROGRAM
CONFIGURATION C RESOURCE R ON X VAR_GLOBAL Level AT %IW0 : INT := 5; END_VAR TASK T(INTERVAL := T#50ms, PRIORITY := 1);
PROGRAM I WITH T : P; END_RESOURCE END_CONFIGURATION"""


def read(path):
    with open(path, "rb") as file:
        return file.read()


def waits():
    """Any whole milliseconds up to the longest, and no others; a wait shrinks to the least that will do."""
    @settings(PLAIN, max_examples=200)
    @given(durations(ms(250), ms(100)))
    def are_whole(it):
        assert ms(1) <= it <= ms(250) and it % ms(1) == timedelta()
    are_whole()
    for wanted in (1, 99, 100, 101, 200, 249, 250):
        assert find(durations(ms(250), ms(100)), lambda it, n=wanted: it == ms(n), settings=settings(PLAIN, max_examples=20000)) == ms(wanted)
    assert find(durations(ms(1000), ms(100)), lambda it: it >= ms(400), settings=PLAIN) < ms(500)
    for longest, cycle in ((ms(1), ms(100)), (ms(100), ms(100)), (timedelta(), timedelta())):
        assert find(durations(longest, cycle), lambda it: True, settings=PLAIN) == ms(1)
    assert cycle_of(read(PUMP)) == ms(200) and cycle_of(read(BELT)) == ms(10) and cycle_of(DIVIDES) == ms(50)


def drawn():
    """Inputs of the chart alone, and values of their types alone."""
    with Plc.of(PUMP) as plc:
        for name in ("Start", "Stop"):
            assert find(inputs(plc), lambda it, n=name: it == (n, True), settings=PLAIN) == (name, True)
        try:
            find(inputs(plc), lambda it: it[0] not in ("Start", "Stop"), settings=PLAIN)
            raise AssertionError("another variable was drawn")
        except NoSuchExample:
            pass
    with Plc(DIVIDES) as plc:
        level = plc.about("Level")
        assert find(values(level), lambda n: n < -32000, settings=settings(PLAIN, max_examples=5000)) < -32000

        @settings(PLAIN, max_examples=200)
        @given(values(level))
        def fit(n):
            assert -32768 <= n <= 32767
        fit()


def failures():
    """A scan that ends with a fault is a failure, and its script is told: the level, the first scan."""
    path = "divides.chart"
    with open(path, "wb") as file:
        file.write(DIVIDES)
    machine = bench(path)
    try:
        run_state_machine_as_test(machine, settings=settings(PLAIN, max_examples=1000, stateful_step_count=5))
    except ScanFault as it:
        assert str(it) == "I ended with DivZero in statement 1 of action Divide at T#0s", str(it)
        assert machine.script.splitlines() == ["T#0s INPUT Level 0", "T#0s SCAN T"], machine.script
    else:
        raise AssertionError("no fault was found")


waits()
drawn()
failures()
