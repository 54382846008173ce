"""hypothesis for charts: any inputs at any time, and what must hold all the same. A failure shrinks to a short script.

    from sfc_hypothesis import bench

    class Station(bench("mixing.chart")):
        def always(self, plc):
            assert not (plc["DrainValve"] and plc["WaterValve"])

    TestStation = Station.TestCase

`always` is asked after each step. The steps of a failure stand in its report, and the script of it, for `sfcmon replay`.
"""

from __future__ import annotations

import os
from datetime import timedelta
from typing import Any, Callable, Optional

from hypothesis import note
from hypothesis import strategies as st
from hypothesis.stateful import RuleBasedStateMachine, initialize, invariant, rule

from sfc import RANGES, TYPES, Plc, ScanFault, Value, Variable, micros


def values(variable: Variable) -> st.SearchStrategy[Value]:
    """Any value of a variable's type."""
    low, high = RANGES[TYPES.index(variable.type)]
    if variable.type == "BOOL":
        return st.booleans()
    if variable.type == "TIME":
        return st.integers(0, 86_400_000_000).map(lambda n: timedelta(microseconds=n))
    return st.integers(low, high)


def inputs(plc: Plc) -> st.SearchStrategy[tuple[str, Value]]:
    """Any input of the chart, by its name, and any value for it."""
    return st.sampled_from(plc.inputs).flatmap(lambda it: st.tuples(st.just(it.name), values(it)))


def durations(longest: timedelta = timedelta(seconds=1), cycle: timedelta = timedelta(milliseconds=1)) -> st.SearchStrategy[timedelta]:
    """How long the inputs stay: any whole milliseconds. They are drawn as so many whole cycles and a rest, of which each shrinks by itself: so
    a wait shrinks to few scans also where a later one has to reach the next."""
    most = max(1, micros(longest) // 1000)
    whole = min(most, max(1, micros(cycle) // 1000))
    cycles, rests = st.integers(0, (most - 1) // whole), st.integers(1, whole)
    return st.tuples(cycles, rests).map(lambda it: timedelta(milliseconds=min(most, it[0] * whole + it[1])))


def cycle_of(text: bytes) -> timedelta:
    """The time from the first scan of a chart to the next, which is the least INTERVAL of its tasks; a millisecond where none comes."""
    with Plc(text, raises=False) as plc:
        coming = plc.next
        while coming and coming[0] == 0:
            plc.advance(0)
            coming = plc.next
        return timedelta(microseconds=coming[0]) if coming else timedelta(milliseconds=1)


def bench(path: str, conditions: bytes = b"", longest: timedelta = timedelta(seconds=1), given: Optional[Callable[[Plc], Any]] = None) -> Any:
    """A state machine over the chart of a file: its steps write an input, and let the clock go on. `given` is done first. Where the class
    has a method `always`, that is asked behind each step. A scan that ends with a fault is a failure."""
    with open(path, "rb") as file:
        text = file.read()
    with Plc(text, conditions) as known:
        steps, times = st.lists(inputs(known), max_size=2), durations(longest, cycle_of(text))

    class Bench(RuleBasedStateMachine):
        script = ""

        def __init__(self) -> None:
            super().__init__()
            self.plc = Plc(text, conditions)

        @initialize()
        def begin(self) -> None:
            if given:
                given(self.plc)

        @rule(pressed=steps, time=times)
        def go_on(self, pressed: list[tuple[str, Value]], time: timedelta) -> None:
            """Writes inputs, and lets the clock go on."""
            try:
                for name, value in pressed:
                    self.plc.input(name, value)
                self.plc.advance(time)
            except ScanFault:
                self.tell()
                raise

        @invariant()
        def hold(self) -> None:
            try:
                self.always(self.plc)
            except AssertionError:
                self.tell()
                raise

        def always(self, plc: Plc) -> None:
            """What must hold after each step."""

        def tell(self) -> None:
            """The script of the steps, among the notes of the failure, and as `script` of the class."""
            type(self).script = self.plc.script()
            note(type(self).script)

        def teardown(self) -> None:
            self.plc.close()

    Bench.__name__ = f"Bench of {os.path.basename(path)}"
    return Bench
