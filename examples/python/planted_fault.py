"""A fault is planted in the mixing station: doses run in although the tank isn't empty. hypothesis finds it, and what is printed is the script
of its shortest example. It wants hypothesis.

    PYTHONPATH=build/c:share/python python3 examples/python/planted_fault.py"""

import os
import tempfile

from hypothesis import settings
from hypothesis.stateful import run_state_machine_as_test

from sfc_hypothesis import bench

CHART = os.path.join(os.path.dirname(os.path.abspath(__file__)), "..", "mixing.chart")
SOUND, PLANTED = "Start AND Empty", "Start OR Empty"


def station(path):
    """What must hold, whatever the inputs do: water begins to run only into an empty tank."""

    class Station(bench(path)):
        ran = False

        def always(self, plc):
            assert self.ran or not plc["WaterValve"] or plc["Empty"], "water runs into a tank that isn't empty"
            self.ran = plc["WaterValve"]

    return Station


def found(machine):
    """The script of the shortest example that doesn't hold; nothing where none is found."""
    try:
        run_state_machine_as_test(machine, settings=settings(max_examples=300, stateful_step_count=8, deadline=None, database=None))
    except AssertionError:
        return machine.script
    return ""


with open(CHART, encoding="utf-8") as file, tempfile.TemporaryDirectory() as folder:
    text = file.read()
    assert text.count(SOUND) == 1
    planted = os.path.join(folder, "planted.chart")
    with open(planted, "w", encoding="utf-8") as other:
        other.write(text.replace(SOUND, PLANTED))
    assert found(station(CHART)) == ""
    script = found(station(planted))
print(script, end="")
assert "INPUT Empty FALSE" in script and "INPUT Start TRUE" in script and len(script.splitlines()) <= 4
