"""An interlock: whatever the buttons do, the pump doesn't run while Stop is pressed for longer than a cycle and a second.

    PYTHONPATH=build/c python3 examples/python/interlock.py"""

import itertools
import os

from sfc import Plc, ms

CHART = os.path.join(os.path.dirname(os.path.abspath(__file__)), "..", "pump.chart")


def stands_still(buttons):
    """Whether the pump stands still at the end of Stop, after these buttons."""
    with Plc.of(CHART) as plc:
        for start, stop in buttons:
            plc["Start"], plc["Stop"] = start, stop
            plc.advance(ms(200))
        plc["Start"], plc["Stop"] = True, True
        plc.advance(ms(1400))
        return not plc["Pump"]


pressed = list(itertools.product([False, True], repeat=2))
ways = list(itertools.product(pressed, repeat=3))
assert all(stands_still(way) for way in ways)
print(f"{len(ways)} ways to press the buttons: the pump stands still")
