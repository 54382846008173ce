"""1,000 inputs from one snapshot: the station is brought into a dose once, and each try begins there.

    PYTHONPATH=build/c python3 examples/python/snapshots.py"""

import os
import random
from collections import Counter

from sfc import Plc, ms

CHART = os.path.join(os.path.dirname(os.path.abspath(__file__)), "..", "mixing.chart")

choose = random.Random(1)
ends = Counter()
with Plc.of(CHART) as plc:
    plc["Start"] = True
    plc.until(lambda plc: plc.programs["Tank1"].steps["Syrup"].active, within=ms(500))
    dosing = plc.snapshot()
    for _ in range(1000):
        dosing.restore()
        for _ in range(4):
            plc[choose.choice(["Full", "Empty", "Start"])] = choose.random() < 0.5
            plc.advance(ms(choose.randrange(50, 400)))
        assert not (plc["DrainValve"] and plc["WaterValve"])
        ends["+".join(plc.active("Tank1"))] += 1
print(ends.most_common())
assert sum(ends.values()) == 1000 and len(ends) > 3
