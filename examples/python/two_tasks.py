"""Two tasks: a fast one and a slow one, scanned as their intervals and priorities say; and what comes next.

    PYTHONPATH=build/c python3 examples/python/two_tasks.py"""

import os

from sfc import Plc, ms, time_text

CHART = os.path.join(os.path.dirname(os.path.abspath(__file__)), "..", "belt.chart")

with Plc.of(CHART) as plc:
    for _ in range(4):
        instant, task = plc.next
        plc.scan(task, instant)
        print(time_text(instant), task)
    did = plc.advance(ms(1000))
    print(f"{did.scans} scans up to {time_text(plc.now)}, overruns {[plc.task_state(task).overruns for task in plc.names('task')]}")
    assert [it.split()[2] for it in plc.script().splitlines()[:4]] == ["Fast", "Slow", "Fast", "Fast"]
