"""What the C library takes from Python: library.py CHART TASK INTERVAL SCANS, the interval in microseconds. A line each: so many scans one by
one, as one advance, and by one advance for each interval."""

import sys
import time

from sfc import Plc


def timed(what, scans, call):
    began = time.perf_counter()
    call()
    print(f"{what}\t{scans}\t{(time.perf_counter() - began) * 1e6 / scans:.3f} us each")


chart, task, interval, scans = sys.argv[1], sys.argv[2], int(sys.argv[3]), int(sys.argv[4])
with Plc.of(chart) as plc:
    timed("Plc.scan", scans, lambda: [plc.scan(task, k * interval) for k in range(scans)])
with Plc.of(chart) as plc:
    timed("Plc.advance, once", scans, lambda: plc.advance((scans - 1) * interval))
with Plc.of(chart) as plc:
    timed("Plc.advance, each", scans, lambda: [plc.advance(interval) for _ in range(scans)])
with Plc.of(chart) as plc:
    name = next(iter(plc.variables))
    timed("Plc[name]", scans, lambda: [plc[name] for _ in range(scans)])
    there = plc.snapshot()
    timed("restore", scans, lambda: [there.restore() for _ in range(scans)])
