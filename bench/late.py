#!/usr/bin/env python3
"""late.py: reads the lines of `sfcmon run --trace 1`, whose tasks T0, T1 .. are scanned by the intervals in microseconds on the command line,
and prints a row for each: scans, overruns, and how late they came in microseconds behind the release that they served first: least, median,
99 %, greatest."""
import re
import sys

UNITS = {"d": 86_400_000_000, "h": 3_600_000_000, "m": 60_000_000, "s": 1_000_000, "ms": 1_000}
SCAN = re.compile(r"\d+ T#(\S+) SCAN T(\d+) overruns (\d+)")

intervals = [int(it) for it in sys.argv[1:]]
due, late, overruns = [0 for _ in intervals], [[] for _ in intervals], [0 for _ in intervals]
for found in filter(None, map(SCAN.match, sys.stdin)):
    task, interval = int(found[2]), intervals[int(found[2])]
    at = round(sum(float(n) * UNITS[unit] for n, unit in re.findall(r"([\d.]+)(ms|[dhms])", found[1])))
    late[task].append(at - due[task])
    due[task], overruns[task] = (at // interval + 1) * interval, int(found[3])
for task, times in enumerate(map(sorted, late)):
    if times:
        print(f"run  T{task} scans {len(times)} overruns {overruns[task]} late {times[0]} median {times[len(times) // 2]} "
              f"99% {times[len(times) * 99 // 100]} most {times[-1]}")
    else:
        print(f"run  T{task} scans 0")
