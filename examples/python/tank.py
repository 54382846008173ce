"""A simulated tank at the mixing station of ../mixing.chart, beside `sfcmon run`: water runs in and out, and two switches tell where it stands.

    PYTHONPATH=share/python python3 examples/python/tank.py [SFCMON]

It asks for one batch, prints what the chart gives and how full the tank is, and has status 0 where the batch was counted."""

import asyncio
import os
import sys

from sfcmon import Run

CHART = os.path.join(os.path.dirname(os.path.abspath(__file__)), "..", "mixing.chart")
VALVES = ["WaterValve", "SyrupValve", "Mixer", "DrainValve"]
CYCLE = 0.01  # seconds


async def fill(run):
    """The tank, until the run has ended: 100 liters in half a second."""
    level = 0.0
    while run.status is None:
        level += (2.0 if run.values.get("WaterValve") else 0.0) - (2.0 if run.values.get("DrainValve") else 0.0)
        level = min(max(level, 0.0), 110.0)
        run["Full"], run["Empty"] = level >= 100.0, level <= 0.0
        await asyncio.sleep(CYCLE)


async def tell(run, names):
    """What the chart gives, as it changes."""
    told = {}
    while run.status is None:
        for name in names:
            if run.values.get(name) != told.get(name):
                told[name] = run.values.get(name)
                print(name, told[name])
        await asyncio.sleep(CYCLE)


async def main(program):
    async with Run(CHART, watch=[*VALVES, "ReadyLamp", "Tank1.Batches"], program=program) as run:
        beside = [asyncio.create_task(it) for it in (fill(run), tell(run, VALVES))]
        await run.until("ReadyLamp", True)
        run["Start"] = True
        await run.until("WaterValve", True)
        run["Start"] = False
        counted = await run.until("Tank1.Batches", 1)
        emptied = await run.until("ReadyLamp", True)
        run.end()
        await asyncio.gather(*beside)
    print("batches", int(counted), "status", run.status)
    return 0 if counted and emptied and run.status == 0 and not any(run[name] for name in VALVES) else 1


if __name__ == "__main__":
    sys.exit(asyncio.run(main(sys.argv[1] if len(sys.argv) > 1 else "sfcmon")))
