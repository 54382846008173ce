"""How long the pump takes from the button to the motor, at each instant of its cycle: a response time.

    PYTHONPATH=build/c python3 examples/python/response.py"""

import os

from sfc import Plc, ms

CHART = os.path.join(os.path.dirname(os.path.abspath(__file__)), "..", "pump.chart")

LIMIT = ms(200)  # one cycle of the task


def response(plc, wait):
    """From the button to the motor, where the button is pressed so long after the first scan."""
    with plc.snapshot():
        plc.advance(wait)
        plc["Start"] = True
        return plc.until("Pump", within=LIMIT)


with Plc.of(CHART) as plc:
    plc.advance(0)
    times = {wait: response(plc, ms(wait)) for wait in range(1, 201)}
    slowest = max(times, key=times.get)
    print(f"the slowest of {len(times)}: {times[slowest] / ms(1):.0f} ms, where Start comes {slowest} ms behind a scan")
    assert times[slowest] <= LIMIT
