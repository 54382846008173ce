"""The pump of ../pump.chart at terminals that Modbus reaches, beside `sfcmon run`; it wants pymodbus.

    PYTHONPATH=share/python python3 examples/python/modbus.py HOST [PORT [SFCMON]]

Discrete inputs 0 and 1 are Start and Stop, coils 0 to 2 Pump, IdleLamp and RunOnLamp. Where the terminals don't answer, or the run has
ended, the pump is told to stand still."""

import asyncio
import os
import sys

from sfcmon import Run

CHART = os.path.join(os.path.dirname(os.path.abspath(__file__)), "..", "pump.chart")
INPUTS, OUTPUTS = ["Start", "Stop"], ["Pump", "IdleLamp", "RunOnLamp"]
CYCLE = 0.02  # seconds


async def serve(run, client):
    """Reads the inputs and writes the outputs, until the run has ended or the terminals fail; the last outputs are those that are safe."""
    while run.status is None:
        read = await client.read_discrete_inputs(0, count=len(INPUTS))
        if read.isError():
            break
        for name, bit in zip(INPUTS, read.bits):
            run[name] = bool(bit)
        await client.write_coils(0, [bool(run.values.get(name)) for name in OUTPUTS])
        await asyncio.sleep(CYCLE)
    await client.write_coils(0, [False] * len(OUTPUTS))


async def main(host, port, program):
    from pymodbus.client import AsyncModbusTcpClient

    client = AsyncModbusTcpClient(host, port=port)
    if not await client.connect():
        print(f"{host}:{port} doesn't answer", file=sys.stderr)
        return 3
    async with Run(CHART, watch=OUTPUTS, program=program) as run:
        await serve(run, client)
    client.close()
    return run.status


if __name__ == "__main__":
    host, port, program = (sys.argv[1:] + ["127.0.0.1", "502", "sfcmon"][len(sys.argv) - 1:])[:3]
    sys.exit(asyncio.run(main(host, int(port), program)))
