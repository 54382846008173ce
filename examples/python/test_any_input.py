"""The mixing station, whatever its inputs do. For pytest, with sfc.py, sfc_hypothesis.py and libsfc.so on PYTHONPATH; it wants hypothesis."""

import os

from sfc_hypothesis import bench

CHART = os.path.join(os.path.dirname(os.path.abspath(__file__)), "..", "mixing.chart")


class Station(bench(CHART)):
    def always(self, plc):
        steps = plc.programs["Tank1"].steps
        assert not (plc["DrainValve"] and plc["WaterValve"])
        assert not steps["Mixing"].active or not (plc["WaterValve"] or plc["DrainValve"])
        assert plc["Mixer"] == steps["Mixing"].active
        assert plc["Tank1.Batches"] >= 0


TestStation = Station.TestCase
