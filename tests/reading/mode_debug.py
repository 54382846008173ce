"""Plants about the debugger: charts of the other modes; scripts with many breakpoints, halts, single scans, reads and epochs."""

from random import Random

import mode_control
import mode_image
import mode_tasks
from plant_debugging import DebugScripts
from plants import PlantMaker

CHARTS = [lambda rng: PlantMaker(rng).text(), lambda rng: PlantMaker(rng).text(), mode_control.chart, mode_tasks.chart,
          lambda rng: mode_image.ImageMaker(rng).text()]


class ManyHalts(DebugScripts):
    """Makes scripts in which most commands are the debugger's."""

    LEAST, MOST, FEW = 70, 130, 4


def plant(seed: int) -> tuple:
    """The chart and the script of a seed, as texts."""
    rng = Random(seed)
    chart = rng.choice(CHARTS)(rng)
    return chart, ManyHalts(rng, chart).text()
