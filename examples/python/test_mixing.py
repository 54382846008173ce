"""The mixing station: what it is to do. For pytest, with sfc.py on PYTHONPATH and libsfc.so beside it; also python3 test_mixing.py."""

import os

import sfc

MS = 1000
CHART = os.path.join(os.path.dirname(os.path.abspath(__file__)), "..", "mixing.chart")

plc = sfc.fixture(CHART)


def press_start(plc):
    """The tank is empty; the start button is held from 50 to 150 ms. Both doses run from 100 ms on."""
    plc.scan("Main", 0)
    plc.input("Start", True, 50 * MS)
    plc.run("Main", 100 * MS)
    plc.input("Start", False, 150 * MS)
    plc.input("Empty", False, 150 * MS)


def test_both_valves_open_at_the_start(plc):
    press_start(plc)
    assert plc["WaterValve"] and plc["SyrupValve"] and not plc["Mixer"]


def test_water_stops_where_the_tank_is_full_and_waits_for_the_syrup(plc):
    press_start(plc)
    plc.run("Main", 200 * MS)
    plc.input("Full", True, 250 * MS)
    plc.run("Main", 300 * MS)
    assert plc.active("Tank1") == ["WaterIn", "Syrup"]


def test_the_dose_of_syrup_lasts_300_ms(plc):
    press_start(plc)
    plc.run("Main", 399 * MS)
    assert "Syrup" in plc.active("Tank1")
    plc.run("Main", 400 * MS)
    assert "SyrupIn" in plc.active("Tank1")


def test_a_batch_is_counted_when_draining_ends(plc):
    press_start(plc)
    plc.input("Full", True, 150 * MS)
    plc.run("Main", 700 * MS)
    assert plc["DrainValve"] and plc["Tank1.Batches"] == 0
    plc.input("Empty", True, 850 * MS)
    plc.run("Main", 900 * MS)
    assert plc["Tank1.Batches"] == 1


def test_a_halt_takes_no_time_of_the_dose(plc):
    press_start(plc)
    plc.run("Main", 200 * MS)
    plc.stop(250 * MS)
    plc.go(10_000 * MS)
    plc.run("Main", 10_050 * MS)
    assert plc.status().instant == 300 * MS and plc.state("Tank1", "step", "Syrup").elapsed == 200 * MS


def test_a_scan_too_early_tells_the_next_release(plc):
    plc.scan("Main", 0)
    try:
        plc.scan("Main", 50 * MS)
    except sfc.NotDue as refused:
        assert refused.reply.next == 100 * MS
    else:
        assert False


def test_the_terminals_are_wired_as_the_cabinet_is(plc):
    assert plc.variable("%IX0.0") == plc.variable("Start")


if __name__ == "__main__":
    for name, test in list(globals().items()):
        if name.startswith("test_"):
            with sfc.Plc.of(CHART) as it:
                test(it)
            print(name)
