"""What the plugin pytest_sfctest gives a test: c_library.sh runs it beside pump.chart, and wants that the last one fails."""

import pytest

pytestmark = pytest.mark.sfc_chart("pump.chart")


def test_a_chart_is_newly_opened(plc):
    assert plc.now == 0 and plc.status().accepted == 0
    plc["Start"] = True
    plc.advance(200_000)
    assert plc["Pump"]


def test_each_test_has_a_chart_of_its_own(plc):
    assert plc.now == 0 and not plc["Start"]


def test_the_pump_runs_by_itself(plc):
    plc.advance(300_000)
    assert plc["Pump"]
