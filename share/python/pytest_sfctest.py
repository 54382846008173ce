"""pytest for charts: files of tests, NAME.sfctest, of which each case is an item; a fixture `plc`, which is a chart that runs; and the
latest scans of each chart that a failed test had.

Load it by `pytest -p pytest_sfctest`, or in a conftest.py by `pytest_plugins = ["pytest_sfctest"]`. A file of tests is run on the chart of
its name beside it, NAME.chart, or on the one that `sfc_chart` of pytest's configuration names, a path from the folder of that configuration
on. The program is sfcmon, or what SFCMON names. `plc` is that chart too, or the one of a mark `@pytest.mark.sfc_chart("pump.chart")`, a path
from the test's folder on.
"""

import os
import subprocess

import pytest


def pytest_addoption(parser):
    parser.addini("sfc_chart", "the chart on which all files of tests are run", default="")


def pytest_configure(config):
    config.addinivalue_line("markers", "sfc_chart(path): the chart of the fixture plc, from the test's folder on")


def chart_of(config):
    """The chart that the configuration names, if it names one."""
    named = config.getini("sfc_chart")
    folder = config.inipath.parent if config.inipath else config.invocation_params.dir
    return folder / named if named else None


@pytest.fixture
def plc(request):
    """The chart, newly opened."""
    from sfc import Plc

    mark = request.node.get_closest_marker("sfc_chart")
    path = request.path.parent / mark.args[0] if mark else chart_of(request.config)
    if not path:
        pytest.fail("neither a mark sfc_chart nor the configuration names a chart", pytrace=False)
    with Plc.of(str(path)) as opened:
        yield opened


@pytest.hookimpl(hookwrapper=True)
def pytest_runtest_makereport(item, call):
    """A failed test has the latest scans of its charts beside its message."""
    report = (yield).get_result()
    if call.when == "call" and report.failed:
        for name, value in getattr(item, "funcargs", {}).items():
            if hasattr(value, "last_scans"):
                report.sections.append((f"latest scans of {name}", value.last_scans()))


def pytest_collect_file(file_path, parent):
    if file_path.suffix == ".sfctest":
        return Tests.from_parent(parent, path=file_path)
    return None


class Tests(pytest.File):
    """A file of tests."""

    told = None

    def run(self, *words):
        chart = chart_of(self.config) or self.path.with_suffix(".chart")
        command = [os.environ.get("SFCMON", "sfcmon"), "test", *words, str(chart), str(self.path)]
        return subprocess.run(command, stdin=subprocess.DEVNULL, capture_output=True, text=True, errors="replace", check=False)

    def collect(self):
        listed = self.run("--list")
        if listed.returncode:
            raise self.CollectError(listed.stderr)
        for place, name in enumerate(listed.stdout.splitlines()):
            yield Case.from_parent(self, name=name, place=place)

    def results(self):
        """Of each case whether it passed, and what is told of it. All are run at the first call."""
        if self.told is None:
            ran = self.run("--tap")
            self.told = []
            for line in ran.stdout.splitlines():
                if line.startswith(("ok ", "not ok ")):
                    self.told.append((line.startswith("ok "), []))
                elif line.startswith("# "):
                    self.told[-1][1].append(line[2:])
            if ran.returncode > 1:
                raise OSError(ran.stderr)
        return self.told


class Failed(Exception):
    """A case doesn't hold."""


class Case(pytest.Item):
    """A case of a file of tests."""

    def __init__(self, *, place, **rest):
        super().__init__(**rest)
        self.place = place

    def runtest(self):
        passed, told = self.parent.results()[self.place]
        if not passed:
            raise Failed("\n".join(told))

    def repr_failure(self, excinfo, style=None):
        if isinstance(excinfo.value, Failed):
            return str(excinfo.value)
        return super().repr_failure(excinfo, style)

    def reportinfo(self):
        return self.path, None, self.name
