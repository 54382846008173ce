"""One life of a program instance, as rows that are looked back over (IEC 61131-3, 2.6.2 to 2.6.5).

A life has a row for each scan without a fault since the opening or the latest reset. A row keeps what was put in (the instant, the
cleared transitions, the times of the associations); everything else is found by looking back over the rows. Nothing runs along: there
is no timer, no flip-flop and no table. An answer over a row and those before it never changes, so a row may remember it.
"""

from meaning import Fault

TIMED = ("L", "D", "SD", "DS", "SL")


class Row:
    """One scan: its instant, the numbers of the transitions that it cleared and the times of the chart's associations."""

    def __init__(self, instant: int, cleared: list, times: list):
        self.instant, self.cleared, self.times = instant, cleared, times
        self.known = {}


def remembered(question):
    """Keeps the answer of a question about a row in that row."""
    def ask(life, scan, *what):
        if scan == 0:
            return question(life, scan, *what)
        known, key = life.rows[scan - 1].known, (question.__name__,) + what
        if key not in known:
            known[key] = question(life, scan, *what)
        return known[key]
    return ask


class Life:
    """The rows of one life over a chart. Scans are numbered from 1; before the first, at 0, everything is 0."""

    def __init__(self, chart):
        self.chart, self.rows = chart, []
        self.numbers = {}
        self.qualifiers = [set() for _ in chart.actions]
        for number, one in enumerate(chart.associations):
            self.numbers.setdefault((one.action, one.qualifier), []).append(number)
            self.qualifiers[one.action].add(one.qualifier)

    def scans(self) -> int:
        """How many rows the life has."""
        return len(self.rows)

    def row(self, scan: int) -> Row:
        """The row of a scan, from 1."""
        return self.rows[scan - 1]

    def since(self, earlier: int, scan: int) -> int:
        """The time from one scan to another."""
        return self.row(scan).instant - self.row(earlier).instant

    # -- steps (2.6.2, 2.6.5)

    @remembered
    def activated(self, scan: int) -> frozenset:
        """The steps that a scan activates: those behind its cleared transitions, in the first scan the initial ones too."""
        found = set(self.chart.initial) if scan == 1 else set()
        for number in self.row(scan).cleared:
            found |= self.chart.transitions[number].after
        return frozenset(found)

    @remembered
    def left(self, scan: int) -> frozenset:
        """The steps before the transitions that a scan clears."""
        found = set()
        for number in self.row(scan).cleared:
            found |= self.chart.transitions[number].before
        return frozenset(found)

    @remembered
    def active(self, scan: int, step: int) -> bool:
        """Whether a step is active: some scan activated it and none since then left it without activating it as well."""
        for earlier in range(scan, 0, -1):
            if step in self.activated(earlier):
                return True
            if step in self.left(earlier):
                return False
        return False

    def steps(self, scan: int) -> list:
        """The active steps in text order."""
        return [step for step in range(len(self.chart.steps)) if self.active(scan, step)]

    def latest_activation(self, scan: int, step: int):
        """The latest scan that activated a step, or None."""
        return next((earlier for earlier in range(scan, 0, -1) if step in self.activated(earlier)), None)

    def elapsed(self, scan: int, step: int) -> int:
        """The time of a step at a scan: it runs while the step is active and stays once it is left."""
        begun = self.latest_activation(scan, step)
        if begun is None:
            return 0
        if self.active(scan, step):
            return self.since(begun, scan)
        ended = next(later for later in range(begun + 1, scan + 1) if step in self.left(later))
        return self.since(begun, ended)

    def elapsed_at(self, step: int, instant: int) -> int:
        """The time of a step as a condition sees it at an instant behind the last row."""
        scan = self.scans()
        if self.active(scan, step):
            return instant - self.row(self.latest_activation(scan, step)).instant
        return self.elapsed(scan, step)

    # -- action control (2.6.4.5)

    @remembered
    def input(self, scan: int, action: int, qualifier: str) -> bool:
        """Whether an active step has an association to the action with this qualifier."""
        return bool(self.associated(scan, action, qualifier))

    def associated(self, scan: int, action: int, qualifier: str) -> list:
        """The numbers of the action's associations with this qualifier whose step is active."""
        return [number for number in self.numbers.get((action, qualifier), [])
                if self.active(scan, self.chart.associations[number].step)]

    def rises(self, scan: int, signal) -> bool:
        """Whether a signal is 1 at a scan and was 0 at the one before."""
        return signal(scan) and not signal(scan - 1)

    def falls(self, scan: int, signal) -> bool:
        """Whether a signal is 0 at a scan and was 1 at the one before."""
        return signal(scan - 1) and not signal(scan)

    def latch(self, scan: int, action: int, setter) -> bool:
        """A flip-flop: some scan set it, and none from then on had R."""
        for earlier in range(scan, 0, -1):
            if self.input(earlier, action, "R"):
                return False
            if setter(earlier):
                return True
        return False

    def delayed(self, scan: int, action: int, signal) -> bool:
        """An on-delay: the signal has been 1 without a break for the time that the action had where it rose."""
        if not signal(scan):
            return False
        rose = scan
        while rose > 1 and signal(rose - 1):
            rose -= 1
        return self.since(rose, scan) >= self.time(rose, action)

    def timed(self, scan: int, action: int) -> list:
        """The numbers of the action's associations that have a time and whose step is active."""
        return [number for qualifier in TIMED for number in self.associated(scan, action, qualifier)]

    @remembered
    def time(self, scan: int, action: int) -> int:
        """The time of the action's one active association that has one; 0 where there is none."""
        found = self.timed(scan, action)
        return self.row(scan).times[found[0]] if found else 0

    @remembered
    def stored(self, scan: int, action: int, qualifier: str) -> bool:
        """The flip-flop that the input of this qualifier sets (S, SD, SL)."""
        return self.latch(scan, action, lambda earlier: self.input(earlier, action, qualifier))

    @remembered
    def input_delayed(self, scan: int, action: int, qualifier: str) -> bool:
        """The on-delay of the input of this qualifier (L, D, DS)."""
        return self.delayed(scan, action, lambda earlier: self.input(earlier, action, qualifier))

    @remembered
    def stored_delayed(self, scan: int, action: int, qualifier: str) -> bool:
        """The on-delay of the flip-flop of this qualifier (SD, SL)."""
        return self.delayed(scan, action, lambda earlier: self.stored(earlier, action, qualifier))

    @remembered
    def delayed_stored(self, scan: int, action: int) -> bool:
        """The flip-flop that the on-delay of DS sets."""
        return self.latch(scan, action, lambda earlier: self.input_delayed(earlier, action, "DS"))

    def contribution(self, scan: int, action: int, qualifier: str) -> bool:
        """What one qualifier gives to Q."""
        if qualifier in ("N", "S"):
            return self.input(scan, action, "N") if qualifier == "N" else self.stored(scan, action, "S")
        if qualifier == "L":
            return self.input(scan, action, "L") and not self.input_delayed(scan, action, "L")
        if qualifier == "D":
            return self.input_delayed(scan, action, "D")
        if qualifier == "P":
            return self.rises(scan, lambda at: self.input(at, action, "P"))
        if qualifier == "SD":
            return self.stored_delayed(scan, action, "SD")
        if qualifier == "DS":
            return self.delayed_stored(scan, action)
        if qualifier == "SL":
            return self.stored(scan, action, "SL") and not self.stored_delayed(scan, action, "SL")
        return False

    @remembered
    def q(self, scan: int, action: int) -> bool:
        """Q: 0 before the first scan and while R is 1, else 1 where one of the action's qualifiers gives it."""
        if scan == 0 or self.input(scan, action, "R"):
            return False
        return any(self.contribution(scan, action, qualifier) for qualifier in self.qualifiers[action])

    @remembered
    def executed(self, scan: int, action: int) -> bool:
        """A: Q, or where it falls (the final scan), or where P1 rises, or where P0 falls."""
        return (self.q(scan, action)
                or self.falls(scan, lambda at: self.q(at, action))
                or self.rises(scan, lambda at: self.input(at, action, "P1"))
                or self.falls(scan, lambda at: self.input(at, action, "P0")))

    def watch_control(self):
        """Raises the first control fault of the last row, by the actions in the order of their first associations."""
        scan = self.scans()
        for action, qualifiers in enumerate(self.qualifiers):
            if not qualifiers & set(TIMED):
                continue
            if len(self.timed(scan, action)) > 1:
                raise Fault("TwoTimed")
            if self.input(scan, action, "SD") and self.stored(scan, action, "SL"):
                raise Fault("SdWhileSl")
            if self.input(scan, action, "SL") and self.stored(scan, action, "SD"):
                raise Fault("SlWhileSd")
