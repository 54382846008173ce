"""The accepted events of a plant, as a list that is looked back over: values, releases, scans (IEC 61131-3, 2.4, 2.6, 2.7.2)."""

from lives import Life, Row
from meaning import Fault, View, execute, value

MOST_INSTANT = 2 ** 62
MOST_COUNT = 2 ** 64 - 1


class Refusal(Exception):
    """A refused event: number and name, and what is told behind them."""


class Accepted:
    """An accepted event: its kind, what it names, its instant, what it wrote, and what each SINGLE reads after it.

    A scan, forced or not, also has how many releases it served.
    """

    def __init__(self, kind: str, number: int, instant: int):
        self.kind, self.number, self.instant = kind, number, instant
        self.writes, self.forced, self.singles, self.served = {}, None, [], 0


class Instance:
    """A program instance: its present life, and the fault that it is skipped for, or None."""

    def __init__(self, plant_instance):
        self.plant = plant_instance
        self.life, self.fault = Life(plant_instance.chart), None


class History:
    """A plant, its accepted events, and the present life of each instance."""

    def __init__(self, plant):
        self.plant, self.events = plant, []
        self.instances = [Instance(one) for one in plant.instances]
        self.first_singles = self.singles()

    # -- values

    def stored(self, variable: int):
        """The latest value written, else the initial one."""
        for event in reversed(self.events):
            if variable in event.writes:
                return event.writes[variable]
        return self.plant.variables[variable].initial

    def force(self, variable: int):
        """The value of the latest force that no later release ended, or None."""
        for event in reversed(self.events):
            if event.number == variable and event.kind in ("FORCE", "RELEASE"):
                return event.forced
        return None

    def read(self, variable: int):
        """The value of a variable as everyone reads it."""
        forced = self.force(variable)
        return self.stored(variable) if forced is None else forced

    # -- releases (2.7.2)

    def singles(self) -> list:
        """What the SINGLE of each task reads now; FALSE for a task without one."""
        return [task.single is not None and self.read(task.single) for task in self.plant.tasks]

    def single(self, task: int, event: int) -> bool:
        """What SINGLE read after an event; the events are numbered from 1, and 0 is the opening."""
        return self.first_singles[task] if event == 0 else self.events[event - 1].singles[task]

    def instant(self, event: int) -> int:
        """The instant of an event; that of the opening lies below every release."""
        return -1 if event == 0 else self.events[event - 1].instant

    def rises(self, task: int, event: int) -> bool:
        """Whether SINGLE rose at an event."""
        return event > 0 and self.single(task, event) and not self.single(task, event - 1)

    def multiples(self, task: int, above: int, last: int) -> range:
        """The multiples of INTERVAL above one instant and not above another."""
        interval = self.plant.tasks[task].interval
        if interval == 0:
            return range(0)
        return range((above // interval + 1) * interval, last + 1, interval)

    def waiting(self, task: int, instant: int) -> list:
        """The releases that a scan of the task at an instant would serve, as ranges of instants.

        No scan before has served them: multiples of INTERVAL since the task's latest scan, as far as SINGLE read FALSE, and rises
        of SINGLE since then, one at the very event of that scan included.
        """
        latest = max((number for number, event in enumerate(self.events, 1) if event.kind == "SCAN" and event.number == task),
                     default=0)
        found = []
        for event in range(latest, len(self.events) + 1):
            if self.rises(task, event):
                found.append(range(self.instant(event), self.instant(event) + 1))
            until = self.instant(event + 1) if event < len(self.events) else instant
            if not self.single(task, event):
                found.append(self.multiples(task, self.instant(event), until))
        return [one for one in found if len(one)]

    def picked(self, instant: int):
        """The waiting task that goes first: by PRIORITY, then the earliest release, then the text; None where none waits."""
        ranks = []
        for number, task in enumerate(self.plant.tasks):
            releases = self.waiting(number, instant)
            if releases:
                ranks.append((task.priority, min(one[0] for one in releases), number))
        return min(ranks)[2] if ranks else None

    def next_release(self, task: int, instant: int):
        """The least multiple of INTERVAL above an instant; None where there is none up to 2^62 or SINGLE reads TRUE."""
        if self.single(task, len(self.events)):
            return None
        return next(iter(self.multiples(task, instant, MOST_INSTANT)), None)

    def overruns(self, task: int) -> int:
        """The releases beyond the first that each of the task's scans served; a forced one may have served none."""
        scans = [event for event in self.events if event.kind == "SCAN" and event.number == task]
        return min(MOST_COUNT, sum(max(0, event.served - 1) for event in scans))

    # -- events

    def begin(self, kind: str, number: int, instant: int) -> Accepted:
        """Takes an event into the list."""
        event = Accepted(kind, number, instant)
        self.events.append(event)
        return event

    def end(self):
        """Notes what each SINGLE reads after the latest event."""
        self.events[-1].singles = self.singles()

    def watch_instant(self, instant: int):
        """Refuses an instant out of range, and one below that of the latest accepted event."""
        if not 0 <= instant <= MOST_INSTANT:
            raise Refusal("33 InstantRange")
        if self.events and instant < self.events[-1].instant:
            raise Refusal("28 ClockBack")

    def watch_variable(self, variable):
        """Refuses a variable that isn't there."""
        if variable is None:
            raise Refusal("24 UnknownVar")

    def watch_value(self, variable: int, kind: str):
        """Refuses a value of another type than the variable's."""
        if self.plant.variables[variable].type != kind:
            raise Refusal("25 ValueType")

    def input(self, variable, kind: str, written, instant: int):
        """A value for a variable that is located at %I."""
        self.watch_instant(instant)
        self.watch_variable(variable)
        self.watch_value(variable, kind)
        location = self.plant.variables[variable].location
        if not location or location[0] != "I":
            raise Refusal("26 NotInput")
        self.begin("INPUT", variable, instant).writes[variable] = written
        self.end()

    def force_event(self, variable, kind: str, forced, instant: int):
        """A value that every read gives until a release."""
        self.watch_instant(instant)
        self.watch_variable(variable)
        self.watch_value(variable, kind)
        self.begin("FORCE", variable, instant).forced = forced
        self.end()

    def release_event(self, variable, instant: int):
        """The end of a force."""
        self.watch_instant(instant)
        self.watch_variable(variable)
        if self.force(variable) is None:
            raise Refusal("27 NotForced")
        self.begin("RELEASE", variable, instant)
        self.end()

    def reset(self, program, instant: int):
        """A new life for an instance; its own variables get their initial values."""
        self.watch_instant(instant)
        if program is None:
            raise Refusal("32 UnknownProgram")
        event, instance = self.begin("RESET", program, instant), self.instances[program]
        first = instance.plant.first
        for number, variable in enumerate(instance.plant.chart.own):
            event.writes[first + number] = variable.initial
        instance.life, instance.fault = Life(instance.plant.chart), None
        self.end()

    def scan(self, task, instant: int) -> list:
        """A scan of a task: what each of its instances did, as pairs of the instance and `ran`, `fault` or `skipped`."""
        self.watch_instant(instant)
        if task is None:
            raise Refusal("31 UnknownTask")
        releases, picked = self.waiting(task, instant), self.picked(instant)
        if not releases:
            raise Refusal("29 NotDue", self.next_release(task, instant))
        if picked != task:
            raise Refusal("30 Yield", self.plant.tasks[picked].name)
        return self.scan_task(task, instant)

    def forced_scan(self, task, instant: int) -> list:
        """A scan of a task that need not be due, nor go first; it serves what waits, if anything does."""
        self.watch_instant(instant)
        if task is None:
            raise Refusal("31 UnknownTask")
        return self.scan_task(task, instant)

    def scan_task(self, task: int, instant: int) -> list:
        """An accepted scan of either kind."""
        served = sum(len(one) for one in self.waiting(task, instant))
        event = self.begin("SCAN", task, instant)
        event.served = served
        done = [(one, self.scan_instance(one, event)) for one in self.instances if one.plant.task == task]
        self.end()
        return done

    def scan_instance(self, instance: Instance, event: Accepted) -> str:
        """A scan of one instance; with a fault nothing of it stays but the fault."""
        if instance.fault:
            return "skipped"
        rows = list(instance.life.rows)
        try:
            event.writes.update(ProgramScan(self, instance, event.instant).run())
            return "ran"
        except Fault as fault:
            instance.life.rows, instance.fault = rows, str(fault)
            return "fault"


class ProgramScan:
    """One scan of one instance at an instant; what it writes is kept apart until it ends without a fault."""

    def __init__(self, history: History, instance: Instance, instant: int):
        self.history, self.plant, self.life, self.instant = history, instance.plant, instance.life, instant
        self.chart, self.written = instance.plant.chart, {}

    def read(self, place):
        """A variable's value in the scan: forced, else written in it, else as before it."""
        variable = self.plant.variable(place)
        forced = self.history.force(variable)
        if forced is None and variable in self.written:
            return self.written[variable]
        return self.history.read(variable)

    def write(self, place, written):
        """A value for a variable, under whatever force."""
        self.written[self.plant.variable(place)] = written

    def run(self) -> dict:
        """The scan in its order; gives what it wrote."""
        cleared = self.cleared()
        times = [one.time if one.time is None or isinstance(one.time, int) else self.read(one.time)
                 for one in self.chart.associations]
        self.life.rows.append(Row(self.instant, cleared, times))
        self.life.watch_control()
        self.assign()
        self.execute()
        return self.written

    def cleared(self) -> list:
        """The numbers of the cleared transitions.

        The conditions of all enabled transitions are evaluated first, in rank order. Then a transition whose condition is true is
        cleared, unless one that ranks before it is cleared and shares a preceding step with it.
        """
        life, transitions = self.life, self.chart.transitions
        scan = life.scans()
        view = View(self.read, lambda step: life.active(scan, step), lambda step: life.elapsed_at(step, self.instant))
        enabled = [number for number in self.chart.ranked if all(life.active(scan, step) for step in transitions[number].before)]
        true = [number for number in enabled if value(transitions[number].condition, view)]
        found = []
        for number in true:
            if not any(transitions[number].before & transitions[other].before for other in found):
                found.append(number)
        return sorted(found)

    def assign(self):
        """Each Boolean action's variable gets its Q, in the order of first association."""
        scan = self.life.scans()
        for number, action in enumerate(self.chart.actions):
            if action.place:
                self.write(action.place, self.life.q(scan, number))

    def execute(self):
        """The bodies of the executed declared actions, in the order of declaration."""
        life, scan = self.life, self.life.scans()
        for number in self.chart.bodies:
            if life.executed(scan, number):
                view = View(self.read, lambda step: life.active(scan, step), lambda step: life.elapsed(scan, step),
                            life.q(scan, number), self.write)
                execute(self.chart.actions[number].statements, view)
