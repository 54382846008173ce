"""`sfcmon run` with a dictionary of terminals. TIME values are microseconds.

    async with Run("pump.chart", watch=["Pump"]) as run:
        run["Start"] = True
        await run.until("Pump", True)
"""

import asyncio
import re

UNITS = {"d": 86_400_000_000, "h": 3_600_000_000, "m": 60_000_000, "s": 1_000_000, "ms": 1_000}
TOLD = re.compile(r"(?:\d+ T#\S+ READ )?([A-Za-z_][\w.]*) (\S+)$")


def value_of(text):
    """A value as `sfcmon` writes it."""
    if text in ("TRUE", "FALSE"):
        return text == "TRUE"
    if not text.startswith("T#"):
        return int(text)
    time = round(sum(float(n) * UNITS[unit] for n, unit in re.findall(r"([\d.]+)(ms|[dhms])", text)))
    return -time if text.startswith("T#-") else time


def text_of(value):
    """The same the other way round; a string stands as it is, so that a TIME is "T#1s"."""
    return str(value).upper() if isinstance(value, bool) else str(value)


class Run:
    """A chart that runs. What is set goes in as INPUT; `run[NAME]` is what one of the watched variables reads, by its name as it was
    declared, told when it changes. Where a fault has ended the scan of a program it is what `safe` says, until the variable changes; once
    the run has ended, what `safe` says, or else False. `words` are further words of the command line."""

    def __init__(self, chart, *words, watch, safe=None, program="sfcmon"):
        self.watch, self.safe = list(watch), dict(safe or {})
        closing = [f"--at-end={name}={text_of(value)}" for name, value in self.safe.items()]
        self.words = [program, "run", "--trace=64", *(f"--watch={name}" for name in self.watch), *closing, *words, chart]
        self.values, self.given, self.status = {}, {}, None

    async def __aenter__(self):
        pipe = asyncio.subprocess.PIPE
        self.process = await asyncio.create_subprocess_exec(*self.words, stdin=pipe, stdout=pipe)
        self.changed = asyncio.Condition()
        self.listening = asyncio.create_task(self.listen())
        self.say("\n".join(f"READ {name}" for name in self.watch))
        return self

    async def __aexit__(self, *_):
        self.end()
        await self.listening

    async def tell(self):
        async with self.changed:
            self.changed.notify_all()

    async def listen(self):
        async for line in self.process.stdout:
            if found := TOLD.match(line.decode()):
                self.values[found[1]] = value_of(found[2])
                await self.tell()
        self.status = await self.process.wait()
        self.values.update((name, self.safe.get(name, False)) for name in self.watch)
        await self.tell()

    def end(self):
        """The end of the session, and so of the run, with `--forever` too."""
        self.say("END")
        self.process.stdin.close()

    def say(self, line):
        """Any line of a session, such as FORCE Pump FALSE; nothing once it has ended."""
        if not self.process.stdin.is_closing():
            self.process.stdin.write(line.encode() + b"\n")

    def __getitem__(self, name):
        return self.values[name]

    def __setitem__(self, name, value):
        if self.given.get(name) != value:
            self.given[name] = value
            self.say(f"INPUT {name} {text_of(value)}")

    async def until(self, name, value, seconds=10.0):
        """Waits until the variable reads so, or the run has ended: whether it does."""
        async with self.changed:
            there = self.changed.wait_for(lambda: self.values.get(name) == value or self.status is not None)
            await asyncio.wait_for(there, seconds)
        return self.values.get(name) == value
