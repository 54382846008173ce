#!/usr/bin/env python3
"""The page of docs/WEB.md over a run: what is drawn is the machine.

    panel.py CHART [--control] [--port N] [--program FILE] [--page FILE] [-- WORD..]

It runs `sfcmon run CHART --forever`, with WORDs behind it, prints an address, and serves the page there, to this machine alone. The page
plays the commands that the run accepts, as they come. It changes nothing, unless --control is given: then what is clicked is said to the
run. The address has a word that nobody can guess; who knows it may look, and with --control steer. Ctrl-C ends both.

It needs nothing but Python; the page is that of `tools/web`, or of a release.
"""
import argparse
import hmac
import json
import os
import re
import secrets
import signal
import subprocess
import sys
import threading
from http.server import BaseHTTPRequestHandler, ThreadingHTTPServer
from pathlib import Path

HERE = Path(__file__).resolve().parent
LONGEST = 4096
BEAT = 10
COMMAND = re.compile(r"(\d+) (T#\S+) (.*)")
# What stands behind a command in the lines of a run: its overruns and a hit, or the value that was read.
BEHIND = re.compile(r"^((?:SCAN|SINGLE) .*?) overruns \d+(?: hit)?$|^(READ \S+) \S+$")


def pages():
    """Where the page may be: beside a build, or in a release."""
    return [HERE.parents[1] / "build/web/index.html", HERE / "index.html", HERE.parents[1] / "share/sfcmon/index.html"]


def micros(text):
    """The microseconds of a TIME text, as a run writes it."""
    size = {"d": 86_400_000_000, "h": 3_600_000_000, "m": 60_000_000, "s": 1_000_000, "ms": 1_000}
    return round(sum(float(number) * size[unit] for number, unit in re.findall(r"([\d.]+)(ms|d|h|m|s)", text[2:])))


def time_text(number):
    """So many microseconds as a duration."""
    return f"T#{number // 1000}.{number % 1000:03}ms"


class Machine:
    """A run, with the lines of a script that plays what it has accepted."""

    def __init__(self, program, chart, words):
        self.lines, self.more, self.added = [], threading.Condition(), 0
        command, pipe = [program, "run", chart, "--forever", *words], subprocess.PIPE
        self.process = subprocess.Popen(command, stdin=pipe, stdout=pipe, text=True, bufsize=1, start_new_session=True)
        threading.Thread(target=self.listen, daemon=True).start()

    def listen(self):
        for line in self.process.stdout:
            found = COMMAND.match(line.rstrip("\n"))
            if found:
                self.take(found[2], found[3])
        with self.more:
            self.lines.append(None)
            self.more.notify_all()

    def take(self, instant, told):
        """A line of the run as one of a script. It tells run instants, so that in the script a halt takes no time, and SINGLE its own."""
        behind = BEHIND.match(told)
        command = (behind[1] or behind[2]) if behind else told
        if command.startswith("SINGLE "):
            self.added += micros(command.split()[-1])
        with self.more:
            self.lines.append(f"{time_text(micros(instant) - self.added)} {command}")
            self.more.notify_all()

    def since(self, number):
        """The lines behind so many, when there are some, or an empty list after a while."""
        with self.more:
            self.more.wait_for(lambda: len(self.lines) > number, BEAT)
            return self.lines[number:]

    def say(self, line):
        self.process.stdin.write(f"{line}\n")
        self.process.stdin.flush()

    def end(self):
        try:
            self.say("END")
            self.process.wait(5)
        except (OSError, ValueError, subprocess.TimeoutExpired):
            self.process.kill()


class Panel(ThreadingHTTPServer):
    daemon_threads = True

    def __init__(self, port, page, chart, machine, control):
        super().__init__(("127.0.0.1", port), Handler)
        self.page, self.chart, self.machine, self.control = page, chart, machine, control
        self.token = secrets.token_urlsafe(24)
        self.hosts = {f"{name}:{self.server_port}" for name in ("127.0.0.1", "localhost")}
        self.address = f"http://127.0.0.1:{self.server_port}/{self.token}/"

    def whole_page(self):
        """The page, which may ask this server, and knows that it shows a run."""
        live = f'<meta name="live" content="{"control" if self.control else "look"}">'
        page = self.page.replace("base-uri 'none'", "connect-src 'self'; base-uri 'none'", 1)
        return page.replace("<title>", f"{live}\n<title>", 1).encode()


class Handler(BaseHTTPRequestHandler):
    protocol_version = "HTTP/1.1"

    def log_message(self, format, *args):
        pass

    def name(self):
        """What is asked for, where the host, the token and where the question comes from are right."""
        parts = self.path.split("/", 2)
        origin = self.headers.get("Origin")
        if self.headers.get("Host") not in self.server.hosts or (origin and origin.removeprefix("http://") not in self.server.hosts):
            return None
        if len(parts) < 3 or not hmac.compare_digest(parts[1].encode("latin-1", "replace"), self.server.token.encode()):
            return None
        return parts[2]

    def give(self, status, kind="text/plain", body=b""):
        self.send_response(status)
        for name, value in (("Content-Type", f"{kind}; charset=utf-8"), ("Content-Length", str(len(body))), ("Cache-Control", "no-store"),
                            ("X-Content-Type-Options", "nosniff"), ("Referrer-Policy", "no-referrer"), ("X-Frame-Options", "DENY")):
            self.send_header(name, value)
        self.end_headers()
        self.wfile.write(body)

    def do_GET(self):
        name = self.name()
        if name == "":
            self.give(200, "text/html", self.server.whole_page())
        elif name == "chart":
            self.give(200, body=self.server.chart.encode("utf-8", "surrogateescape"))
        elif name == "events":
            self.events()
        else:
            self.give(404)

    def events(self):
        self.send_response(200)
        self.send_header("Content-Type", "text/event-stream")
        self.send_header("Cache-Control", "no-store")
        self.send_header("Connection", "close")
        self.end_headers()
        last = self.headers.get("Last-Event-ID", "0")
        number = int(last) if last.isdigit() else 0
        try:
            while True:
                lines = self.server.machine.since(number)
                number += len(lines)
                told = f"id: {number}\ndata: {json.dumps(lines)}\n\n" if lines else ": nothing new\n\n"
                self.wfile.write(told.encode())
                self.wfile.flush()
                if lines and lines[-1] is None:
                    return
        except OSError:
            return

    def do_POST(self):
        length = self.headers.get("Content-Length", "")
        if self.name() != "say" or not length.isdigit() or int(length) > LONGEST:
            self.close_connection = True
            return self.give(404)
        line = self.rfile.read(int(length)).decode("utf-8", "replace")
        if not self.server.control or "\n" in line or "\r" in line:
            return self.give(403)
        try:
            self.server.machine.say(line)
        except (OSError, ValueError):
            return self.give(410)
        return self.give(204)


def read_words():
    parser = argparse.ArgumentParser(description="The page over a run of a chart.")
    parser.add_argument("chart")
    parser.add_argument("--control", action="store_true", help="what is clicked is said to the run")
    parser.add_argument("--port", type=int, default=0)
    parser.add_argument("--program", default=os.environ.get("SFCMON", "sfcmon"))
    parser.add_argument("--page", type=Path, help="the index.html of tools/web")
    parser.add_argument("words", nargs="*", help="behind --: further words for sfcmon run")
    return parser.parse_args()


def main():
    words = read_words()
    page = words.page or next((it for it in pages() if it.exists()), None)
    if page is None:
        sys.exit("panel.py: there is no index.html; tools/web builds one, and --page names one")
    chart = Path(words.chart).read_bytes().decode("utf-8", "surrogateescape")
    machine = Machine(words.program, words.chart, words.words)
    panel = Panel(words.port, page.read_text(), chart, machine, words.control)
    signal.signal(signal.SIGTERM, lambda *_: sys.exit(0))
    print(panel.address, flush=True)
    try:
        panel.serve_forever()
    except KeyboardInterrupt:
        pass
    finally:
        machine.end()


if __name__ == "__main__":
    main()
