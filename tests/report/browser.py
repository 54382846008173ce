"""A page in a headless Chromium, which is spoken to over a pipe by its own protocol."""

import fcntl
import json
import os
import subprocess
import tempfile


class Page:
    """A page that was opened from a file."""

    def __init__(self, program: str, file, size="1400,1200"):
        ours = [fcntl.fcntl(it, fcntl.F_DUPFD_CLOEXEC, 20) for it in (*os.pipe(), *os.pipe())]
        self.room = tempfile.TemporaryDirectory(prefix="browser-", ignore_cleanup_errors=True)
        words = [program, "--headless=new", "--no-sandbox", "--disable-gpu", "--remote-debugging-pipe", f"--window-size={size}",
                 f"--user-data-dir={self.room.name}"]
        self.ran = subprocess.Popen(words, preexec_fn=lambda: (os.dup2(ours[0], 3), os.dup2(ours[3], 4)), close_fds=False, stderr=subprocess.DEVNULL)
        os.close(ours[0])
        os.close(ours[3])
        self.say, self.hear = os.fdopen(ours[1], "wb", 0), os.fdopen(ours[2], "rb")
        self.count, self.session, self.messages, self.requests = 0, {}, [], []
        target = self.ask("Target.createTarget", url="about:blank")["targetId"]
        self.session = {"sessionId": self.ask("Target.attachToTarget", targetId=target, flatten=True)["sessionId"]}
        for domain in ("Page", "Runtime", "Log", "Network"):
            self.ask(f"{domain}.enable")
        self.ask("Performance.enable", timeDomain="threadTicks")
        self.ask("Page.navigate", url=f"file://{os.path.abspath(file)}")
        self.until("document.readyState === 'complete' && document.body.dataset.ready === '1'")

    def take(self, told: dict):
        """Takes in what the browser tells by itself."""
        method, params = told.get("method"), told.get("params", {})
        if method == "Runtime.exceptionThrown":
            self.messages.append(params["exceptionDetails"].get("exception", {}).get("description"))
        elif method in ("Runtime.consoleAPICalled", "Log.entryAdded"):
            self.messages.append(str(params)[:300])
        elif method == "Network.requestWillBeSent":
            self.requests.append(params["request"]["url"])

    def ask(self, method: str, **given) -> dict:
        """What the browser answers."""
        self.count += 1
        self.say.write(json.dumps({"id": self.count, "method": method, "params": given, **self.session}).encode() + b"\0")
        while True:
            text = bytearray()
            while not text.endswith(b"\0"):
                text += self.hear.read(1) or self.end()
            told = json.loads(text[:-1])
            self.take(told)
            if told.get("id") == self.count:
                return told["result"] if "result" in told else self.end(f"{method}: {told}")

    @staticmethod
    def end(why="the browser ended"):
        """Gives up."""
        raise RuntimeError(why)

    def eval(self, code: str):
        """What an expression in the page answers."""
        told = self.ask("Runtime.evaluate", expression=code, awaitPromise=True, returnByValue=True)
        if "exceptionDetails" in told:
            self.end(f"{code}: {told['exceptionDetails'].get('exception', {}).get('description')}")
        return told["result"].get("value")

    def busy(self) -> float:
        """The processor time that the page itself has taken, in milliseconds."""
        told = self.ask("Performance.getMetrics")["metrics"]
        return next(it["value"] for it in told if it["name"] == "TaskDuration") * 1000

    def until(self, code: str, seconds=20):
        """Waits until an expression is true."""
        self.eval(f"new Promise((ok, no) => {{ const end = Date.now() + {seconds}e3; (function look() {{ if ({code}) ok(true); "
                  f"else if (Date.now() > end) no(Error('not so')); else setTimeout(look, 20); }})(); }})")

    def close(self):
        """Ends the browser."""
        self.ran.terminate()
        self.ran.wait()
