#!/usr/bin/env python3
"""How long a language server takes for a chart of a megabyte.

    editor.py [TURNS] -- COMMAND..

COMMAND (`sfcmon lsp`) is started once for each form of a chart: as many program types of that form as the longest text that there may be
has room for. Each request is asked so many times (7 where none is given), and each change is one character somewhere in a comment in the
middle of the text, up to the diagnostics behind it. Of each the least, the median and the greatest time are told, in milliseconds, from
the first byte that is sent to the last that came. A line of the table stands for a request; the exit status is 1 where a median is above
200 ms.

The forms: `rings`, program types of 200 steps one behind the other; `long`, of 1,024, which is the most that there may be; `selections`,
where one step leads to a thousand others and back; `sequences`, where a transition begins 299 simultaneous ones."""

import json
import statistics
import subprocess
import sys
import time

MOST_BYTES = 1_048_576
MOST_STEPS = 1024
MOST_MILLISECONDS = 200
URI = "file:///plant/large.chart"


def step(number: int, body: str = "") -> str:
    word = "INITIAL_STEP" if number == 0 else "STEP"
    return f"  {word} S{number}:\n{body}  END_STEP"


def transition(before: str, after: str, condition: str = "Ready") -> str:
    return f"  TRANSITION FROM {before} TO {after} := {condition};\n  END_TRANSITION"


def ring(steps: int) -> list:
    """Steps one behind the other, each with an action and one that is delayed."""
    body = [f"    Valve{k % 50}(N);\n    Pump{k % 50}(D, T#1s);\n" for k in range(steps)]
    return ([step(k, body[k]) for k in range(steps)] + ["  (* here *)"]
            + [transition(f"S{k}", f"S{(k + 1) % steps}", f"S{k}.T >= T#20ms AND Ready") for k in range(steps)])


def selections() -> list:
    """A step that leads to all others, and each of them back."""
    others = range(1, MOST_STEPS)
    return ([step(k) for k in range(MOST_STEPS)] + ["  (* here *)"]
            + [line for k in others for line in (transition("S0", f"S{k}", f"Ready AND S0.T > T#{k}ms"), transition(f"S{k}", "S0"))])


def sequences() -> list:
    """A transition that begins 299 sequences of two steps, and one that ends them."""
    numbers = range(1, 300)
    first, second = [f"S{k}" for k in numbers], [f"S{k + 300}" for k in numbers]
    steps = [step(0)] + [step(k, f"    Valve{k % 50}(N);\n") + "\n" + step(k + 300, f"    Pump{k % 50}(S);\n") for k in numbers]
    return (steps + [step(700), "  (* here *)", transition("S0", f"({', '.join(first)})")]
            + [transition(one, other) for one, other in zip(first, second)]
            + [transition(f"({', '.join(second)})", "S700"), transition("S700", "S0")])


FORMS = {"rings": lambda: ring(200), "long": lambda: ring(MOST_STEPS), "selections": selections, "sequences": sequences}


def configuration() -> str:
    """One program of the first type, and the variables that all types name."""
    variables = "".join(f"      Valve{k} : BOOL;\n      Pump{k} : BOOL;\n" for k in range(50))
    return ("CONFIGURATION C\n  RESOURCE R ON Plc\n    VAR_GLOBAL\n      Ready AT %IX0.0 : BOOL;\n" + variables
            + "    END_VAR\n    TASK Main(INTERVAL := T#10ms, PRIORITY := 1);\n    PROGRAM P WITH Main : Form0;\n"
            "  END_RESOURCE\nEND_CONFIGURATION\n")


def large_chart(form: str) -> str:
    """As many program types of a form as a text may hold."""
    body, last = "\n".join(FORMS[form]()), configuration()
    types, size = [], len(last)
    while size + len(body) + 40 < MOST_BYTES - 1000:
        types.append(f"PROGRAM Form{len(types)}\n{body}\nEND_PROGRAM\n")
        size += len(types[-1])
    return "".join(types) + last


class Server:
    """A language server, asked one thing at a time."""

    def __init__(self, command: list):
        self.process = subprocess.Popen(command, stdin=subprocess.PIPE, stdout=subprocess.PIPE)
        self.number = 0

    def send(self, method: str, params, number=None):
        message = {"jsonrpc": "2.0", "method": method, "params": params} | ({} if number is None else {"id": number})
        body = json.dumps(message).encode()
        self.process.stdin.write(b"Content-Length: %d\r\n\r\n" % len(body) + body)
        self.process.stdin.flush()

    def message(self) -> bytes:
        """The body of the next message, as bytes, so that no time goes into reading it."""
        length = 0
        while (line := self.process.stdout.readline().strip()):
            name, _, value = line.partition(b":")
            length = int(value) if name.lower() == b"content-length" else length
        return self.process.stdout.read(length)

    def ask(self, method: str, params) -> tuple:
        """How many milliseconds the answer of a request takes, and its bytes."""
        self.number += 1
        return self.timed(method, params, lambda told: told.get("id") == self.number, self.number)

    def tell(self, method: str, params) -> tuple:
        """The same of a notification that changes a text: of the diagnostics behind it."""
        return self.timed(method, params, lambda told: told.get("method") == "textDocument/publishDiagnostics")

    def timed(self, method: str, params, is_right, number=None) -> tuple:
        """The time ends with the last byte; what came is looked at behind it."""
        begin = time.perf_counter()
        self.send(method, params, number)
        body = self.message()
        took = (time.perf_counter() - begin) * 1000
        assert is_right(json.loads(body)), body[:300]
        return took, len(body)


def requests(text: str) -> dict:
    """The requests that an editor makes of a text, by name."""
    document = {"textDocument": {"uri": URI}}
    lines = text.split("\n")
    line = next(k for k in range(len(lines) // 2, len(lines)) if "TRANSITION FROM S0 TO" in lines[k])
    place = document | {"position": {"line": line, "character": lines[line].index("S0") + 1}}
    return {
        "hover": place, "definition": place, "references": place | {"context": {"includeDeclaration": True}}, "documentHighlight": place,
        "completion": place, "documentSymbol": document, "foldingRange": document, "codeLens": document, "semanticTokens/full": document,
        "codeAction": document | {"range": {"start": place["position"], "end": place["position"]}, "context": {"diagnostics": []}},
        "prepareRename": place, "rename": place | {"newName": "Settled"},
        "formatting": document | {"options": {"tabSize": 2, "insertSpaces": True}},
    }


def change(text: str, turn: int) -> dict:
    """One character more in the comment that stands in the middle of the text."""
    lines = text.split("\n")
    line = max(k for k in range(len(lines)) if "(* here" in lines[k])
    at = {"line": line, "character": 7}
    return {"textDocument": {"uri": URI, "version": turn + 2}, "contentChanges": [{"range": {"start": at, "end": at}, "text": "x"}]}


def server_of(command: list, text: str, has_inner: bool) -> tuple:
    """A server for which a text is open, and what opening it took; its client takes symbols with those in them, or one behind the other."""
    server = Server(command)
    symbols = {"textDocument": {"documentSymbol": {"hierarchicalDocumentSymbolSupport": has_inner}}}
    server.ask("initialize", {"processId": None, "rootUri": None, "capabilities": symbols})
    server.send("initialized", {})
    opened = {"textDocument": {"uri": URI, "languageId": "sfc-chart", "version": 1, "text": text}}
    return server, server.tell("textDocument/didOpen", opened)


def end(server: Server):
    server.ask("shutdown", None)
    server.send("exit", None)
    server.process.wait()


def rows_of(command: list, text: str, turns: int) -> list:
    """Each request with what it took, in a server of its own."""
    server, opened = server_of(command, text, True)
    rows = [("didOpen", [opened])]
    rows.append(("didChange", [server.tell("textDocument/didChange", change(text, turn)) for turn in range(turns)]))
    for method, params in requests(text).items():
        rows.append((method, [server.ask("textDocument/" + method, params) for _ in range(turns)]))
    end(server)
    server, _ = server_of(command, text, False)
    rows.append(("documentSymbol, a list", [server.ask("textDocument/documentSymbol", {"textDocument": {"uri": URI}}) for _ in range(turns)]))
    end(server)
    return rows


def main(words: list) -> int:
    at = words.index("--") if "--" in words else -1
    turns, command, is_late = int(words[0]) if at == 1 else 7, words[at + 1:], False
    for form in FORMS:
        text = large_chart(form)
        print(f"{form}: a chart of {len(text):,} bytes, {text.count(chr(10)):,} lines; milliseconds, least, median, greatest; bytes of the answer")
        for name, took in rows_of(command, text, turns):
            times = [it[0] for it in took]
            print(f"{name:22} {min(times):8.1f} {statistics.median(times):8.1f} {max(times):8.1f} {took[-1][1]:12,}", flush=True)
            is_late = is_late or statistics.median(times) > MOST_MILLISECONDS
    return int(is_late)


if __name__ == "__main__":
    sys.exit(main(sys.argv[1:]))
