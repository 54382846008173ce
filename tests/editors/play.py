#!/usr/bin/env python3
"""Plays recorded sessions of an editor on a server, and tells where it answers otherwise.

    play.py COMMAND.. -- SESSION..

COMMAND is started anew for each session, in the folder of the session, with its standard input and output as the protocol has them: a
head with Content-Length, and a text of JSON. A session has these lines; others are passed over:

    > JSON      a message that is sent. What goes on in the next lines, which begin with a blank, belongs to it
    < JSON      a message that is wanted: the next one that comes, or one of those behind it where `<~` stands; of it are wanted the members
                that are there, at any depth. A list has to have as many items, unless its last one is the text "...". A text that begins
                with "~" has to stand somewhere in the one that comes, and "~*" stands for any value.
    <! N        no message comes any more, and the exit status is N
    >> BYTES    bytes that are sent as they are, with escapes as in C

PLAY_LOG, where it is set, is a file to which each message is added that the server has sent, a line each.

In a message, `@FILE@` stands for the text of a file beside the session, and `@URI:FILE@` for its name as a uri.
"""
import json
import os
import re
import select
import subprocess
import sys
import time

WAIT = float(os.environ.get("PLAY_WAIT", "20"))
LOG = os.environ.get("PLAY_LOG", "")

class Server:
    def __init__(self, command, folder):
        self.process = subprocess.Popen(command, cwd=folder, stdin=subprocess.PIPE, stdout=subprocess.PIPE)
        self.held = b""
        self.waits = []
        self.has_ended = False

    def send(self, text):
        try:
            self.process.stdin.write(text)
            self.process.stdin.flush()
        except BrokenPipeError:
            pass

    def message(self):
        """The next message; None where none comes."""
        end = time.time() + WAIT
        while True:
            head = self.held.find(b"\r\n\r\n")
            if head >= 0:
                length = int(re.search(rb"Content-Length: (\d+)", self.held[:head]).group(1))
                if len(self.held) >= head + 4 + length:
                    text = self.held[head + 4:head + 4 + length]
                    self.held = self.held[head + 4 + length:]
                    if LOG:
                        with open(LOG, "ab") as log:
                            log.write(text + b"\n")
                    return json.loads(text.decode("utf-8"))
            left = end - time.time()
            if left <= 0 or self.has_ended or not select.select([self.process.stdout], [], [], left)[0]:
                return None
            piece = os.read(self.process.stdout.fileno(), 65536)
            self.has_ended = not piece
            self.held += piece

    def status(self):
        self.process.stdin.close()
        return self.process.wait(WAIT)

def matches(wanted, found, at=""):
    """Where what is found isn't what is wanted; None where it is."""
    if wanted == "~*":
        return None
    if isinstance(wanted, str) and wanted.startswith("~"):
        if isinstance(found, str) and wanted[1:] in found:
            return None
        return f"{at}: {wanted[1:]!r} doesn't stand in {found!r}"
    if isinstance(wanted, dict):
        if not isinstance(found, dict):
            return f"{at}: {found!r} is no object"
        for name, value in wanted.items():
            if name not in found:
                return f"{at}.{name} is missing"
            why = matches(value, found[name], f"{at}.{name}")
            if why:
                return why
        return None
    if isinstance(wanted, list):
        if not isinstance(found, list):
            return f"{at}: {found!r} is no list"
        is_open = wanted and wanted[-1] == "..."
        items = wanted[:-1] if is_open else wanted
        if len(found) < len(items) or (not is_open and len(found) != len(items)):
            return f"{at}: {len(found)} items, and {len(items)} wanted: {json.dumps(found)[:600]}"
        for place, value in enumerate(items):
            why = matches(value, found[place], f"{at}[{place}]")
            if why:
                return why
        return None
    if type(wanted) is not type(found) or wanted != found:
        return f"{at}: {found!r} in place of {wanted!r}"
    return None

def filled(text, folder):
    def uri(found):
        return "file://" + os.path.join(folder, found.group(1))
    def file(found):
        with open(os.path.join(folder, found.group(1)), encoding="utf-8") as it:
            return json.dumps(it.read())[1:-1]
    text = re.sub(r"@URI:([^@]+)@", uri, text)
    return re.sub(r"@([\w./-]+)@", file, text)

def steps(name):
    """The steps of a session: the line, what is to be done, and its text."""
    found = []
    with open(name, encoding="utf-8") as it:
        for number, line in enumerate(it.read().split("\n"), 1):
            if line.startswith((" ", "\t")) and found:
                found[-1][2] += "\n" + line.strip()
            else:
                sign = next((sign for sign in (">>", "<~", "<!", ">", "<") if line.startswith(sign)), None)
                if sign:
                    found.append([number, sign, line[len(sign):].strip()])
    return found

def wanted_one(server, sign, wanted):
    """Why no message is the wanted one; None where one is."""
    why = "no message comes"
    while True:
        message = server.message()
        if message is None:
            return why
        why = matches(wanted, message)
        if why is None:
            return None
        if sign == "<":
            return f"{why}\n    {json.dumps(message)[:1500]}"

def play(command, name):
    folder = os.path.dirname(os.path.abspath(name))
    server = Server(command, folder)
    has_status = False
    try:
        for number, sign, text in steps(name):
            why = None
            if sign == ">>":
                server.send(text.encode("latin-1").decode("unicode_escape").encode("latin-1"))
            elif sign == ">":
                body = json.dumps(json.loads(filled(text, folder)), ensure_ascii=False).encode("utf-8")
                server.send(b"Content-Length: %d\r\n\r\n%s" % (len(body), body))
            elif sign == "<!":
                has_status = True
                status = server.status()
                message = server.message()
                if message is not None:
                    why = f"one more message: {json.dumps(message)[:1500]}"
                elif status != int(text):
                    why = f"status {status}, and {text} wanted"
            else:
                why = wanted_one(server, sign, json.loads(filled(text, folder)))
            if why:
                print(f"{name}:{number}: {why}")
                return False
        return True
    finally:
        if not has_status:
            try:
                server.process.stdin.close()
            except BrokenPipeError:
                pass
            server.process.terminate()
        server.process.wait()

def main():
    words = sys.argv[1:]
    if "--" not in words:
        sys.exit(__doc__)
    command, names = words[:words.index("--")], words[words.index("--") + 1:]
    failed = sum(not play(command, name) for name in names)
    print(f"{len(names)} sessions, {failed} failed")
    sys.exit(1 if failed or not names else 0)


if __name__ == "__main__":
    main()
