#!/usr/bin/env python3
"""prompt.py PROGRAM CHART FOLDER: steps a chart by hand at a terminal: a session that is typed and ended by QUIT, one that is ended by Ctrl-D,
and one that Ctrl-C ends. The chart is examples/lamp.chart; the folder is for what is saved. The last line is 'N passed, M failed'."""
import fcntl
import os
import pty
import signal
import subprocess
import sys
import termios
import time

program, chart, folder = sys.argv[1:4]
passed = failed = 0


def note(is_so, title):
    global passed, failed
    if is_so:
        passed += 1
    else:
        failed += 1
        print("not as it should be:", title)


def start():
    """The program at a terminal of its own: its process, and the other end. The inner end stays open here too, so that nothing that the
    terminal still has is lost when the program ends."""
    end, inner = pty.openpty()
    child = subprocess.Popen([program, "debug", chart], stdin=inner, stdout=inner, stderr=inner, start_new_session=True,
                             preexec_fn=lambda: fcntl.ioctl(0, termios.TIOCSCTTY, 0))
    return child, end


def read_until(end, text):
    """What comes until it ends with the text, or for ten seconds."""
    got = b""
    os.set_blocking(end, False)
    for _ in range(1000):
        try:
            got += os.read(end, 4096)
        except BlockingIOError:
            time.sleep(0.01)
        except OSError:
            break
        if got.endswith(text):
            break
    return got


def status_of(child):
    """The exit status, or minus the signal, or None after ten seconds."""
    try:
        return child.wait(10)
    except subprocess.TimeoutExpired:
        child.kill()
        return None


def said(end, line):
    """What the program answers to a line: what comes behind the line itself, up to where the next is invited."""
    os.write(end, line + b"\n")
    text = read_until(end, b"\nsfc> ").replace(b"\r\n", b"\n")
    front = line + b"\n"
    return text[len(front):] if text.startswith(front) else b"?" + text


child, end = start()
note(read_until(end, b"sfc> ") == b"sfc> ", "a line is invited")
saved = os.path.join(folder, "typed.script")
note(said(end, b"READ Lamp") == b"T#0s READ Lamp FALSE\nsfc> ", "a command is answered at once")
note(said(end, b"JUMP") == b"; no command; HELP lists what may be said\nsfc> ", "what is no command is told")
note(said(end, b"SAVE " + saved.encode()) == b"; saved to " + saved.encode() + b"\nsfc> ", "a session is saved")
os.write(end, b"QUIT\n")
note(read_until(end, b"QUIT\r\n") == b"QUIT\r\n", "nothing is written behind QUIT")
note(status_of(child) == 0, "the status of a session that QUIT ends")
os.close(end)
with open(saved, "rb") as script:
    note(script.read() == b"T#0s READ Lamp\n", "what is saved")

child, end = start()
read_until(end, b"sfc> ")
note(said(end, b"STOP") == b"T#0s STOP\nsfc> ", "another session")
os.write(end, b"\x04")
note(read_until(end, b"\n").replace(b"^D\b\b", b"") == b"\r\n", "a line end behind Ctrl-D")
note(status_of(child) == 0, "the status of a session that Ctrl-D ends")
os.close(end)

child, end = start()
read_until(end, b"sfc> ")
os.write(end, b"\x03")
note(status_of(child) == -signal.SIGINT, "Ctrl-C ends a session")
os.close(end)
print(f"{passed} passed, {failed} failed")
sys.exit(failed != 0)
