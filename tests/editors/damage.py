#!/usr/bin/env python3
"""damage.py PROGRAM COUNT [SEED]: sends damaged streams of the recorded sessions to `PROGRAM lsp` and `PROGRAM dap`, COUNT to each, and tells
where one ends by a signal, goes on too long, or writes what is no frame of JSON; and where a request that came whole before the first
damage isn't answered by one response. The last line is 'N passed, M failed'.

Damages: a byte is another one, a piece is cut out or put twice; a length is wrong, or missing; members are missing or of another type;
messages are left out, put twice or out of order; the stream ends within a message."""

import json
import os
import re
import subprocess
import sys
from concurrent.futures import ThreadPoolExecutor
from pathlib import Path
from random import Random

HERE = Path(__file__).resolve().parent
STATUSES = (0, 1, 3)
PATIENCE = 60
ODD = [None, True, 0, -1, 2**63, 1.5, "", "\ud83d\ude00", [], {}, [[]], "file:///nowhere"]


def messages_of(session):
    """The messages that a session sends."""
    sys.path.insert(0, str(HERE))
    import play

    for _, sign, text in play.steps(session):
        if sign == ">":
            yield json.loads(play.filled(text, str(session.parent)))


def frame(text, length=None):
    return b"Content-Length: %d\r\n\r\n%s" % (len(text) if length is None else length, text)


def places(value, found=()):
    """The ways to each member of a message."""
    if isinstance(value, dict):
        for name in value:
            yield found + (name,)
            yield from places(value[name], found + (name,))
    elif isinstance(value, list):
        for number, item in enumerate(value):
            yield found + (number,)
            yield from places(item, found + (number,))


def changed(rng, message):
    """The message with a member less, or one of another value."""
    message = json.loads(json.dumps(message))
    way = rng.choice(list(places(message)))
    inner = message
    for name in way[:-1]:
        inner = inner[name]
    if rng.random() < 0.4:
        del inner[way[-1]]
    else:
        inner[way[-1]] = rng.choice(ODD)
    return message


def text_of(message):
    return json.dumps(message, ensure_ascii=True).encode()


def bytes_damaged(rng, stream):
    """A stream with a byte, a piece or its end changed; and before which byte it is whole."""
    if not stream:
        return stream, 0
    place = rng.randrange(len(stream))
    kind = rng.randrange(4)
    if kind == 0:
        return stream[:place] + bytes([rng.randrange(256)]) + stream[place + 1:], place
    if kind == 1:
        return stream[:place] + stream[place + rng.randrange(1, 40):], place
    if kind == 2:
        return stream[:place] + stream[max(0, place - rng.randrange(1, 40)):], place
    return stream[:place], place


def ways(rng, messages):
    """A damaged list of messages as frames."""
    frames = [frame(text_of(it)) for it in messages]
    for _ in range(rng.randrange(1, 4)):
        place = rng.randrange(len(frames))
        kind = rng.randrange(7)
        if kind == 0:
            frames[place] = frame(text_of(changed(rng, messages[place % len(messages)])))
        elif kind == 1:
            del frames[place]
        elif kind == 2:
            frames.insert(place, rng.choice(frames))
        elif kind == 3:
            rng.shuffle(frames)
        elif kind == 4:
            text = text_of(messages[place % len(messages)])
            frames[place] = frame(text, rng.choice([0, 1, len(text) - 1, len(text) + 1, 2**24, 2**24 + 1, 2**70]))
        elif kind == 5:
            frames[place] = rng.choice([b"\r\n\r\n", b"Content-Length:\r\n\r\n", b"X: y\r\n\r\n", b"Content-Length: -1\r\n\r\n", b"\n" * 20])
        else:
            frames[place] = frame(rng.choice([b"", b"{", b"[" * 3000, b"null", b'"\\ud800"', b"\xff\xfe", b'{"jsonrpc":"2.0"}', b"1e999"]))
        if not frames:
            frames = [frame(b"{}")]
    return frames


def read_frames(out):
    """The messages that were written; None where what was written is no frames of JSON."""
    found, rest = [], out
    while rest:
        head = re.match(rb"Content-Length: (\d+)\r\n\r\n", rest)
        if not head:
            return None
        end = head.end() + int(head.group(1))
        if len(rest) < end:
            return None
        try:
            found.append(json.loads(rest[head.end():end].decode("utf-8")))
        except ValueError:
            return None
        rest = rest[end:]
    return found


def number_of(message):
    return message.get("id") if "jsonrpc" in message else message.get("seq")


def is_answer(found, number):
    if "jsonrpc" in found:
        return "method" not in found and found.get("id") == number
    return found.get("type") == "response" and found.get("request_seq") == number


def asks(message):
    return "id" in message and "method" in message or message.get("type") == "request"


def missing(whole, told):
    """A request among these that isn't answered in its turn, or is answered twice before the next one is; None where there is none. What
    stands behind the first damage may have the number of a request once more."""
    numbers = [number_of(it) for it in whole if asks(it)]
    at = 0
    for number, following in zip(numbers, numbers[1:] + [None]):
        place = next((it for it in range(at, len(told)) if is_answer(told[it], number)), None)
        if place is None:
            return f"no response in its turn to {number}"
        at = place + 1
        behind = next((it for it in range(at, len(told)) if following is not None and is_answer(told[it], following)), at)
        if number != following and any(is_answer(it, number) for it in told[at:behind]):
            return f"two responses to {number}"
    return None


def whole_before(stream, place):
    """The messages that stand whole before a byte of a stream."""
    found, at = [], 0
    while True:
        head = re.match(rb"Content-Length: (\d+)\r\n\r\n", stream[at:place])
        if not head or at + head.end() + int(head.group(1)) > place:
            return found
        end = at + head.end() + int(head.group(1))
        found.append(json.loads(stream[at + head.end():end]))
        at = end


def wrong(program, server, stream, whole):
    """What is wrong with how the server takes a stream; None where nothing is."""
    try:
        ran = subprocess.run([program, server], input=stream, capture_output=True, timeout=PATIENCE, cwd="/tmp")
    except subprocess.TimeoutExpired:
        return "it goes on too long"
    if ran.returncode not in STATUSES:
        return f"status {ran.returncode}: {ran.stderr[:300]}"
    told = read_frames(ran.stdout)
    if told is None:
        return f"what it writes is no frames of JSON: {ran.stdout[-300:]}"
    return missing(whole, told)


def one(program, server, sessions, seed):
    rng = Random(f"{server} {seed}")
    messages = rng.choice(sessions)
    if rng.random() < 0.5:
        stream = b"".join(frame(text_of(it)) for it in messages)
        damaged, place = bytes_damaged(rng, stream)
        whole = whole_before(stream, place)
    else:
        damaged, whole = b"".join(ways(rng, messages)), []
    why = wrong(program, server, damaged, whole)
    if why:
        kept = Path(f"/tmp/damaged-{server}-{seed}")
        kept.write_bytes(damaged)
        return f"{server} {seed}: {why} ({kept})"
    return None


def main(program, count, first="1"):
    passed = failed = 0
    with ThreadPoolExecutor(os.cpu_count() or 1) as pool:
        for server in ("lsp", "dap"):
            sessions = [list(messages_of(it)) for it in sorted((HERE / "sessions" / server).glob("*.txt"))]
            sessions = [it for it in sessions if it]
            seeds = range(int(first), int(first) + int(count))
            for why in pool.map(lambda seed: one(program, server, sessions, seed), seeds):
                passed, failed = passed + (why is None), failed + (why is not None)
                if why:
                    print(f"not as it should be: {why}")
    print(f"{passed} passed, {failed} failed")


if __name__ == "__main__":
    main(*sys.argv[1:])
