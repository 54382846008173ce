#!/usr/bin/env python3
"""types.py LOG: holds each message of a debug adapter, a line of JSON each, to VS Code's own declarations of the protocol, by the TypeScript
compiler. It prints how many messages there are; the status is 1 where one isn't as it is declared, or there is none."""

import json
import subprocess
import sys
import tempfile
from pathlib import Path

DECLARED = "/usr/share/nodejs/@vscode"
OPTIONS = {"strict": True, "noEmit": True, "moduleResolution": "node", "types": [], "lib": ["es2018"]}


def type_of(message):
    """The name of the declaration; None for what isn't declared."""
    if message["type"] == "event":
        return message["event"][0].upper() + message["event"][1:] + "Event"
    if not message["success"]:
        return "ErrorResponse"
    command = message["command"]
    return None if "/" in command else command[0].upper() + command[1:] + "Response"


def source_of(messages):
    """A source that the compiler takes where each message is as it is declared."""
    rows = ['import { DebugProtocol as P } from "@vscode/debugprotocol";']
    rows += [f"const m{place}: P.{type_of(one)} = {json.dumps(one)};" for place, one in enumerate(messages) if type_of(one)]
    return "\n".join(rows) + "\n"


def main(log):
    with open(log, encoding="utf-8") as it:
        messages = [json.loads(line) for line in it]
    with tempfile.TemporaryDirectory() as room:
        folder = Path(room)
        (folder / "node_modules").mkdir()
        (folder / "node_modules/@vscode").symlink_to(DECLARED)
        (folder / "messages.ts").write_text(source_of(messages), encoding="utf-8")
        (folder / "tsconfig.json").write_text(json.dumps({"compilerOptions": OPTIONS, "files": ["messages.ts"]}))
        ran = subprocess.run(["tsc", "-p", room], cwd=room, capture_output=True, text=True)
    print(ran.stdout[:3000])
    print(f"{len(messages)} messages")
    return 1 if ran.returncode or not messages else 0


if __name__ == "__main__":
    sys.exit(main(sys.argv[1]))
