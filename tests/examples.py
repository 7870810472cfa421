#!/usr/bin/env python3
"""Runs the examples and the tutorial with the built program, and compares what they print with what is stored,
byte for byte. Among them: a journal at its end is the audit, and a server goes on with one that was cut in its last record.

Each file of examples/ whose first line is a call of the program is run by that line, and what it prints is to be what is
stored beside its input: of NAME.ENDING in NAME.out.ENDING. Each `console` block of docs/TUTORIAL.md and of
examples/command-line.md is run by bash, a command behind each `$`, and what its commands print is to be the lines between
them; a free port stands in for 9001, and a folder that goes when it ends for /tmp. It wants bash, sed, dd and xxd, and the
program that `(cd crates/gate && rt run)` or `rt ci` leaves, under the name that these calls give it: crates/gate/out/gate.
Run as

  tests/examples.py
"""

import re
import socket
import subprocess
import sys
import tempfile
from collections.abc import Iterator
from pathlib import Path

TOP = Path(__file__).resolve().parents[1]
PROGRAM = "crates/gate/out/gate"


def printed(command: str, folder: str) -> bytes:
    """What bash prints on either output, from the top of the repository; the folder stands in for /tmp."""
    run = subprocess.run(
        ["bash", "-c", command.replace("/tmp/", folder + "/")],
        cwd=TOP, stdout=subprocess.PIPE, stderr=subprocess.STDOUT, timeout=120,
    )
    return run.stdout.replace(folder.encode() + b"/", b"/tmp/")


def examples() -> Iterator[tuple[str, str, bytes]]:
    """Each example: its name, its call, and what is stored of it."""
    for file in sorted((TOP / "examples").rglob("*.txt")):
        first = file.read_text().partition("\n")[0]
        call = re.fullmatch(r"(?:# )?(%s \w+[^<]* < (\S+))(?: \| xxd)?" % PROGRAM, first)
        if call:
            given = TOP / call[2]
            yield call[2], call[1], given.with_suffix(".out" + given.suffix).read_bytes()


def free_port() -> str:
    """A port that nobody listens on."""
    with socket.create_server(("127.0.0.1", 0)) as line:
        return str(line.getsockname()[1])


def blocks(file: str) -> Iterator[tuple[str, str, bytes]]:
    """Each block of a document: its first command, all of them, and what is stored of them."""
    text = (TOP / file).read_text()
    for block in re.findall(r"(?ms)^```console\n(.*?)^```$", text):
        lines = block.replace("9001", free_port()).splitlines(keepends=True)
        commands = "".join(line[2:] for line in lines if line.startswith("$ "))
        stored = "".join(line for line in lines if not line.startswith("$ "))
        yield f"{file}: " + commands.partition("\n")[0], commands, stored.encode()


def main() -> int:
    """Runs all of them. Answers the status: 1 where one prints something else."""
    if not (TOP / PROGRAM).is_file():
        print(f"{PROGRAM} is not there: (cd crates/gate && rt run)", file=sys.stderr)
        return 2
    wrong = 0
    with tempfile.TemporaryDirectory() as folder:
        for name, command, stored in [*examples(), *blocks("docs/TUTORIAL.md"), *blocks("examples/command-line.md")]:
            is_stored = printed(command, folder) == stored
            wrong += not is_stored
            print(f"{'as stored' if is_stored else 'NOT AS STORED'}: {name}")
    return 1 if wrong else 0


if __name__ == "__main__":
    sys.exit(main())
