#!/usr/bin/env python3
"""A standard error that nobody reads holds nobody up.

A server's standard error is a pipe. Thousands of connections send what is no packet, so that a line is told of each. While
nobody reads the pipe it is full soon, and the server goes on: an officer logs in, and his kill is answered at once. Then the
pipe is read, and more come: the lines that were told and those that the log says were left out are as many as the
connections, and no line is cut. A server whose pipe is never read ends in order all the same, with status 0. Run as

  tests/files/unread.py [GATE]

GATE: the built program; where none is named, crates/gate/out/gate of this repository.
"""

import re
import signal
import socket
import subprocess
import sys
import tempfile
import threading
import time
from pathlib import Path

TOP = Path(__file__).resolve().parents[2]
GATE = TOP / "crates" / "gate" / "out" / "gate"
PATIENCE_SECONDS = 10
LONGEST_SECONDS = 90
ANSWER_SECONDS = 1.0
STRANGERS = 4_000
LATER = 50
NO_PACKET = b"\x00\x00"
LOGIN = b"\x00\x2fL" + b"OLGA  orange    " + b" " * 10 + b"%20d" % 1
LOGIN_ACCEPTED = b"\x00\x1fA" + b" " * 4 + b"GATE01" + b" " * 19 + b"1"
KILL = b"\x00\x18UK" + b"K1".ljust(14) + b"ALFA    "
ANSWER_BYTES, CODE = 37, slice(27, 29)
TOLD = re.compile(r"connection \d+ from 127\.0\.0\.1:\d+: no packets: a packet of length 0")
LEFT_OUT = re.compile(r"gate: (\d+) lines were left out: standard error was not read in time")


def free_port() -> int:
    """A port that nobody listens on."""
    with socket.create_server(("127.0.0.1", 0)) as line:
        return line.getsockname()[1]


def connect(port: int) -> socket.socket:
    """A connection to a server."""
    return socket.create_connection(("127.0.0.1", port), timeout=PATIENCE_SECONDS)


def send_no_packets(port: int, times: int) -> None:
    """So many connections, one behind the other, each of which sends what is no packet."""
    for _ in range(times):
        with connect(port) as line:
            line.sendall(NO_PACKET)
            while line.recv(4096):
                pass


def kill_seconds(port: int) -> float:
    """How long an officer waits to be logged in and for the answer to a kill; the answer has to be OK."""
    began = time.monotonic()
    with connect(port) as line:
        line.sendall(LOGIN + KILL)
        accepted = line.recv(len(LOGIN_ACCEPTED), socket.MSG_WAITALL)
        answer = line.recv(ANSWER_BYTES, socket.MSG_WAITALL)
    is_right = accepted == LOGIN_ACCEPTED and answer[CODE] == b"OK"
    return time.monotonic() - began if is_right else float("inf")


def started(gate: str, stop: Path) -> tuple[subprocess.Popen, int]:
    """A server that ends once there is this file, and its port."""
    port = free_port()
    words = [gate, "serve", "--port", str(port), "--stop-file", str(stop)]
    server = subprocess.Popen(
        words, stdin=subprocess.DEVNULL, stdout=subprocess.PIPE, stderr=subprocess.PIPE, text=True
    )
    server.stdout.readline()
    return server, port


def is_counted(gate: str, stop: Path) -> bool:
    """Whether what is not told for want of a reader is counted, and nothing but that left out."""
    server, port = started(gate, stop)
    told: list[str] = []
    with server:
        send_no_packets(port, STRANGERS)
        waited = kill_seconds(port)
        reader = threading.Thread(target=lambda: told.extend(server.stderr.read().splitlines()))
        reader.start()
        time.sleep(PATIENCE_SECONDS / 5)
        send_no_packets(port, LATER)
        stop.touch()
        status = server.wait(PATIENCE_SECONDS)
        reader.join()
    lines = sum(1 for line in told if TOLD.fullmatch(line))
    left_out = [int(found[1]) for line in told if (found := LEFT_OUT.fullmatch(line))]
    ends = f"gate: the server ends: there is the file {stop}"
    are_all = lines + len(left_out) + 1 == len(told) and told[-1] == ends
    print(f"{lines} lines told, {sum(left_out)} left out; a kill in {waited * 1_000:.1f} ms", flush=True)
    return (
        status == 0 and waited < ANSWER_SECONDS and are_all
        and sum(left_out) > 0 and lines + sum(left_out) == STRANGERS + LATER
    )


def ends_unread(gate: str, stop: Path) -> bool:
    """Whether a server ends in order whose standard error is never read."""
    server, port = started(gate, stop)
    with server:
        send_no_packets(port, STRANGERS)
        waited = kill_seconds(port)
        stop.touch()
        return server.wait(PATIENCE_SECONDS) == 0 and waited < ANSWER_SECONDS


def main() -> int:
    """Tries both. Answers the status: 1 where one of them does something else."""
    gate = sys.argv[1] if len(sys.argv) > 1 else str(GATE)
    signal.alarm(LONGEST_SECONDS)
    are_right = True
    for what, run in {"what is not read is counted": is_counted, "never read, it ends": ends_unread}.items():
        with tempfile.TemporaryDirectory() as folder:
            is_right = run(gate, Path(folder) / "stop")
        are_right &= is_right
        print(f"{what}: {'as wanted' if is_right else 'NOT AS WANTED'}", flush=True)
    return 0 if are_right else 1


if __name__ == "__main__":
    sys.exit(main())
