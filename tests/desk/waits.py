"""Runs of `gate desk` for how long they take: lines that ask nothing in front of a kill, and a peer that accepts each login and
hangs up."""

import socket
import struct
import subprocess
import threading
import time
from pathlib import Path

from desks import HOST, serving  # beside this file

COMMENTS = 1_000
COMMENTS_SECONDS = 2.0
CALLS = 60
CALLS_SECONDS = 90
ACCEPTED = b"\x00\x1fA" + b"GATE01".rjust(10) + b"1".rjust(20)
LOGIN_BYTES = 49
RESET = struct.pack("ii", 1, 0)
KILLED, BROKEN = "ALFA killed: record {n} at {t}", "gate: the line broke"


def lines_that_ask_nothing(gate: str, folder: Path, points) -> None:
    """Comments, empty lines and words that are none wait for nothing, and neither does a line that is longer than a piece."""
    with serving(gate, folder) as server:
        alone = server.desk("OLGA", given="kill ALFA\n")
        points.told("a kill on standard input", alone, 0, [KILLED])
        for what, front, status in (
            ("comments", "# a comment\n", 0), ("empty lines", "\n", 0), ("words that are none", "halt\n", 2),
            ("lines of 20,000 bytes", "#" + "x" * 19_999 + "\n", 0),
        ):
            server.desk("OLGA", "lift", "ALFA")
            told = server.desk("OLGA", given=front * COMMENTS + "kill ALFA\n")
            is_right = told.status == status and len(told.out) == 1 and told.out[0].startswith("ALFA killed: record ")
            is_right &= len(told.err) == (COMMENTS if status else 0) and told.seconds < COMMENTS_SECONDS * points.slack
            seen = f"{COMMENTS} {what} in front of it: {told.seconds:.2f} s, {alone.seconds:.2f} s without them"
            points.look(seen, is_right, told.status, told.out, told.err[:3])


class HangingUp:
    """A peer that accepts each login, and hangs up behind it."""

    def __init__(self) -> None:
        self.calls = 0
        self.listener = socket.create_server((HOST, 0))
        self.port = self.listener.getsockname()[1]
        threading.Thread(target=self.take, daemon=True).start()

    def take(self) -> None:
        """Takes connections."""
        while True:
            line, _ = self.listener.accept()
            self.calls += 1
            line.recv(LOGIN_BYTES, socket.MSG_WAITALL)
            line.sendall(ACCEPTED)
            time.sleep(0.02)
            line.setsockopt(socket.SOL_SOCKET, socket.SO_LINGER, RESET)
            line.close()


def peer_that_hangs_up(gate: str, folder: Path, points) -> None:
    """A run gives up that gets a login and no answer, however often."""
    peer = HangingUp()
    call = [gate, "desk", "--port", str(peer.port), "--user", "OLGA", "--reconnect", "kill", "ALFA"]
    password = folder / "password"
    password.write_text("orange\n")
    began = time.monotonic()
    told = subprocess.run(
        [*call[:6], "--password-file", str(password), *call[6:]], stdin=subprocess.DEVNULL, capture_output=True, text=True,
        timeout=CALLS_SECONDS, check=False,
    )
    seconds = time.monotonic() - began
    lines = told.stderr.splitlines()
    is_right = told.returncode == 1 and not told.stdout and lines[-1:] == [BROKEN] and peer.calls == CALLS + 1
    points.look(f"a peer that hangs up behind each login is called {CALLS} times again: {seconds:.0f} s", is_right, told, peer.calls)
