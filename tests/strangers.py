#!/usr/bin/env python3
"""Shows that strangers who only connect close no server to an officer: neither one that is started as the documents say, nor one
that counts its connections, for as long as somebody who is counted is on.

  tests/strangers.py [GATE [COUNT]] [--slack S]

GATE: the built program; where none is named, crates/gate/out/gate of this repository. COUNT: how many strangers come to the
last server, a thousand a second (70,000 is the default, more than any count of connections that may be asked for). --slack:
how many times as long a kill may take.

Each command line of README, docs/ and packaging/ that starts a server is started: it has to say when it ends by itself, and by no
count. 200 strangers connect to each and hang up, and an officer kills. Then a server that counts 64, and one that counts as many
as may be: the strangers use up the count while a trader is on. It has to say so, to take officers and nobody else, and to end
once the trader has gone, and say why. While they come to the second one, COUNT in all, three officers kill in turn, by the desk,
at the page and on a line that is on: each kill is answered within a second.
"""

import argparse
import os
import re
import shlex
import socket
import subprocess
import sys
import tempfile
import time
from collections.abc import Callable, Iterator
from contextlib import contextmanager
from functools import partial
from multiprocessing import Process
from pathlib import Path

sys.dont_write_bytecode = True
TOP = Path(__file__).resolve().parents[1]
GATE = TOP / "crates" / "gate" / "out" / "gate"
SAMPLE = TOP / "examples" / "policies" / "sample.toml"
sys.path[:0] = [str(TOP / "examples"), str(TOP / "tests" / "page")]

from client import enter, kill, lift, login_request, packet  # noqa: E402  (of examples/)
from hostile import HOST, Speaker, free_port, seconds_of  # noqa: E402  (beside this file)
from pages import asked  # noqa: E402  (of tests/page)

COUNT = 70_000
FEW = 200
CONNECTING = 3
PAUSE_SECONDS = 0.002
KILL_SECONDS = 1.0
PATIENCE_SECONDS = 30.0
ENDS = ("--until", "--stop-file", "--until-input-ends", "--standby")
TAKEN = "gate: as many connections were taken as were to be: from now on officers alone are, until all of those have ended"
ENDED = "gate: the server ends: it has taken as many connections as it was to, and all have ended"
DOCUMENTS = ("README.md", "docs/CLIENTS.md", "docs/SCALE.md", "docs/OPERATIONS.md", "packaging/gate.service", "packaging/Dockerfile")


def tell(what: str, is_right: bool, *seen: object) -> bool:
    """Tells whether this is as wanted, and if not what was seen. Answers whether it is."""
    print(f"{what}: {'as wanted' if is_right else 'NOT AS WANTED'}", *([] if is_right else seen), flush=True)
    return is_right


def documented() -> list[tuple[str, list[str]]]:
    """The command lines of the documents that start a server, each with its document: the words behind `serve`."""
    found = []
    for name in DOCUMENTS:
        text = (TOP / name).read_text()
        if name.endswith("Dockerfile"):
            text = text.replace('", "', " ").replace('"serve', "gate serve").replace('"]', "")
        for line in re.findall(r"gate serve (--port 9001[^`\n&]*)", text):
            words = shlex.split(line.partition("2>>")[0])
            if (name, words) not in found:
                found.append((name, words))
    return found


class Server:
    """A server with these words, in a folder of its own, and what it has told on standard error."""

    def __init__(self, gate: str, folder: Path, words: list[str]) -> None:
        self.gate, self.folder, self.port = gate, folder, free_port()
        self.page = free_port() if "--status-port" in words else None
        places = {"9001": str(self.port), "9101": str(self.page), "$J": "day.journal", "18:05": "23:59:59"}
        words = [places.get(word, word) for word in words]
        words = [Path(word).name if word.startswith("/") else word for word in words]
        for at, word in enumerate(words):
            if word == "--policy":
                (folder / words[at + 1]).write_bytes(SAMPLE.read_bytes())
        self.told = (folder / "told").open("wb")
        self.process = subprocess.Popen(
            [gate, "serve", *words], cwd=folder, stdin=subprocess.PIPE, stdout=subprocess.PIPE, stderr=self.told
        )
        self.said = self.process.stdout.readline()

    def errors(self) -> str:
        """What it has told on standard error."""
        return (self.folder / "told").read_text()

    def kills(self, account: str = "ALFA") -> subprocess.CompletedProcess:
        """A kill by the desk."""
        call = [self.gate, "desk", "--port", str(self.port), "--user", "OLGA", "kill", account]
        return subprocess.run(
            call, env={**os.environ, "GATE_PASSWORD": "orange"}, capture_output=True, timeout=PATIENCE_SECONDS, check=False
        )


@contextmanager
def serving(gate: str, *words: str) -> Iterator[Server]:
    """A server, which is ended with the block."""
    with tempfile.TemporaryDirectory() as folder:
        server = Server(gate, Path(folder), list(words))
        try:
            yield server
        finally:
            server.process.kill()
            server.process.wait()
            server.process.stdin.close()
            server.process.stdout.close()
            server.told.close()


def knock(port: int, count: int) -> None:
    """So many strangers connect and hang up, one after the other."""
    for _ in range(count):
        try:
            socket.create_connection((HOST, port), timeout=PATIENCE_SECONDS).close()
        except OSError:
            pass
        time.sleep(PAUSE_SECONDS)


def knocking(port: int, count: int) -> list[Process]:
    """The same, of some processes side by side, which were started."""
    found = [Process(target=knock, args=(port, -(-count // CONNECTING))) for _ in range(CONNECTING)]
    for process in found:
        process.start()
    return found


def logged_in(port: int, user: str, password: str) -> Speaker:
    """A user who is on."""
    speaker = Speaker(port)
    speaker.asks(login_request(user, password, 1), b"A")
    return speaker


def is_shut_out(port: int, user: str, password: str) -> bool:
    """Whether a login with a right password is closed without an answer."""
    with socket.create_connection((HOST, port), timeout=PATIENCE_SECONDS) as line:
        try:
            line.sendall(login_request(user, password, 1))
            return line.recv(100) == b""
        except ConnectionError:
            return True


def form(gate: str, name: str, words: list[str]) -> bool:
    """Whether a server that is started as a document says is closed to an officer by no strangers."""
    shown = f"{name}: serve {' '.join(words)}"
    if not any(word in ENDS for word in words) or "--connections" in words:
        return tell(f"{shown}: it says when it ends, and counts none", False)
    if "--standby" in words:
        return tell(f"{shown}: it says when it ends, and counts none", True)
    with serving(gate, *words) as server:
        knock(server.port, FEW)
        killed = server.kills()
        return tell(f"{shown}: {FEW} strangers, and a kill", killed.returncode == 0, killed, server.errors())


class Officers:
    """Three officers' ways to kill, in turn, each beside what else comes: the slowest of each."""

    def __init__(self, server: Server) -> None:
        self.server, self.turn = server, 0
        self.second = logged_in(server.port, "OLGA", "orange")
        self.leaving: list[subprocess.Popen] = []
        self.slowest = {"the desk": 0.0, "the page": 0.0, "a line that is on": 0.0}

    def line_kill(self) -> None:
        """A kill on the line that is on."""
        self.second.asks(packet(b"U", kill(f"K{self.turn}", "ALFA")), b"S")

    def page_kill(self) -> None:
        """A kill at the page, by an officer who is on no line."""
        token = asked(self.server.page, "/state.json", ("OTTO", "olive")).body.partition(b'"token":"')[2][:32].decode()
        answer = asked(self.server.page, "/kill", ("OTTO", "olive"), method="POST", body=f"account=BETA&token={token}")
        if answer.status != 303:
            raise ConnectionError(f"the page answered {answer}")

    def desk_kill(self) -> None:
        """A kill by a desk that logs in for it, up to the line with its answer."""
        call = [self.server.gate, "desk", "--port", str(self.server.port), "--user", "OTTO", "kill", "ALFA"]
        desk = subprocess.Popen(
            call, env={**os.environ, "GATE_PASSWORD": "olive"}, stdout=subprocess.PIPE, stderr=subprocess.STDOUT
        )
        self.leaving.append(desk)
        if not desk.stdout.readline():
            raise ConnectionError("the desk told nothing")

    def kill(self) -> None:
        """Each kills once, and what was killed is lifted."""
        self.turn += 1
        for name, call in (("a line that is on", self.line_kill), ("the page", self.page_kill), ("the desk", self.desk_kill)):
            self.slowest[name] = max(self.slowest[name], seconds_of(call))
        for desk in self.leaving:
            desk.wait(PATIENCE_SECONDS)
            desk.stdout.close()
        self.leaving.clear()
        for at, account in enumerate(("ALFA", "BETA")):
            self.second.asks(packet(b"U", lift(f"L{self.turn}{at}", account)), b"S")


def killed_beside(server: Server, trader: Speaker, count: int, slack: float) -> bool:
    """Whether three officers are answered in time beside so many strangers, while a trader stays on."""
    officers = Officers(server)
    strangers = knocking(server.port, count)
    while any(process.is_alive() for process in strangers):
        trader.line.sendall(packet(b"R"))
        officers.kill()
        time.sleep(0.2)
    for process in strangers:
        process.join()
    officers.kill()
    officers.second.line.sendall(packet(b"O"))
    took = ", ".join(f"{name} {1000 * seconds:.0f} ms" for name, seconds in officers.slowest.items())
    is_right = max(officers.slowest.values()) <= slack * KILL_SECONDS
    return tell(f"beside {count} strangers {officers.turn} kills each, the slowest by {took}", is_right, server.errors()[-500:])


def is_for_officers(server: Server, shown: str) -> bool:
    """Whether a server that has counted as many as it was to says so, takes officers and nobody else, and goes on."""
    until = time.monotonic() + PATIENCE_SECONDS
    while TAKEN not in server.errors() and time.monotonic() < until:
        time.sleep(0.05)
    is_right = tell(f"{shown}: it says that officers alone are taken", TAKEN in server.errors(), server.errors())
    killed = server.kills()
    is_right &= tell(f"{shown}: an officer kills", killed.returncode == 0, killed)
    others = [is_shut_out(server.port, *user) for user in (("BOB", "banana"), ("RITA", "raisin"))]
    is_right &= tell(f"{shown}: another trader and a reader are not taken", all(others), others)
    return tell(f"{shown}: it goes on", server.process.poll() is None) and is_right


def counted(gate: str, count: int, come: Callable[[Server, Speaker], bool], *words: str) -> bool:
    """Whether a server that counts is open to officers, and to nobody else, for as long as a trader is on whom it counts."""
    shown = f"of {' '.join(words) or 'no option'}, behind {count} strangers"
    with serving(gate, "--port", "9001", *words) as server:
        trader = logged_in(server.port, "ALICE", "apple")
        trader.asks(packet(b"U", enter("A1", "B", "100", "TEST", "10.00")), b"S")
        is_right = come(server, trader)
        is_right &= is_for_officers(server, shown)
        trader.line.sendall(packet(b"O"))
        status = server.process.wait(PATIENCE_SECONDS)
        return tell(f"{shown}: it ends behind the trader, and says so", status == 0 and ENDED in server.errors(), status) and is_right


def main() -> int:
    """Answers the status: 1 where something is not as wanted."""
    parser = argparse.ArgumentParser(description="Shows that strangers close no server to an officer.")
    parser.add_argument("gate", nargs="?", default=str(GATE), help="the built program")
    parser.add_argument("count", nargs="?", type=int, default=COUNT, help="how many strangers come in a day (70000)")
    parser.add_argument("--slack", type=float, default=1.0, help="how many times as long a kill may take (1)")
    words = parser.parse_args()
    gate = str(Path(words.gate).resolve())
    is_right = tell("the documents start servers", len(documented()) >= 7, documented())
    for name, call in documented():
        is_right &= form(gate, name, call)
    is_right &= counted(gate, FEW, lambda server, trader: knock(server.port, FEW) is None)
    most = "65534" if words.count > 65_534 else str(words.count // 2)
    beside = partial(killed_beside, count=words.count, slack=words.slack)
    is_right &= counted(gate, words.count, beside, "--connections", most, "--status-port", "9101")
    return 0 if is_right else 1


if __name__ == "__main__":
    sys.exit(main())
