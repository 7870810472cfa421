"""Servers with a page, and what asks them, for what shows how it works."""

import base64
import json
import os
import re
import socket
import subprocess
import sys
import threading
import time
from collections.abc import Callable, Iterator
from contextlib import contextmanager
from pathlib import Path

TOP = Path(__file__).resolve().parents[2]
sys.path[:0] = [str(TOP / "tests"), str(TOP / "tests" / "desk")]

import peers  # noqa: E402  (of tests)
from desks import HOST, flooding  # noqa: E402, F401  (of tests/desk; the files beside this one take both from here)

PATIENCE_SECONDS = 10.0
KILLED_SECONDS = 2.0
TRADERS = 64
OLGA, OTTO, OMAR, RITA, ALICE = ("OLGA", "orange"), ("OTTO", "olive"), ("OMAR", "orache"), ("RITA", "raisin"), ("ALICE", "apple")
POLICY = """version = 2
session = "GATE01"
lifters = 1

[[stock]]
name = "TEST"
reference = 100000

[[stock]]
name = "ACME"
reference = 250000

[[rule]]
name = "SIZE"
kind = "order_shares"
limit = 5000

[[rule]]
name = "GROSS"
kind = "gross_value"
limit = 1000000000
count = "each"

[[rule]]
name = "NET"
kind = "net_shares"
limit = 10000
count = "each"

[[account]]
name = "ALFA"
firm = "ALF"

[[account]]
name = "BETA"
firm = "BET"

[[account]]
name = "GAMMA"
firm = "GAM"

[[user]]
name = "ALICE"
password = "apple"
role = "trader"
account = "ALFA"

[[user]]
name = "BOB"
password = "banana"
role = "trader"
account = "BETA"

[[user]]
name = "CAROL"
password = "cherry"
role = "trader"
account = "GAMMA"

[[user]]
name = "OLGA"
password = "orange"
role = "officer"
powers = ["kill", "lift", "limits", "symbols", "people", "close"]

[[user]]
name = "OTTO"
password = "olive"
role = "officer"
powers = ["kill", "lift"]
accounts = ["ALFA", "BETA"]

[[user]]
name = "OMAR"
password = "orache"
role = "officer"
powers = ["lift"]

[[user]]
name = "RITA"
password = "raisin"
role = "reader"
accounts = ["BETA"]
"""


class Points:
    """The points that were looked at, how many times as high a cost may be, on how many servers what a reader costs is
    measured, and until when they have to be."""

    def __init__(self, slack: float, days: int, screenshots: Path | None, until: float) -> None:
        self.are_right = True
        self.slack, self.days, self.screenshots, self.until = slack, days, screenshots, until

    def left(self) -> float:
        """So many seconds are left for what is still to be looked at."""
        return self.until - time.monotonic()

    def look(self, what: str, is_right: bool, *seen: object) -> None:
        """Prints a point, and what was seen where it is not as wanted."""
        self.are_right &= is_right
        print(f"{what}: {'as wanted' if is_right else 'NOT AS WANTED'}", flush=True)
        if not is_right:
            print(*(f"    {str(one)[:2000]}" for one in seen), sep="\n", flush=True)

    def skip(self, what: str) -> None:
        """Prints what could not be looked at."""
        print(what, flush=True)


# Servers.


def free_ports() -> tuple[int, int]:
    """Two ports that nobody listens on."""
    with socket.create_server((HOST, 0)) as one, socket.create_server((HOST, 0)) as other:
        return one.getsockname()[1], other.getsockname()[1]


class Server:
    """`gate serve` with a page, until it is ended."""

    def __init__(self, gate: str, folder: Path, policy: str, *words: str) -> None:
        self.gate, self.policy, self.audit = gate, folder / "policy.toml", folder / "audit"
        self.policy.write_text(policy)
        (self.port, self.page), self.told = free_ports(), []
        self.words = [
            gate, "serve", "--port", str(self.port), "--status-port", str(self.page), "--policy", str(self.policy),
            "--until-input-ends", "--audit", str(self.audit), *words,
        ]
        self.heard = threading.Condition()
        self.start()

    def start(self) -> None:
        """Starts it, and waits until it listens: its page listens by then."""
        self.told.clear()
        self.run = subprocess.Popen(
            self.words, stdin=subprocess.PIPE, stdout=subprocess.PIPE, stderr=subprocess.PIPE, text=True, restore_signals=False
        )
        for output in (self.run.stdout, self.run.stderr):
            threading.Thread(target=self.hear, args=(output,), daemon=True).start()
        with self.heard:
            if not self.heard.wait_for(self.listens, PATIENCE_SECONDS):
                self.run.kill()
                raise ConnectionError(f"the server does not listen: {self.told}")

    def hear(self, output) -> None:
        """Takes each line as it comes."""
        for line in output:
            with self.heard:
                self.told.append(line.rstrip("\n"))
                self.heard.notify_all()
        with self.heard:
            self.told.append("an output ended")
            self.heard.notify_all()

    def listens(self) -> bool:
        """Whether it has told that it listens."""
        return f"listening {self.port}" in self.told

    def logged(self) -> list[dict]:
        """What its log has told, where it is asked for as JSON."""
        return [json.loads(line) for line in list(self.told) if line.startswith("{")]

    def crash(self) -> None:
        """Kills it where it stands."""
        self.run.kill()
        self.run.wait(PATIENCE_SECONDS)

    def end(self) -> int:
        """Ends it in order, and answers its status."""
        self.run.stdin.close()
        return self.run.wait(3 * PATIENCE_SECONDS)

    def desk(self, user: tuple, *words: str) -> subprocess.CompletedProcess:
        """A run of `gate desk`."""
        call = [self.gate, "desk", "--port", str(self.port), "--user", user[0], *words]
        surroundings = {**os.environ, "GATE_PASSWORD": user[1]}
        return subprocess.run(
            call, stdin=subprocess.DEVNULL, capture_output=True, text=True, timeout=PATIENCE_SECONDS, env=surroundings, check=False
        )

    def state(self, user: tuple = OLGA) -> dict:
        """The state that this user is shown."""
        return json.loads(asked(self.page, "/state.json", user).body)


@contextmanager
def serving(gate: str, folder: Path, policy: str = POLICY, *words: str) -> Iterator[Server]:
    """A server with a page, ended in the end."""
    server = Server(gate, folder, policy, *words)
    try:
        yield server
    finally:
        server.run.kill()
        server.run.wait(PATIENCE_SECONDS)


# What asks them.


class Answer:
    """A response, taken apart by the rules of HTTP/1.1."""

    def __init__(self, bytes_: bytes) -> None:
        head, _, self.body = bytes_.partition(b"\r\n\r\n")
        first, *lines = head.decode("latin-1").split("\r\n")
        found = re.fullmatch(r"HTTP/1\.1 (\d{3}) [ -~]+", first)
        self.status = int(found[1]) if found else 0
        self.fields = {name.lower(): value.strip() for name, _, value in (line.partition(":") for line in lines)}
        self.is_whole = bool(found) and self.fields.get("content-length") == str(len(self.body))

    def says(self, status: int, words: str) -> bool:
        """Whether it is a line of text of these words, and has this status."""
        kind = self.fields.get("content-type", "")
        return self.is_whole and self.status == status and kind.startswith("text/plain") and self.body == words.encode() + b"\n"

    def __repr__(self) -> str:
        return f"{self.status} {self.fields} {self.body[:300]!r}"


def exchanged(port: int, request: bytes, ends: bool = False) -> bytes:
    """All that comes back for these bytes, up to the end of the connection; `ends` where the peer ends its side behind them."""
    with socket.create_connection((HOST, port), timeout=PATIENCE_SECONDS) as line:
        try:
            line.sendall(request)
            if ends:
                line.shutdown(socket.SHUT_WR)
        except ConnectionError:
            pass  # it has heard enough
        pieces = []
        try:
            while piece := line.recv(65536):
                pieces.append(piece)
        except ConnectionError:
            pass
    return b"".join(pieces)


def request_for(path: str, user: tuple | None = None, method: str = "GET", body: str | None = None, more: str = "") -> bytes:
    """A request, in a user's name if one is given."""
    lines = [f"{method} {path} HTTP/1.1", f"Host: {HOST}"]
    if user:
        lines.append("Authorization: Basic " + base64.b64encode(":".join(user).encode()).decode())
    if body is not None:
        lines += ["Content-Type: application/x-www-form-urlencoded", f"Content-Length: {len(body)}"]
    return ("\r\n".join(lines) + "\r\n" + more + "\r\n" + (body or "")).encode()


def asked(port: int, path: str, user: tuple | None = None, **how: str) -> Answer:
    """The answer to such a request."""
    return Answer(exchanged(port, request_for(path, user, **how)))


def comes(condition: Callable[[], object], seconds: float = 2.0) -> bool:
    """Whether it becomes true in time."""
    until = time.monotonic() + seconds
    while not condition():
        if time.monotonic() > until:
            return False
        time.sleep(0.05)
    return True


def is_documented(told: str) -> bool:
    """Whether the risk officers' document has what the page tells of a kill, but for the moment in front and the account."""
    text = re.sub(r"^(?:[0-9:]{8} )?Kill \w+:", "Kill ALFA:", told)
    return f"`{text}`" in (TOP / "docs" / "RISK_OFFICERS.md").read_text()


# Traders.


def traded(server: Server) -> None:
    """Orders and a fill, and an order that is denied, of each account's trader."""
    for name, password in (ALICE, ("BOB", "banana"), ("CAROL", "cherry")):
        peer = peers.Peer(server.port)
        sell = peers.order(b"S1", 100, 100_000)
        sell = sell.replace(b"S1".ljust(14) + b"B", b"S1".ljust(14) + b"S") if name == "BOB" else sell
        peer.line.sendall(peers.login(name.encode(), password.encode()) + sell + peers.order(b"B1", 6_000, 90_000))
        peer.packet()
        peer.packet()
        time.sleep(0.2)
        peer.log_out()
    comes(lambda: not any(row["line"] for row in server.state()["users"]))


def flood_policy() -> str:
    """The policy with 64 traders more, of ALFA and BETA in turn, and without a rule."""
    front, _, rest = POLICY.partition("[[rule]]")
    traders = (
        f'[[user]]\nname = "T{i:02d}"\npassword = "P{i:02d}"\nrole = "trader"\naccount = "{("ALFA", "BETA")[i % 2]}"\n'
        for i in range(TRADERS)
    )
    return front + rest[rest.index("[[account]]"):] + "".join(traders)
