#!/usr/bin/env python3
"""Two peers of `gate serve` over TCP: one drips his login a byte at a time, beside one that is served at once; then one
place, and three peers in turn.

BOB gives the first 20 bytes of his login, a byte at a time. ALICE comes, logs in, enters an order, is sent both answers,
byte for byte but for the time, logs out and is sent the end. Only then does BOB give the rest, and he is served as she
was. The server ends behind these two, and its audit is that of a legal day of eight records: two logins, two orders, two
rests, two logouts; ALICE's may rest behind BOB's order. The reports bear the time of day, in nanoseconds past midnight
UTC. Then a server that serves one at once takes three peers, one after the other. Run as

  tests/peers.py [GATE]

GATE: the built program; where none is named, crates/gate/out/gate of this repository.
"""

import socket
import subprocess
import sys
import tempfile
import time
from collections.abc import Callable
from pathlib import Path
from typing import TypeVar

Heard = TypeVar("Heard")

TOP = Path(__file__).resolve().parents[1]
GATE = TOP / "crates" / "gate" / "out" / "gate"
PATIENCE_SECONDS = 10.0
DAY_SECONDS = 86_400
DRIPPED = 20
HEARTBEAT, SEQUENCED = b"H", b"S"
LOGOUT = b"\x00\x01O"
LOGIN_ACCEPTED = b"A" + b" " * 4 + b"GATE01" + b" " * 19 + b"1"


def login(user: bytes, password: bytes) -> bytes:
    """A Login Request for the report with number 1."""
    return b"\x00\x2fL" + user.ljust(6) + password.ljust(10) + b" " * 10 + b"%20d" % 1


def order(token: bytes, shares: int, price: int) -> bytes:
    """Enters an order to buy TEST, until the end of the day."""
    return (
        b"\x00\x32UO" + token.ljust(14) + b"B" + shares.to_bytes(4, "big") + b"TEST    "
        + price.to_bytes(4, "big") + (99_999).to_bytes(4, "big") + b"    YAN" + bytes(4) + b"NN"
    )


def accepted(token: bytes, shares: int, price: int, firm: bytes, number: int) -> bytes:
    """The Sequenced Data of such an order's Accepted, without its time."""
    return (
        b"SA" + token.ljust(14) + b"B" + shares.to_bytes(4, "big") + b"TEST    " + price.to_bytes(4, "big")
        + (99_999).to_bytes(4, "big") + firm.ljust(4) + b"Y" + number.to_bytes(8, "big") + b"AN" + bytes(4) + b"NL "
    )


class Peer:
    """A connection, and what came over it."""

    def __init__(self, port: int) -> None:
        self.line = socket.create_connection(("127.0.0.1", port), timeout=PATIENCE_SECONDS)
        self.line.setsockopt(socket.IPPROTO_TCP, socket.TCP_NODELAY, 1)
        self.held = b""
        self.are_times_right = True

    def look_at_time(self, report: bytes) -> None:
        """Whether a report's time is that of the machine's clock, give or take the patience."""
        told = int.from_bytes(report[2:10], "big") / 1e9
        behind = (time.time() - told) % DAY_SECONDS
        self.are_times_right &= min(behind, DAY_SECONDS - behind) < PATIENCE_SECONDS

    def drip(self, data: bytes) -> None:
        """Gives a byte at a time."""
        for byte in data:
            self.line.sendall(bytes([byte]))

    def packet(self) -> bytes | None:
        """The next packet that is no heartbeat, a report without its time; None at the end."""
        while True:
            size = 2 + int.from_bytes(self.held[:2], "big")
            if len(self.held) >= max(size, 3):
                packet, self.held = self.held[2:size], self.held[size:]
                if packet[:1] == SEQUENCED:
                    self.look_at_time(packet)
                    return packet[:2] + packet[10:]
                if packet[:1] != HEARTBEAT:
                    return packet
                continue
            piece = self.line.recv(4096)
            if not piece:
                return None
            self.held += piece

    def hear_first(self) -> list[bytes]:
        """The answers to a login and to an order."""
        return [self.packet(), self.packet()]

    def log_out(self) -> list[bytes]:
        """Logs out, and hears what comes up to the end."""
        heard = []
        self.line.sendall(LOGOUT)
        while packet := self.packet():
            heard.append(packet)
        return heard

    def hear_out(self) -> list[bytes]:
        """The answers to a login and to an order; then logs out, and hears the end."""
        return self.hear_first() + self.log_out()


def talk(port: int) -> tuple[list[bytes], list[bytes], bool]:
    """What ALICE and BOB hear, and whether the times in it are right."""
    bob = Peer(port)
    first, rest = login(b"BOB", b"banana")[:DRIPPED], login(b"BOB", b"banana")[DRIPPED:]
    bob.drip(first)
    alice = Peer(port)
    alice.line.sendall(login(b"ALICE", b"apple") + order(b"T1", 100, 100_000))
    heard = alice.hear_out()
    bob.drip(rest + order(b"A001", 1, 10_000))
    return heard, bob.hear_out(), alice.are_times_right and bob.are_times_right


def ask_in_turn(port: int, number: int) -> Peer:
    """A connection on which ALICE logs in from the first report on, and enters an order of this number."""
    peer = Peer(port)
    peer.line.sendall(login(b"ALICE", b"apple") + order(b"T%d" % number, 1, 10_000))
    return peer


def talk_in_turn(port: int) -> list[list[bytes]]:
    """What ALICE hears on three connections, of which each but the first waits for the place of the one before.

    Each asks for her reports from the first on, so it is sent a report more than the one before.
    """
    heard = []
    peer = ask_in_turn(port, 1)
    for number in range(2, 5):
        first = peer.hear_first()
        after = ask_in_turn(port, number) if number < 4 else None
        heard.append(first + peer.log_out())
        peer = after
    return heard


def with_server(gate: str, words: list[str], run: Callable[[int], Heard]) -> tuple[Heard, int, bytes]:
    """What a run against a server of its own answers, the server's status, and what its audit is."""
    with socket.create_server(("127.0.0.1", 0)) as line:
        port = line.getsockname()[1]
    with tempfile.TemporaryDirectory() as folder:
        audit = str(Path(folder) / "audit")
        call = [gate, "serve", "--port", str(port), "--audit", audit, *words]
        with subprocess.Popen(call, stdout=subprocess.PIPE) as server:
            server.stdout.readline()
            heard = run(port)
            status = server.wait(PATIENCE_SECONDS)
        found = subprocess.run([gate, "check", audit], capture_output=True, check=False).stdout
    return heard, status, found


def main() -> int:
    """Serves them all. Answers the status: 1 where one of them hears something else."""
    gate = sys.argv[1] if len(sys.argv) > 1 else str(GATE)
    (alice, bob, are_times_right), *audited = with_server(gate, ["--connections", "2"], talk)
    in_turn, *audited_in_turn = with_server(
        gate, ["--connections", "3", "--connections-at-once", "1"], talk_in_turn
    )
    right = {
        "ALICE": alice == [LOGIN_ACCEPTED, accepted(b"T1", 100, 100_000, b"ALF", 2)],
        "BOB": bob in [[LOGIN_ACCEPTED, accepted(b"A001", 1, 10_000, b"BET", number)] for number in (5, 6)],
        "the times": are_times_right,
        "the audit": audited == [0, b"legal 8\n"],
        "three in turn": [len(heard) for heard in in_turn] == [2, 3, 4],
        "their audit": audited_in_turn == [0, b"legal 12\n"],
    }
    for what, is_right in right.items():
        print(f"{what}: {'as wanted' if is_right else 'NOT AS WANTED'}")
    return 0 if all(right.values()) else 1


if __name__ == "__main__":
    sys.exit(main())
