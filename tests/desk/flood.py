#!/usr/bin/env python3
"""Traders who do nothing but enter orders, each over a connection of his own, in a thread each.

usage: tests/desk/flood.py PORT TRADERS     (try.py beside it runs it)

The traders are T00, T01 and so on, their passwords P00, P01 and so on: those of even numbers buy 100 TEST at $10.00 and the
others sell as many, some orders at a time, and the next ones once all of these were accepted or rejected. `flooding` is
printed once each of them has been answered, and it ends once its standard input does.
"""

import socket
import sys
import threading
from pathlib import Path

sys.dont_write_bytecode = True
sys.path.insert(0, str(Path(__file__).resolve().parents[2] / "examples"))

from client import Packets, enter, login_request, packet  # noqa: E402  (of examples/)

AT_A_TIME = 10


class Trader(threading.Thread):
    """A trader, from his login to his logout."""

    def __init__(self, port: int, index: int, is_over: threading.Event) -> None:
        super().__init__(daemon=True)
        self.line = socket.create_connection(("127.0.0.1", port), timeout=30)
        self.packets = Packets()
        self.index = index
        self.is_over = is_over
        self.was_answered = threading.Event()

    def hear(self, count: int, kinds: tuple[bytes, ...]) -> None:
        """Waits for so many packets that begin so."""
        while count > 0:
            piece = self.line.recv(65536)
            if not piece:
                raise ConnectionError(f"the server hung up on T{self.index:02d}")
            count -= sum((kind + payload).startswith(kinds) for kind, payload in self.packets.take(piece))

    def run(self) -> None:
        """Logs in, and enters orders until it is over."""
        name, side = f"{self.index:02d}", "BS"[self.index % 2]
        self.line.sendall(login_request("T" + name, "P" + name, 1))
        self.hear(1, (b"A",))
        number = 0
        while not self.is_over.is_set():
            orders = [enter(f"{number + i}", side, "100", "TEST", "10.00") for i in range(AT_A_TIME)]
            number += AT_A_TIME
            self.line.sendall(b"".join(packet(b"U", order) for order in orders))
            self.hear(AT_A_TIME, (b"SA", b"SJ"))
            self.was_answered.set()
        self.line.sendall(packet(b"O"))


def main() -> int:
    """Runs the traders until standard input ends."""
    port, count = int(sys.argv[1]), int(sys.argv[2])
    is_over = threading.Event()
    traders = [Trader(port, index, is_over) for index in range(count)]
    for trader in traders:
        trader.start()
    for trader in traders:
        trader.was_answered.wait(30)
    print("flooding", flush=True)
    sys.stdin.read()
    is_over.set()
    for trader in traders:
        trader.join(10)
    return 0


if __name__ == "__main__":
    sys.exit(main())
