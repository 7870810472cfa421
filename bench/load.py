#!/usr/bin/env python3
# A load test of `gate serve`. Run as
#
#   bench/load.py [GATE]                       one order in flight each
#   bench/load.py [GATE] --window 64           64 orders in flight each
#   bench/load.py [GATE] --never-cross         no fills
#   bench/load.py [GATE] --hostile             1,000 idle or bad connections
#   bench/load.py [GATE] --journal             with a journal
#   bench/load.py [GATE] --journal-sync        with one that is forced to the disk
#
# GATE: the built program; where none is named, crates/gate/out/gate of this repository.
"""Starts a server, lets 64 traders enter orders, and checks each report against the audit.

Each trader's reports are compared with what the audit owes him, one by one and in order, so none
may be lost, doubled or in another's place. Times are those of this program: from the write of an
order to its Accepted in hand, its own work in Python included.
"""

import argparse
import os
import resource
import selectors
import socket
import struct
import subprocess
import sys
import tempfile
import time
from array import array
from collections import deque
from collections.abc import Iterator
from contextlib import contextmanager
from multiprocessing import get_context
from pathlib import Path
from typing import NamedTuple

GATE = Path(__file__).resolve().parents[1] / "crates" / "gate" / "out" / "gate"
TRADERS = 64
STOCKS = 4
HOSTILE = 1_000
QUIET_SECONDS = 1.0
ENTER = struct.Struct(">HcB14scI8sII4s3sI2s")
LOGOUT = b"\0\1O"


def policy_text() -> str:
    """A policy of 64 traders on 64 accounts, whose limits deny nothing."""
    parts = ['version = 1\nsession = "LOAD"\n']
    for i in range(TRADERS):
        parts.append(f'[[account]]\nname = "A{i:02d}"\nfirm = "F{i:02d}"\n')
        parts.append(f'[[user]]\nname = "T{i:02d}"\npassword = "P{i:02d}"\n')
        parts.append(f'role = "trader"\naccount = "A{i:02d}"\n')
    parts += [f'[[stock]]\nname = "TEST{i}"\nreference = 100000\n' for i in range(STOCKS)]
    most = "limit = 9000000000000000000\n"
    parts.append(f'[[rule]]\nname = "SIZE"\nkind = "order_shares"\n{most}')
    parts.append(f'[[rule]]\nname = "GROSS"\nkind = "gross_value"\n{most}count = "each"\n')
    return "".join(parts)


class Seen(NamedTuple):
    """What a trader saw: times in nanoseconds, and reports as in `expected`."""

    index: int
    took: float
    latencies: array
    reports: array
    faults: list[str]


class Trader:
    """One connection: enters orders, and checks what it is told."""

    def __init__(self, index: int, port: int, window: int, cross: bool) -> None:
        self.index, self.window = index, window
        self.side = b"B" if index % 2 == 0 else b"S"
        self.price = 100_000 if cross else (99_000 if self.side == b"B" else 101_000)
        self.stock = b"TEST%d   " % (index // 2 % STOCKS)
        self.sent = self.accepted = 0
        self.last_order = 0
        self.times: deque[int] = deque()
        self.latencies = array("Q")
        self.reports = array("Q")
        self.faults: list[str] = []
        self.held = b""
        self.line = socket.create_connection(("127.0.0.1", port))
        self.line.setsockopt(socket.IPPROTO_TCP, socket.TCP_NODELAY, 1)
        self.line.sendall(b"\0\x2fLT%02d   P%02d       " % (index, index) + b" " * 10 + b"%20d" % 1)
        answer = self.line.recv(33, socket.MSG_WAITALL)
        if answer[2:3] != b"A":
            raise RuntimeError(f"T{index:02d} is not logged in: {answer.hex()}")

    def enter(self, count: int) -> None:
        """Sends so many new orders, in one write."""
        packets = []
        for number in range(self.sent, self.sent + count):
            packets.append(ENTER.pack(
                50, b"U", 0x4F, b"%-14d" % number, self.side, 100, self.stock, self.price,
                99999, b"    ", b"YAN", 0, b"NN",
            ))
        self.sent += count
        self.times.extend([time.monotonic_ns()] * count)
        self.line.sendall(b"".join(packets))

    def listen(self) -> tuple[int, bool]:
        """Takes what is there: how many orders were accepted, and whether any report came."""
        piece = self.line.recv(262_144)
        if not piece:
            raise RuntimeError(f"T{self.index:02d}: the server closed the connection")
        now = time.monotonic_ns()
        data, at, before, came = self.held + piece, 0, self.accepted, False
        while at + 2 <= len(data):
            end = at + 2 + (data[at] << 8 | data[at + 1])
            if end > len(data):
                break
            if data[at + 2] == 0x53:
                self.hear(data[at + 3:end], now)
                came = True
            at = end
        self.held = data[at:]
        return self.accepted - before, came

    def hear(self, message: bytes, now: int) -> None:
        """Checks a report, and keeps its number."""
        token = int(message[9:23])
        if message[0] == 0x41:
            order = int.from_bytes(message[49:57], "big")
            if token != self.accepted or order <= self.last_order:
                self.faults.append(f"T{self.index:02d}: Accepted {token}, not {self.accepted}")
            self.latencies.append(now - self.times.popleft())
            self.accepted, self.last_order = self.accepted + 1, order
            self.reports.append(order * 2)
        elif message[0] == 0x45 and token < self.accepted:
            self.reports.append(int.from_bytes(message[32:40], "big") * 2 + 1)
        else:
            self.faults.append(f"T{self.index:02d}: unexpected {message.hex()}")


def drive(traders: list[Trader], seconds: float) -> float:
    """Enters orders for so long, then waits until all is quiet. Seconds to the last Accepted."""
    poll = selectors.DefaultSelector()
    for trader in traders:
        poll.register(trader.line, selectors.EVENT_READ, trader)
    begun = last = heard = time.monotonic()
    for trader in traders:
        trader.enter(trader.window)
    while time.monotonic() - heard < QUIET_SECONDS or any(t.times for t in traders):
        for key, _ in poll.select(0.1):
            accepted, came = key.data.listen()
            now = time.monotonic()
            heard = now if came else heard
            last = now if accepted else last
            if accepted and now - begun < seconds:
                key.data.enter(accepted)
        if time.monotonic() - heard > 10:
            traders[0].faults.append("nothing came for 10 seconds, orders are unanswered")
            break
    return last - begun


def work(part: range, port: int, window: int, cross: bool, seconds: float, gate, results) -> None:
    """A process of traders: runs them, and puts what they saw into the results."""
    traders = [Trader(index, port, window, cross) for index in part]
    gate.wait(30)
    took = drive(traders, seconds)
    gate.wait(60)
    for trader in traders:
        while select_now(trader.line):
            trader.listen()
        trader.line.sendall(LOGOUT)
    results.put([Seen(t.index, took, t.latencies, t.reports, t.faults) for t in traders])


def select_now(line: socket.socket) -> bool:
    """Whether something comes on a line before it has been quiet for a while."""
    with selectors.DefaultSelector() as poll:
        poll.register(line, selectors.EVENT_READ)
        return bool(poll.select(0.02))


@contextmanager
def server(asked: argparse.Namespace, folder: Path) -> Iterator[int]:
    """A server on a free port, ended by the end of its standard input."""
    (folder / "policy.toml").write_text(policy_text())
    with socket.create_server(("127.0.0.1", 0)) as free:
        port = free.getsockname()[1]
    words = [asked.gate, "serve", "--port", str(port), "--until-input-ends", "--policy", str(folder / "policy.toml"),
             "--audit", str(folder / "audit"), "--connections-at-once", "2000"]
    if asked.journal or asked.journal_sync:
        words += ["--journal", str(folder / "journal")]
    if asked.journal_sync:
        words.append("--journal-sync")
    with subprocess.Popen(words, stdin=subprocess.PIPE, stdout=subprocess.PIPE) as running:
        try:
            if b"listening" not in running.stdout.readline():
                raise RuntimeError("the server does not listen")
            yield port
            running.stdin.close()
            if status := running.wait(60):
                raise RuntimeError(f"the server ended with status {status}")
        finally:
            running.kill()


def expected(audit: bytes) -> dict[int, array]:
    """What each trader is to be told, by the audit's records behind its header, in their order.

    An Accepted is twice the order's number, an Executed twice the match's and one.
    """
    owed = {index: array("Q") for index in range(TRADERS)}
    owner: dict[int, int] = {}
    record = struct.Struct(">4sQ18x6sc58xc8xQQ8x")
    for _, number, user, kind, verdict, first, maker in record.iter_unpack(audit[record.size:]):
        if kind == b"O" and verdict == b"G":
            owner[number] = int(user[1:3])
            owed[owner[number]].append(number * 2)
        elif verdict == b"F":
            owed[owner[first]].append(number * 2 + 1)
            owed[owner[maker]].append(number * 2 + 1)
    return owed


def run(port: int, traders: range, asked: argparse.Namespace) -> list[Seen]:
    """Runs the traders in processes of their own. What each saw."""
    context = get_context("fork")
    count = min(asked.processes, len(traders))
    barrier, results = context.Barrier(count), context.Queue()
    settings = (asked.window, not asked.never_cross, asked.seconds, barrier, results)
    workers = [
        context.Process(target=work, args=(traders[i::count], port, *settings))
        for i in range(count)
    ]
    for worker in workers:
        worker.start()
    saw = [trader for _ in workers for trader in results.get(timeout=asked.seconds + 90)]
    for worker in workers:
        worker.join(10)
    return saw


def tell(title: str, saw: list[Seen]) -> int:
    """Prints the figures of a run. How many faults there were."""
    latencies = sorted(value for trader in saw for value in trader.latencies)
    took = max(trader.took for trader in saw)
    faults = [fault for trader in saw for fault in trader.faults]
    p50, p99 = (latencies[len(latencies) * share // 100] // 1000 for share in (50, 99))
    print(f"{title}: {len(latencies)} orders in {took:.2f} s, {len(latencies) / took:.0f} a second,"
          f" p50 {p50} us, p99 {p99} us, {len(faults)} faults")
    for fault in faults[:10]:
        print(f"  {fault}")
    return len(faults)


def hostile_lines(port: int) -> list[socket.socket]:
    """Connections that send nothing, random bytes, or half a packet, in turn."""
    lines = []
    for index in range(HOSTILE):
        line = socket.create_connection(("127.0.0.1", port), timeout=5)
        line.sendall((b"", os.urandom(100), b"\0\x2fLT01   ")[index % 3])
        lines.append(line)
    return lines


def measure(port: int, asked: argparse.Namespace) -> tuple[int, list[Seen]]:
    """Makes the run that is asked for. How many faults, and what was seen."""
    if not asked.hostile:
        saw = run(port, range(TRADERS), asked)
        return tell(f"{TRADERS} traders, {asked.window} in flight each", saw), saw
    # the idle ones are closed after 15 seconds
    asked.seconds = min(asked.seconds, 10)
    asked.never_cross = True
    alone = run(port, range(1), asked)
    faults = tell("one trader alone", alone)
    lines = hostile_lines(port)
    # another trader: the tokens of the first are used
    beside = run(port, range(1, 2), asked)
    faults += tell(f"one beside {HOSTILE} hostile connections", beside)
    for line in lines:
        line.close()
    return faults, alone + beside


def main() -> int:
    """Runs the load test. Status 1 where there was any fault."""
    parser = argparse.ArgumentParser(description=__doc__)
    parser.add_argument("gate", nargs="?", default=str(GATE), help="the program")
    parser.add_argument("--seconds", type=float, default=5, help="at most 60 (5)")
    parser.add_argument("--window", type=int, default=1, help="orders in flight each (1)")
    parser.add_argument("--processes", type=int, default=2, help="processes of traders (2)")
    parser.add_argument("--never-cross", action="store_true", help="orders that never trade")
    parser.add_argument("--hostile", action="store_true", help="beside 1,000 bad connections")
    parser.add_argument("--journal", action="store_true", help="the server keeps a journal")
    parser.add_argument("--journal-sync", action="store_true", help="and forces it to the disk")
    parser.add_argument("--folder", help="where the files of the run are put (a temporary folder)")
    asked = parser.parse_args()
    asked.seconds = min(asked.seconds, 60)
    resource.setrlimit(resource.RLIMIT_NOFILE, (4096, 4096))
    with tempfile.TemporaryDirectory(dir=asked.folder) as name:
        folder = Path(name)
        with server(asked, folder) as port:
            faults, saw = measure(port, asked)
        owed = expected((folder / "audit").read_bytes())
        for trader in saw:
            if trader.reports != owed[trader.index]:
                faults += 1
                told, due = len(trader.reports), len(owed[trader.index])
                print(f"T{trader.index:02d}: told {told} reports, owed {due}, or in another order")
        journal = folder / "journal"
        if journal.exists() and journal.read_bytes() != (folder / "audit").read_bytes():
            faults += 1
            print("the journal is not the audit")
        files = [str(folder / "audit"), "--policy", str(folder / "policy.toml")]
        faults += subprocess.run([asked.gate, "check", *files], check=False).returncode != 0
    return int(faults > 0)


if __name__ == "__main__":
    sys.exit(main())
