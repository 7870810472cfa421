#!/usr/bin/env python3
# Ends `gate serve --journal` at random moments, and looks for what it has told and then lost. Run as
#
#   tests/end-at-random.py [GATE]              20 ends
#   tests/end-at-random.py GATE 1000           1,000, in some ten minutes
#   tests/end-at-random.py GATE 20 --sync      20, each record forced to the disk
#
# GATE: the built program; where none is named, crates/gate/out/gate of this repository.
"""Recovery: a server that keeps a journal is killed (SIGKILL) while six traders trade, 20 times. No acknowledged report is
lost, and each journal is legal but for a cut last record.

Traders enter orders that trade. At a random moment the server is killed (SIGKILL). The journal has to be that of a
legal day, but for a cut last record. Then the server is started on it again, each trader logs in and asks for his
reports from the first on: they have to begin with every byte of reports that he had received before. So it goes on
with one journal over several ends, the last of them a clean one, after which the journal is the audit byte for byte.
"""

import argparse
import random
import selectors
import socket
import struct
import subprocess
import sys
import tempfile
import time
from collections.abc import Iterator
from contextlib import contextmanager
from dataclasses import dataclass, field
from pathlib import Path

TOP = Path(__file__).resolve().parents[1]
GATE = TOP / "crates" / "gate" / "out" / "gate"
TRADERS = 6
STOCKS = 2
WINDOW = 8
RECORD = 128
PATIENCE_SECONDS = 60.0
LONGEST_SECONDS = 0.05
MOST_ENDS_OF_A_DAY = 8
ENTER = struct.Struct(">HcB14scI8sII4s3sI2s")
SEQUENCED, ACCEPTED = ord("S"), ord("A")


def policy_text() -> str:
    """A policy of some traders, each on an account of his own, whose limits deny nothing."""
    parts = ['version = 1\nsession = "ENDS"\n']
    for i in range(TRADERS):
        parts.append(f'[[account]]\nname = "A{i:02d}"\nfirm = "F{i:02d}"\n')
        parts.append(f'[[user]]\nname = "T{i:02d}"\npassword = "P{i:02d}"\n')
        parts.append(f'role = "trader"\naccount = "A{i:02d}"\n')
    parts += [f'[[stock]]\nname = "TEST{i}"\nreference = 100000\n' for i in range(STOCKS)]
    return "".join(parts)


@dataclass
class Found:
    """What all ends came to."""

    ends: int = 0
    days: int = 0
    records: int = 0
    cut: int = 0
    told: int = 0
    lost: int = 0
    illegal: int = 0
    other: list[str] = field(default_factory=list)

    def faults(self) -> int:
        """How much there is that must not be."""
        return self.lost + self.illegal + len(self.other)


def reports_in(data: bytes) -> int:
    """How many packets begin in these bytes."""
    at, count = 0, 0
    while at + 2 <= len(data):
        at += 2 + int.from_bytes(data[at:at + 2], "big")
        count += 1
    return count


class Trader:
    """A trader over a whole day: what he has received of his reports, connection after connection."""

    def __init__(self, index: int) -> None:
        self.index = index
        self.name = f"T{index:02d}"
        self.known = bytearray()     # the reports of earlier connections
        self.orders = 0
        self.line: socket.socket | None = None

    def connect(self, port: int, wanted: int = 1) -> None:
        """Logs in, for the reports from this number on."""
        self.heard = b""             # what came of packets that are not whole yet
        self.reports = bytearray()   # the reports of this connection
        self.in_flight = 0
        self.logged_in = False
        self.line = socket.create_connection(("127.0.0.1", port), timeout=PATIENCE_SECONDS)
        self.line.setsockopt(socket.IPPROTO_TCP, socket.TCP_NODELAY, 1)
        name = self.name.encode()
        self.line.sendall(b"\0\x2fL" + name.ljust(6) + b"P" + name[1:].ljust(9) + b" " * 10 + b"%20d" % wanted)

    def listen(self) -> bool:
        """Takes what is there. False at the end."""
        try:
            piece = self.line.recv(262_144)
        except OSError:
            piece = b""
        data, at = self.heard + piece, 0
        while at + 2 <= len(data):
            end = at + 2 + int.from_bytes(data[at:at + 2], "big")
            if end > len(data):
                break
            if data[at + 2] == SEQUENCED:
                self.reports += data[at:end]
                self.in_flight -= data[at + 3] == ACCEPTED
            elif data[at + 2] == ACCEPTED:
                self.logged_in = True
            at = end
        self.heard = data[at:]
        return bool(piece)

    def has_caught_up(self) -> bool:
        """Whether he was told at least as much as on earlier connections."""
        return self.logged_in and len(self.reports) >= len(self.known)

    def enter(self, end: int) -> None:
        """Enters orders, as many as may be in flight: buys and sells that trade with those of others."""
        packets = []
        while self.in_flight < WINDOW:
            side = random.choice((b"B", b"S"))
            stock = b"TEST%d   " % random.randrange(STOCKS)
            token = b"%-14s" % (b"%d.%d" % (end, self.orders))
            price = 100_000 + random.randrange(-3, 4) * 100
            self.orders += 1
            self.in_flight += 1
            packets.append(ENTER.pack(
                50, b"U", 0x4F, token, side, random.randrange(1, 300), stock, price,
                random.choice((0, 99_999)), b"    ", b"YAN", 0, b"NN",
            ))
        try:
            self.line.sendall(b"".join(packets))
        except OSError:
            pass

    def leave(self, found: Found) -> None:
        """Compares what he has received with what he had received before, which must not be lost."""
        while self.listen():
            pass
        self.line.close()
        if len(self.heard) > 2 and self.heard[2] == SEQUENCED:
            self.reports += self.heard
        both = min(len(self.known), len(self.reports))
        if self.reports[:both] != self.known[:both]:
            found.other.append(f"{self.name}: was told other reports than before")
        if len(self.reports) > len(self.known):
            self.known = self.reports


@contextmanager
def server(words: list[str], port: int) -> Iterator[subprocess.Popen]:
    """A server that listens on the port."""
    words = [*words, "--port", str(port)]
    with subprocess.Popen(words, stdin=subprocess.PIPE, stdout=subprocess.PIPE, stderr=subprocess.PIPE) as running:
        try:
            if b"listening" not in running.stdout.readline():
                raise RuntimeError(f"the server does not listen: {running.stderr.readline()!r}")
            yield running
        finally:
            running.kill()


def free_port() -> int:
    """A port that nobody listens on."""
    with socket.create_server(("127.0.0.1", 0)) as line:
        return line.getsockname()[1]


def trade(traders: list[Trader], end: int, until: float) -> None:
    """Lets the traders enter orders until this time, each once he was told all that he knew."""
    poll = selectors.DefaultSelector()
    for trader in traders:
        poll.register(trader.line, selectors.EVENT_READ, trader)
        if trader.has_caught_up():
            trader.enter(end)
    while (left := until - time.monotonic()) > 0 and poll.get_map():
        for key, _ in poll.select(left):
            trader = key.data
            if not trader.listen():
                poll.unregister(trader.line)
            elif trader.has_caught_up():
                trader.enter(end)
    poll.close()


def catch_up(traders: list[Trader], found: Found) -> None:
    """Has each trader told what he knew. What he is not told by then, or otherwise, is lost."""
    until = time.monotonic() + PATIENCE_SECONDS
    for trader in traders:
        while not trader.has_caught_up() and time.monotonic() < until and trader.listen():
            pass
        if trader.reports[:len(trader.known)] == trader.known:
            found.told += reports_in(trader.known)
            continue
        same = next((i for i, (a, b) in enumerate(zip(trader.reports, trader.known)) if a != b),
                    min(len(trader.reports), len(trader.known)))
        lost = reports_in(trader.known) - reports_in(trader.known[:same]) or 1
        found.lost += lost
        found.other.append(f"{trader.name}: {lost} reports are lost")
        trader.known = trader.reports


def check(gate: str, folder: Path, found: Found) -> None:
    """Checks the journal: its whole records have to be those of a legal day."""
    journal = (folder / "journal").read_bytes()
    whole = len(journal) // RECORD * RECORD
    found.cut += len(journal) > whole
    if whole == 0:
        return
    (folder / "whole").write_bytes(journal[:whole])
    words = [gate, "check", str(folder / "whole"), "--policy", str(folder / "policy.toml")]
    answer = subprocess.run(words, capture_output=True, check=False)
    if answer.returncode:
        found.illegal += 1
        found.other.append(f"journal: {answer.stdout.decode().strip()}")


def run_once(words: list[str], traders: list[Trader], end: int, found: Found, is_clean: bool) -> None:
    """Runs a server until it is killed, or to a clean end."""
    port = free_port()
    with server(words, port) as running:
        begun = time.monotonic()
        for trader in traders:
            trader.connect(port)
        if is_clean or random.random() < 0.8:
            catch_up(traders, found)
            begun = time.monotonic()
        trade(traders, end, begun + random.uniform(0.0, LONGEST_SECONDS))
        if is_clean:
            running.stdin.close()
            if status := running.wait(PATIENCE_SECONDS):
                found.other.append(f"the server ended with status {status}")
        else:
            running.kill()
            running.wait()
        for trader in traders:
            trader.leave(found)


def run_day(gate: str, folder: Path, ends: int, is_synced: bool, found: Found) -> None:
    """Runs a day over so many ends, and one that is clean."""
    for file in folder.glob("*"):
        if file.name != "policy.toml":
            file.unlink()
    words = [gate, "serve", "--until-input-ends"]
    words += ["--policy", str(folder / "policy.toml"), "--journal", str(folder / "journal")]
    words += ["--journal-sync"] if is_synced else []
    traders = [Trader(index) for index in range(TRADERS)]
    for end in range(ends):
        run_once(words, traders, end, found, False)
        check(gate, folder, found)
        found.ends += 1
    run_once([*words, "--audit", str(folder / "audit")], traders, ends, found, True)
    journal = (folder / "journal").read_bytes()
    if journal != (folder / "audit").read_bytes():
        found.other.append("the journal of a clean end is not the audit")
    check(gate, folder, found)
    found.records += len(journal) // RECORD - 1
    found.days += 1


def main() -> int:
    """Runs the ends. Status 1 where anything was lost or is not legal."""
    parser = argparse.ArgumentParser(description=__doc__)
    parser.add_argument("gate", nargs="?", default=str(GATE), help="the program")
    parser.add_argument("ends", nargs="?", type=int, default=20, help="how many ends (20)")
    parser.add_argument("--seed", type=int, default=None, help="of the random moments")
    parser.add_argument("--sync", action="store_true", help="force each record to the disk")
    asked = parser.parse_args()
    seed = asked.seed if asked.seed is not None else random.randrange(2**32)
    random.seed(seed)
    found = Found()
    begun = time.monotonic()
    with tempfile.TemporaryDirectory() as name:
        folder = Path(name)
        (folder / "policy.toml").write_text(policy_text())
        while found.ends < asked.ends and not found.faults():
            ends = min(random.randint(1, MOST_ENDS_OF_A_DAY), asked.ends - found.ends)
            run_day(asked.gate, folder, ends, asked.sync, found)
    print(f"seed {seed}: {found.ends} ends and {found.days} clean ones in {time.monotonic() - begun:.0f} s,"
          f" {found.records} records, {found.cut} of them cut off")
    print(f"{found.told} reports told again, {found.lost} lost acknowledgements, {found.illegal} illegal journals")
    for line in found.other[:20]:
        print(f"  {line}")
    return int(found.faults() > 0)


if __name__ == "__main__":
    sys.exit(main())
