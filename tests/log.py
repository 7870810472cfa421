#!/usr/bin/env python3
"""The log of a server: a line an event, at once, and none of a record left out.

A server with `--log text`, one with `--log json`: officers and a trader log in, a stranger asks three times, an account is
killed, a lift is denied, limits of a value and of shares are set, and some denied, an order is entered, somebody logs out, and
the server ends. Each record that is to be told is told within a second, in the order of records, with the words and the numbers
that are wanted: a limit of a value in dollars, in JSON in their ten-thousandths. Orders are not told, and of three wrong logins
within a minute the first alone, and how many more there were at the end. Connections are told with their addresses and why they
ended.
Of a Kill and of a Close Day it is told too how many orders they ended, and how many shares: those that were live in front of
them, less what was executed, and of a Kill those of its account alone.
With a journal a second run tells what is new, and nothing of the first. Run as

  tests/log.py [GATE]

GATE: the built program; where none is named, crates/gate/out/gate of this repository.
"""

import json
import re
import signal
import socket
import subprocess
import sys
import tempfile
import threading
import time
from contextlib import contextmanager
from collections.abc import Iterator
from pathlib import Path

TOP = Path(__file__).resolve().parents[1]
GATE = TOP / "crates" / "gate" / "out" / "gate"
PATIENCE_SECONDS = 10
LONGEST_SECONDS = 100
AT_ONCE_SECONDS = 1.0
LOGOUT = b"\x00\x01O"
MOMENT = r"(\d\d:\d\d:\d\d\.\d{6}) "
OF_RECORD = re.compile(MOMENT + r"(.*, record (\d+))")
OF_MINUTE = re.compile(MOMENT + r"more logins denied within the minute of \d\d:\d\d: 2")
OF_ENDED = re.compile(MOMENT + r"((?:Kill of|Close Day) .* ended .*)")
OF_CONNECTION = re.compile(MOMENT + r"connection (\d+) from 127\.0\.0\.1:(\d+): (.*)")
# What is told of the records, in their order: lines 1 to 3 are the matcher's, the log's and that of strangers.
RECORDS = [
    "OLGA logged in on line 4, record 1",
    "login of MALORY on line 3 denied by L1, record 2",
    "ALFA killed by OLGA, record 5",
    "OTTO logged in on line 5, record 6",
    "Lift of ALFA by OTTO denied by Q2, record 7",
    "limit of GROSS set from $1,000.00 to $2,000.00 by OLGA, record 8",
    "limit of GROSS set from $2,000.00 to $0.0005 by OLGA, record 9",
    "limit of SIZE set from 500000 to 400000 by OLGA, record 10",
    "Set Limit of CREDIT to 30000 by OLGA denied by Q1, record 11",
    "Set Limit of GROSS to $3.00 by OTTO denied by Q2, record 12",
    "BOB logged in on line 6, record 13",
    "OTTO logged out on line 5, record 15",
]
OBJECTS = [
    {"event": "login", "user": "OLGA", "line": 4, "record": 1},
    {"event": "login_denied", "user": "MALORY", "line": 3, "denied_by": "L1", "record": 2},
    {"event": "kill", "user": "OLGA", "account": "ALFA", "record": 5},
    {"event": "login", "user": "OTTO", "line": 5, "record": 6},
    {"event": "lift_denied", "user": "OTTO", "account": "ALFA", "denied_by": "Q2", "record": 7},
    {"event": "limit", "user": "OLGA", "rule": "GROSS", "from": 10_000_000, "to": 20_000_000, "record": 8},
    {"event": "limit", "user": "OLGA", "rule": "GROSS", "from": 20_000_000, "to": 5, "record": 9},
    {"event": "limit", "user": "OLGA", "rule": "SIZE", "from": 500_000, "to": 400_000, "record": 10},
    {"event": "limit_denied", "user": "OLGA", "rule": "CREDIT", "to": 30_000, "denied_by": "Q1", "record": 11},
    {"event": "limit_denied", "user": "OTTO", "rule": "GROSS", "to": 30_000, "denied_by": "Q2", "record": 12},
    {"event": "login", "user": "BOB", "line": 6, "record": 13},
    {"event": "logout", "user": "OTTO", "line": 5, "record": 15},
]
# What is told of the orders that the Kill above ended: there were none.
NONE_ENDED = "Kill of ALFA by OLGA (record 5) ended 0 orders, 0 shares"
NONE_ENDED_OBJECT = {
    "event": "orders_ended", "user": "OLGA", "command": "kill", "account": "ALFA", "orders": 0, "shares": 0, "record": 5
}
# Of BETA's sells of 1 and 40 shares ALFA buys 16, so that 25 of the second are open; ALFA's own sell is of 7. A granted order
# has a record, and another one puts it to rest; a fill is one record.
ENDED = [
    "Kill of BETA by OLGA (record 13) ended 1 orders, 25 shares",
    "Close Day by OLGA (record 14) ended 1 orders, 7 shares",
]
ENDED_OBJECTS = [
    {"event": "orders_ended", "user": "OLGA", "command": "kill", "account": "BETA", "orders": 1, "shares": 25, "record": 13},
    {"event": "orders_ended", "user": "OLGA", "command": "close", "orders": 1, "shares": 7, "record": 14},
]


def login(user: bytes, password: bytes) -> bytes:
    """A Login Request for the last report."""
    return b"\x00\x2fL" + user.ljust(6) + password.ljust(10) + b" " * 10 + b"%20d" % 0


def data(message: bytes) -> bytes:
    """Unsequenced Data with this message."""
    return (len(message) + 1).to_bytes(2, "big") + b"U" + message


def order(token: bytes = b"S1", side: bytes = b"S", shares: int = 1) -> bytes:
    """Enters an order to sell so many shares of TEST at ten dollars, or to buy them, until the end of the day."""
    return data(
        b"O" + token.ljust(14) + side + shares.to_bytes(4, "big") + b"TEST    " + (100_000).to_bytes(4, "big")
        + (99_999).to_bytes(4, "big") + b"    YAN" + bytes(4) + b"NN"
    )


def limit_set(rule: bytes, limit: int) -> bytes:
    """Sets the limit of a rule."""
    return data(b"M" + b"M1".ljust(14) + rule.ljust(8) + limit.to_bytes(8, "big"))


def free_port() -> int:
    """A port that nobody listens on."""
    with socket.create_server(("127.0.0.1", 0)) as line:
        return line.getsockname()[1]


class Server:
    """A server with a log, and the lines that it has told so far, each with when it was read."""

    def __init__(self, gate: str, form: str, folder: Path, *more: str) -> None:
        """Starts it."""
        self.port, self.stop = free_port(), folder / "stop"
        self.stop.unlink(missing_ok=True)
        words = [gate, "serve", "--port", str(self.port), "--log", form, "--stop-file", str(self.stop), *more]
        self.process = subprocess.Popen(
            words, stdin=subprocess.DEVNULL, stdout=subprocess.PIPE, stderr=subprocess.PIPE, text=True
        )
        self.process.stdout.readline()
        self.told: list[tuple[float, str]] = []
        self.reader = threading.Thread(target=self.read, daemon=True)
        self.reader.start()

    def read(self) -> None:
        """Reads what it tells."""
        for line in self.process.stderr:
            self.told.append((time.monotonic(), line.rstrip("\n")))

    def await_told(self, part: str, since: float) -> bool:
        """Whether a line with this part in it was told within a second."""
        while time.monotonic() < since + AT_ONCE_SECONDS:
            if any(part in line for _, line in self.told):
                return True
            time.sleep(0.005)
        return False

    def end(self) -> bool:
        """Ends it: whether its status is 0."""
        self.stop.touch()
        status = self.process.wait(PATIENCE_SECONDS)
        self.reader.join(PATIENCE_SECONDS)
        return status == 0

    def lines(self) -> list[str]:
        """What it has told."""
        return [line for _, line in self.told]


@contextmanager
def client(server: Server, user: bytes, password: bytes) -> Iterator[socket.socket]:
    """A user who is logged in."""
    with socket.create_connection(("127.0.0.1", server.port), timeout=PATIENCE_SECONDS) as line:
        line.sendall(login(user, password))
        line.recv(3)
        yield line


def ask_as_stranger(server: Server) -> None:
    """A login that is denied for its password."""
    with socket.create_connection(("127.0.0.1", server.port), timeout=PATIENCE_SECONDS) as line:
        line.sendall(login(b"MALORY", b"x"))
        while line.recv(4096):
            pass


def await_minute() -> None:
    """Waits where the minute is about to end, so that all is within one."""
    if time.time() % 60 > 50:
        time.sleep(60.5 - time.time() % 60)


def play(server: Server, parts: list[str]) -> list[bool]:
    """A part of a day, step by step: whether each record that is told was told at once, known by its part of a line."""
    at_once = []

    def told(part: str) -> None:
        """Whether this was told at once."""
        at_once.append(server.await_told(part, time.monotonic()))

    await_minute()
    with client(server, b"OLGA", b"orange") as olga:
        told(parts[0])
        for _ in range(3):
            ask_as_stranger(server)
        told(parts[1])
        olga.sendall(data(b"K" + b"K1".ljust(14) + b"ALFA    "))
        told(parts[2])
        with client(server, b"OTTO", b"olive") as otto:
            told(parts[3])
            otto.sendall(data(b"L" + b"L1".ljust(14) + b"ALFA    "))
            told(parts[4])
            for place, (officer, rule, limit) in enumerate(
                (
                    (olga, b"GROSS", 20_000_000), (olga, b"GROSS", 5), (olga, b"SIZE", 400_000), (olga, b"CREDIT", 30_000),
                    (otto, b"GROSS", 30_000),
                ),
                5,
            ):
                officer.sendall(limit_set(rule, limit))
                told(parts[place])
            with client(server, b"BOB", b"banana") as bob:
                told(parts[10])
                bob.sendall(order())
                bob.recv(3)
                time.sleep(0.1)
                otto.sendall(LOGOUT)
                told(parts[11])
                server.end()
    return at_once


def end_orders(server: Server, parts: list[str]) -> bool:
    """Orders are entered and some of their shares executed; an account is killed, and the day closed: whether what these ended
    was told at once, known by its parts of lines."""
    with client(server, b"OLGA", b"orange") as olga, client(server, b"BOB", b"banana") as bob:
        bob.sendall(order(b"S1", b"S", 1) + order(b"S2", b"S", 40))
        time.sleep(0.2)
        with client(server, b"ALICE", b"apple") as alice:
            alice.sendall(order(b"A1", b"B", 16) + order(b"A2", b"S", 7))
            time.sleep(0.2)
            olga.sendall(data(b"K" + b"K1".ljust(14) + b"BETA    "))
            is_killed = server.await_told(parts[0], time.monotonic())
            olga.sendall(data(b"Z" + b"Z1".ljust(14)))
            is_closed = server.await_told(parts[1], time.monotonic())
            return server.end() and is_killed and is_closed


def are_connections_told(lines: list[str]) -> bool:
    """Whether connections are told with the lines of their users and why they ended."""
    said = [found[4] for line in lines if (found := OF_CONNECTION.fullmatch(line))]
    wanted = ["line: 4", "line: 5", "line: 6", "ended: logged out", "ended: the server ends"]
    return all(words in said for words in wanted) and said.count("ended: no user's password") == 3


def ended_in(lines: list[str]) -> list[str]:
    """What is told of orders that commands ended."""
    return [found[2] for line in lines if (found := OF_ENDED.fullmatch(line))]


def are_ended_orders_told(gate: str, folder: Path) -> bool:
    """What a Kill and a Close Day ended, in both forms."""
    text = Server(gate, "text", folder)
    is_text = end_orders(text, ENDED) and ended_in(text.lines()) == ENDED
    objects = Server(gate, "json", folder)
    are_at_once = end_orders(objects, [f"\"command\":\"{wanted['command']}\"" for wanted in ENDED_OBJECTS])
    told = [one for line in objects.lines() if (one := json.loads(line))["event"] == "orders_ended"]
    have_moments = all(re.fullmatch(r"\d\d:\d\d:\d\d\.\d{9}", one.pop("at")) for one in told)
    return is_text and are_at_once and have_moments and told == ENDED_OBJECTS


def is_told_in_text(gate: str, folder: Path) -> bool:
    """The log as a person reads it."""
    server = Server(gate, "text", folder)
    at_once = play(server, RECORDS)
    lines = server.lines()
    records = [(found[2], found[1]) for line in lines if (found := OF_RECORD.fullmatch(line))]
    moments = [moment for _, moment in records]
    words = [said for said, _ in records]
    ends = [line for line in lines if line.endswith(f"gate: the server ends: there is the file {server.stop}")]
    leaving = {f"{user} logged out on line {line}" for user, line in (("OLGA", 4), ("BOB", 6))}
    more_denied = [line for line in lines if OF_MINUTE.fullmatch(line)]
    are_out = {said.rpartition(",")[0] for said in words[len(RECORDS):]} == leaving
    return (
        all(at_once) and words[:len(RECORDS)] == RECORDS and moments == sorted(moments) and ended_in(lines) == [NONE_ENDED]
        and len(ends) == 1 and len(more_denied) == 1 and are_out and are_connections_told(lines)
    )


def is_told_in_json(gate: str, folder: Path) -> bool:
    """The log as a program reads it."""
    server = Server(gate, "json", folder)
    at_once = play(server, [f"\"record\":{wanted['record']}}}" for wanted in OBJECTS])
    told = [json.loads(line) for line in server.lines()]
    records = [one for one in told if "record" in one and one["event"] != "orders_ended"]
    ended = [one for one in told if one["event"] == "orders_ended"]
    others = {one["event"] for one in told if "record" not in one}
    more_denied = [one["count"] for one in told if one["event"] == "more_logins_denied"]
    have_moments = all(re.fullmatch(r"\d\d:\d\d:\d\d\.\d{9}", one.pop("at")) for one in told)
    return (
        all(at_once) and have_moments and records[:len(OBJECTS)] == OBJECTS and ended == [NONE_ENDED_OBJECT]
        and others == {"line", "ended", "end", "more_logins_denied"} and more_denied == [2]
    )


def goes_on(gate: str, folder: Path) -> bool:
    """A second run on the journal of the first tells what is new."""
    journal = ["--journal", str(folder / "journal")]
    first = Server(gate, "text", folder, *journal)
    play(first, RECORDS)
    second = Server(gate, "text", folder, *journal)
    with client(second, b"OLGA", b"orange") as olga:
        is_on = second.await_told("OLGA logged in on line ", time.monotonic())
        olga.sendall(limit_set(b"GROSS", 7))
        is_set = second.await_told("limit of GROSS set from $0.0005 to $0.0007 by OLGA, record 19", time.monotonic())
        is_ended = second.end()
    told = [found[2] for line in second.lines() if (found := OF_RECORD.fullmatch(line))]
    return is_on and is_set and is_ended and [line.rpartition(" ")[2] for line in told] == ["18", "19", "20"]


def main() -> int:
    """Tries them all. Answers the status: 1 where one of them does something else."""
    gate = sys.argv[1] if len(sys.argv) > 1 else str(GATE)
    signal.alarm(LONGEST_SECONDS)
    are_right = True
    runs = {
        "as text": is_told_in_text, "as JSON": is_told_in_json, "what commands ended": are_ended_orders_told,
        "behind a restart": goes_on,
    }
    for what, run in runs.items():
        with tempfile.TemporaryDirectory() as folder:
            is_right = run(gate, Path(folder))
        are_right &= is_right
        print(f"{what}: {'as wanted' if is_right else 'NOT AS WANTED'}", flush=True)
    return 0 if are_right else 1


if __name__ == "__main__":
    sys.exit(main())
