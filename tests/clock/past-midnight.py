#!/usr/bin/env python3
"""`gate serve` goes on past midnight, whatever is done to the machine's clock.

A server is started three seconds before midnight. ALICE gives three orders at once, of which the policy lets two pass in a
second: before midnight, behind it, and again once the machine's clock was put back by an hour. Each time the third is
rejected, and no other: the rate rule empties. Each report's time is that of a clock that goes on past 24:00:00, she is
sent a heartbeat a second, and BOB, who says nothing, is found silent. Then a server goes on with the day's journal behind
midnight, and one on a clock that is an hour back: neither gives a time below the last record's. `--midnight` shifts the
times, and what is no offset is refused. Run as

  tests/clock/past-midnight.py [GATE]

GATE: the built program; where none is named, crates/gate/out/gate of this repository.

The machine's clock is faked by libfaketime (Debian's package faketime), its monotonic clock is not. Where it is not
installed midnight is laid three seconds ahead by `--midnight`, which takes up to a minute of waiting, and no clock is put
back while a server runs.
"""

import os
import signal
import socket
import subprocess
import sys
import tempfile
import time
from collections.abc import Callable, Iterator
from contextlib import contextmanager
from dataclasses import dataclass, field
from pathlib import Path

LIBRARY = Path("/usr/lib/x86_64-linux-gnu/faketime/libfaketimeMT.so.1")
TOP = Path(__file__).resolve().parents[2]
GATE = TOP / "crates" / "gate" / "out" / "gate"
POLICY = Path(__file__).resolve().parent / "policy.toml"
LONGEST_SECONDS = 150
PATIENCE_SECONDS = 10.0
SLACK_SECONDS = 2.0
DAY_SECONDS, HOUR_SECONDS, MINUTE_SECONDS = 86_400, 3_600, 60
BEFORE_MIDNIGHT_SECONDS = 3
SILENCE_SECONDS = 15
QUIET_SECONDS = 3.5
RECORD = 128
HEARTBEAT = b"\x00\x01R"
LOGOUT = b"\x00\x01O"
LOGIN_ACCEPTED, SERVER_HEARTBEAT, SEQUENCED = b"A", b"H", b"S"
ACCEPTED, REJECTED = b"A", b"J"


def login(user: bytes, password: bytes) -> bytes:
    """A Login Request for the last report."""
    return b"\x00\x2fL" + user.ljust(6) + password.ljust(10) + b" " * 10 + b"%20d" % 0


def order(token: bytes) -> bytes:
    """Enters an order to buy a share of TEST at a dollar, until the end of the day."""
    return (
        b"\x00\x32UO" + token.ljust(14) + b"B" + (1).to_bytes(4, "big") + b"TEST    "
        + (10_000).to_bytes(4, "big") + (99_999).to_bytes(4, "big") + b"    YAN" + bytes(4) + b"NN"
    )


def free_port() -> int:
    """A port that nobody listens on."""
    with socket.create_server(("127.0.0.1", 0)) as line:
        return line.getsockname()[1]


def zone_of(minutes: int) -> str:
    """How an offset of so many minutes is written."""
    hours, rest = divmod(abs(minutes), 60)
    return f"{'-' if minutes < 0 else '+'}{hours:02d}:{rest:02d}"


@dataclass
class Wall:
    """The machine's clock as a server reads it, and the zone that the server is told."""

    folder: Path
    ahead: float = 0.0  # by how much the faked clock is ahead of the real one
    minutes: int = 0    # by how much the zone is ahead of UTC
    is_faked: bool = field(default_factory=LIBRARY.exists)

    def __post_init__(self) -> None:
        """Three seconds before midnight."""
        if self.is_faked:
            self.ahead = -time.time() % DAY_SECONDS - BEFORE_MIDNIGHT_SECONDS
        else:
            print(f"{LIBRARY} is absent: midnight is laid ahead by --midnight", flush=True)
            time.sleep((-time.time() - BEFORE_MIDNIGHT_SECONDS) % MINUTE_SECONDS)
            minute = round((time.time() + BEFORE_MIDNIGHT_SECONDS) / MINUTE_SECONDS) % (DAY_SECONDS // 60)
            self.minutes = -minute if minute <= 720 else DAY_SECONDS // 60 - minute

    def put_back(self) -> None:
        """By an hour: the machine's clock, or the zone where that is not faked."""
        if self.is_faked:
            self.ahead -= HOUR_SECONDS
            self.tell()
        else:
            self.minutes -= 60

    def tell(self) -> None:
        """Writes down by how much the faked clock is ahead."""
        written = self.folder / "ahead.new"
        written.write_text(f"{self.ahead:+.3f}\n")
        written.rename(self.folder / "ahead")

    def moment(self) -> float:
        """The seconds past local midnight that it shows now."""
        return (time.time() + self.ahead + self.minutes * 60) % DAY_SECONDS

    def environment(self) -> dict[str, str]:
        """What a server is started with."""
        if not self.is_faked:
            return dict(os.environ)
        self.tell()
        return os.environ | {
            "LD_PRELOAD": str(LIBRARY),
            "FAKETIME_TIMESTAMP_FILE": str(self.folder / "ahead"),
            "FAKETIME_NO_CACHE": "1",
            "FAKETIME_DONT_FAKE_MONOTONIC": "1",
        }


@dataclass
class Day:
    """A server: the moment that it was started at, by its clock and by the monotonic one."""

    port: int
    began: float
    since: float = field(default_factory=time.monotonic)

    def moment(self) -> float:
        """The seconds past midnight that it is to show now."""
        return self.began + time.monotonic() - self.since


@contextmanager
def server(gate: str, wall: Wall, *words: str) -> Iterator[Day]:
    """A server on this clock, which is ended by the end of its input."""
    port = free_port()
    call = [gate, "serve", "--port", str(port), "--policy", str(POLICY), "--midnight", zone_of(wall.minutes)]
    program = subprocess.Popen(
        [*call, "--until-input-ends", *words], env=wall.environment(),
        stdin=subprocess.PIPE, stdout=subprocess.PIPE,
    )
    with program:
        try:
            if program.stdout.readline() != b"listening %d\n" % port:
                raise RuntimeError("the server does not listen")
            yield Day(port, wall.moment())
            program.stdin.close()
            if program.wait(PATIENCE_SECONDS) != 0:
                raise RuntimeError("the server's status is not 0")
        finally:
            program.kill()


class Peer:
    """A connection on which a user is logged in, and what came over it."""

    def __init__(self, port: int, user: bytes, password: bytes) -> None:
        self.line = socket.create_connection(("127.0.0.1", port), timeout=PATIENCE_SECONDS)
        self.held = b""
        self.orders = 0
        self.line.sendall(login(user, password))
        if (answer := self.packet(time.monotonic() + PATIENCE_SECONDS)) is None or answer[:1] != LOGIN_ACCEPTED:
            raise RuntimeError(f"{user} is not logged in")

    def packet(self, until: float) -> bytes | None:
        """The next packet; None where none comes until then, or where there is the end."""
        while len(self.held) < max(3, 2 + int.from_bytes(self.held[:2], "big")):
            self.line.settimeout(max(until - time.monotonic(), 0.001))
            try:
                piece = self.line.recv(4096)
            except (TimeoutError, ConnectionError):
                piece = b""
            if not piece:
                return None
            self.held += piece
        size = 2 + int.from_bytes(self.held[:2], "big")
        packet, self.held = self.held[2:size], self.held[size:]
        return packet

    def give(self, name: bytes) -> list[tuple[bytes, float]]:
        """Gives three orders at once under this name: of each answer its type and its time in seconds."""
        self.line.sendall(b"".join(order(name + b"%d" % i) for i in range(3)))
        answers = []
        until = time.monotonic() + PATIENCE_SECONDS
        while len(answers) < 3 and (packet := self.packet(until)) is not None:
            if packet[:1] == SEQUENCED and packet[10:24].startswith(name):
                answers.append((packet[1:2], int.from_bytes(packet[2:10], "big") / 1e9))
        return answers

    def heartbeats(self, seconds: float) -> int:
        """How many heartbeats come in so many seconds, while it gives one every half second."""
        count = 0
        for _ in range(round(seconds * 2)):
            self.line.sendall(HEARTBEAT)
            until = time.monotonic() + 0.5
            while (packet := self.packet(until)) is not None:
                count += packet[:1] == SERVER_HEARTBEAT
        return count

    def seconds_until_end(self) -> float:
        """How long it is until the server closes."""
        begun = time.monotonic()
        while self.packet(begun + SILENCE_SECONDS + PATIENCE_SECONDS) is not None:
            pass
        return time.monotonic() - begun


def are_answers(answers: list[tuple[bytes, float]], moment: float) -> bool:
    """Whether the third of three orders is rejected alone, and all are answered about this moment, in their order."""
    times = [told for _, told in answers]
    return (
        [kind for kind, _ in answers] == [ACCEPTED, ACCEPTED, REJECTED]
        and times == sorted(times) and all(abs(told - moment) < SLACK_SECONDS for told in times)
    )


def goes_on(alice: Peer, day: Day, name: bytes) -> bool:
    """Whether ALICE is answered as she is to be, and then sent a heartbeat a second while she gives no order."""
    is_answered = are_answers(alice.give(name), day.moment())
    return is_answered and abs(alice.heartbeats(QUIET_SECONDS) - QUIET_SECONDS) <= 1


def passes_midnight(gate: str, wall: Wall, journal: Path) -> dict[str, bool]:
    """What a server does that is started three seconds before midnight."""
    found = {}
    with server(gate, wall, "--journal", str(journal)) as day:
        alice = Peer(day.port, b"ALICE", b"apple")
        bob, came = Peer(day.port, b"BOB", b"banana"), time.monotonic()
        found["before midnight"] = day.began < DAY_SECONDS and goes_on(alice, day, b"A")
        found["behind midnight"] = day.moment() > DAY_SECONDS and goes_on(alice, day, b"B")
        if wall.is_faked:
            wall.put_back()
            found["once the clock is put back"] = goes_on(alice, day, b"C")
        quiet = time.monotonic() - came
        while quiet < SILENCE_SECONDS - 2:
            alice.heartbeats(0.5)
            quiet = time.monotonic() - came
        silent = quiet + bob.seconds_until_end()
        found["who is silent is found"] = abs(silent - SILENCE_SECONDS) < SLACK_SECONDS
    return found


def last_moment(journal: Path) -> float:
    """The time of the journal's last record, in seconds."""
    return int.from_bytes(journal.read_bytes()[-RECORD:][20:28], "big") / 1e9


def goes_on_from(gate: str, wall: Wall, journal: Path, name: bytes) -> bool:
    """Whether a server whose clock is behind the journal's last record goes on from there."""
    last = last_moment(journal)
    with server(gate, wall, "--journal", str(journal)) as day:
        day.began = max(day.began, last)
        alice = Peer(day.port, b"ALICE", b"apple")
        moment = day.moment()
        answers = alice.give(name)
        is_on = alice.heartbeats(1.5) >= 1
    return is_on and last > DAY_SECONDS and are_answers(answers, moment) and answers[0][1] >= last


def is_legal(gate: str, journal: Path) -> bool:
    """Whether the journal is that of a legal day."""
    call = [gate, "check", str(journal), "--policy", str(POLICY)]
    return subprocess.run(call, capture_output=True, timeout=PATIENCE_SECONDS).stdout.startswith(b"legal ")


def is_shifted(gate: str, zone: str, minutes: int) -> bool:
    """Whether times are those of this zone."""
    port = free_port()
    call = [gate, "serve", "--port", str(port), "--policy", str(POLICY), "--connections", "1", "--midnight", zone]
    with subprocess.Popen(call, stdin=subprocess.DEVNULL, stdout=subprocess.PIPE) as program:
        program.stdout.readline()
        moment = (time.time() + minutes * 60) % DAY_SECONDS
        alice = Peer(port, b"ALICE", b"apple")
        answers = alice.give(b"Z")
        alice.line.sendall(LOGOUT)
        has_ended = program.wait(PATIENCE_SECONDS) == 0
    # a midnight of the zone may come between the server's look at the clock and this one's
    return has_ended and any(are_answers(answers, day) for day in (moment, moment + DAY_SECONDS))


def is_refused(gate: str, value: str) -> bool:
    """Whether this is no offset: status 2, and standard error says so."""
    call = [gate, "serve", "--port", "1", "--midnight", value]
    ended = subprocess.run(call, stdin=subprocess.DEVNULL, capture_output=True, timeout=PATIENCE_SECONDS)
    told = f"error: invalid value '{value}' for '--midnight <OFFSET>'"
    return ended.returncode == 2 and ended.stdout == b"" and ended.stderr.decode().startswith(told)


def runs_of(gate: str, folder: Path) -> Iterator[tuple[str, Callable[[], bool]]]:
    """All that is looked at, in its order."""
    for zone, minutes in {"+00:00": 0, "-05:00": -300, "+05:30": 330, "+14:00": 840, "-14:00": -840}.items():
        yield f"--midnight {zone}", lambda zone=zone, minutes=minutes: is_shifted(gate, zone, minutes)
    for value in ["", "5", "05:00", "+5:00", "+05.00", "-00:60", "+14:01", "-15:00", "+05:00 ", "--policy"]:
        yield f"--midnight '{value}'", lambda value=value: is_refused(gate, value)
    wall, journal = Wall(folder), folder / "day"
    for what, is_right in passes_midnight(gate, wall, journal).items():
        yield what, lambda is_right=is_right: is_right
    yield "the day's journal", lambda: is_legal(gate, journal)
    yield "a restart behind midnight", lambda: goes_on_from(gate, wall, journal, b"D")
    wall.put_back()
    yield "a restart with the clock put back", lambda: goes_on_from(gate, wall, journal, b"E")
    yield "the journal at the end", lambda: is_legal(gate, journal)


def main() -> int:
    """Looks at all of it. Answers the status: 1 where something else is found."""
    signal.alarm(LONGEST_SECONDS)
    are_right = True
    with tempfile.TemporaryDirectory() as folder:
        for what, run in runs_of(sys.argv[1] if len(sys.argv) > 1 else str(GATE), Path(folder)):
            is_right = run()
            are_right &= is_right
            print(f"{what}: {'as wanted' if is_right else 'NOT AS WANTED'}", flush=True)
    return 0 if are_right else 1


if __name__ == "__main__":
    sys.exit(main())
