#!/usr/bin/env python3
# What a server does under load, and while nothing happens. Run as
#
#   bench/under-load.py [GATE]                        a minute
#   bench/under-load.py [GATE] --slack 5              five times as long as it should be is well enough
#   bench/under-load.py [GATE] --before OLD/gate      orders a second, beside another version and an echo
#
# GATE: the built program; where none is named, crates/gate/out/gate of this repository.
"""Lets native traders (load.c beside this file) enter orders, and looks at what that does to everybody else: how long others'
orders and an officer's kill take, also beside 64 users who are denied in silence and beside a browser, what 256 silent users
cost, and whether any of 40 who send heartbeats is taken for silent where the server is held up for 17 seconds.

- 64 traders with 20 orders in flight each: how many orders wait to be matched, how long an order does, how long a pair of
  others takes whose orders cross in another stock, and how long an officer's kill takes.
- 60 traders with 300 orders in flight each, also beside a journal, with 1,000, and who read nothing: how long it is until an
  officer's kill has its effect and until it is answered, and how long the traders wait.
- 64 users whose requests are denied in silence, beside a journal: how long an officer's kill takes.
- A browser that asks for the page's state all the time, under as many accounts, stocks, users and rules as a policy may have:
  how much longer an officer's kill takes than without it.
- 256 users who do nothing: how much of a processor the server takes.
- 40 users who send heartbeats, while the whole server is held up: none is taken for silent.

With `--before` it compares orders a second, and the time from an order to its Accepted, of both versions and of two echoes:
one of a thread a connection that does nothing else, and one of two threads, as a server has them, that works for 3
microseconds an order under one lock. The status is 1 where something takes
longer than it should.
"""

import argparse
import base64
import os
import resource
import select
import signal
import socket
import struct
import subprocess
import sys
import tempfile
import threading
import time
import urllib.request
from collections.abc import Callable, Iterator
from contextlib import contextmanager
from itertools import count
from pathlib import Path

GATE = Path(__file__).resolve().parents[1] / "crates" / "gate" / "out" / "gate"
ACCOUNTS = 64
USERS = 255
STOCKS = 5
MOST_STOCKS = 1024
MOST_RULES = 128
HERE = Path(__file__).resolve().parent
ENTER = struct.Struct(">HcB14scI8sII4s3sI2s")
RECORD = struct.Struct(">4sQQ10x6sc58xc8xQQ8x")
SILENT = b"\0\2U?"
HEARTBEAT = b"\0\1R"
QUARTER = 900 * 10**9
KILL, LIFT = b"K", b"L"
WORK = 3000
ECHO = "an echo"
WORKING_ECHO = "an echo of two threads a connection, 3 us an order under one lock"


def policy_text() -> str:
    """A policy of traders, whom nothing is denied, and an officer. Nobody trades on its last account."""
    parts = ['version = 1\nsession = "LOAD"\n']
    parts += [f'[[account]]\nname = "A{i:02d}"\nfirm = "F{i:02d}"\n' for i in range(ACCOUNTS)]
    for i in range(USERS):
        parts.append(f'[[user]]\nname = "T{i:02d}"\npassword = "P{i:02d}"\nrole = "trader"\naccount = "A{i % 63:02d}"\n')
    parts.append('[[user]]\nname = "OLGA"\npassword = "orange"\nrole = "officer"\npowers = ["kill", "lift"]\n')
    parts += [f'[[stock]]\nname = "TEST{i}"\nreference = 100000\n' for i in range(STOCKS)]
    return "".join(parts)


def widest_policy() -> str:
    """A policy of as many accounts, stocks, users and rules as a file may have: each rule counts each account in each stock."""
    parts = ['version = 2\nsession = "LOAD"\nlifters = 1\n']
    parts += [f'[[rule]]\nname = "N{i:03d}"\nkind = "net_shares"\nlimit = 1000000\ncount = "each"\n' for i in range(MOST_RULES)]
    parts += [f'[[stock]]\nname = "S{i:04d}"\nreference = 100000\n' for i in range(MOST_STOCKS - STOCKS)]
    return "".join(parts) + policy_text().split("\n", 2)[2]


TAGS = count(1)


class Line:
    """A connection of somebody who is logged in."""

    def __init__(self, port: int, user: str, password: str, first: int = 1) -> None:
        self.line = socket.create_connection(("127.0.0.1", port), timeout=60)
        self.line.setsockopt(socket.IPPROTO_TCP, socket.TCP_NODELAY, 1)
        self.held, self.number = b"", 0
        self.line.sendall(b"\0\x2fL%-6s%-10s%10s%20d" % (user.encode(), password.encode(), b"", first))
        if self.packet()[2:3] != b"A":
            raise RuntimeError(f"{user} is not logged in")

    def packet(self) -> bytes:
        """The next packet."""
        while len(self.held) < 2 or len(self.held) < 2 + int.from_bytes(self.held[:2], "big"):
            piece = self.line.recv(65536)
            if not piece:
                raise RuntimeError("the server closed a connection")
            self.held += piece
        end = 2 + int.from_bytes(self.held[:2], "big")
        packet, self.held = self.held[:end], self.held[end:]
        return packet

    def report(self, kind: bytes = b"") -> bytes:
        """The next report, or the next of this kind."""
        while True:
            packet = self.packet()
            if packet[2:3] == b"S" and packet[3:4].startswith(kind):
                return packet[3:]

    def order(self, side: bytes, stock: bytes) -> bytes:
        """The next order, of 100 shares at 10 dollars."""
        self.number += 1
        token = b"%-14d" % self.number
        return ENTER.pack(50, b"U", 0x4F, token, side, 100, stock, 100_000, 99999, b"    ", b"YAN", 0, b"NN")

    def orders(self, count: int) -> bytes:
        """The next orders, so many of each side in turn."""
        return b"".join(self.order(b"BS"[i % 2 : i % 2 + 1], b"TEST%d   " % (i // 2 % 4)) for i in range(count))

    def enter(self, side: bytes, stock: bytes) -> None:
        """Enters an order."""
        self.line.sendall(self.order(side, stock))

    def command(self, text: bytes) -> None:
        """Gives an officer's command, and waits for its answer."""
        self.line.sendall(struct.pack(">HcB", len(text) + 1, b"U", text[0]) + text[1:])
        self.report()


def free_port() -> int:
    """A port that nobody has."""
    with socket.create_server(("127.0.0.1", 0)) as free:
        return free.getsockname()[1]


@contextmanager
def server(
    gate: str, folder: Path, *more: str, policy: str = "", environment: dict[str, str] | None = None
) -> Iterator[tuple[int, int]]:
    """A server on a free port, ended by the end of its standard input: its port, and its process."""
    (folder / "policy.toml").write_text(policy or policy_text())
    port = free_port()
    words = [gate, "serve", "--port", str(port), "--until-input-ends", "--policy", str(folder / "policy.toml"), *more]
    with subprocess.Popen(words, stdin=subprocess.PIPE, stdout=subprocess.PIPE, env=environment) as running:
        try:
            if b"listening" not in running.stdout.readline():
                raise RuntimeError("the server does not listen")
            yield port, running.pid
            running.stdin.close()
            if status := running.wait(60):
                raise RuntimeError(f"the server ended with status {status}")
        finally:
            running.kill()


def share(values: list[float], part: float) -> float:
    """The value below which so many of a hundred are."""
    return sorted(values)[min(len(values) - 1, int(len(values) * part / 100))]


class Judge:
    """What is measured, and whether it is well."""

    def __init__(self, slack: float) -> None:
        self.slack, self.bad = slack, 0

    def say(self, what: str, value: float, most: float, unit: str) -> None:
        """Prints a figure, beside what it should be at most."""
        well = value <= most * self.slack
        self.bad += not well
        print(f"{what}: {value:.2f} {unit} (at most {most:g}){'' if well else '  TOO MUCH'}", flush=True)


def command_bytes(kind: bytes, number: int) -> bytes:
    """An officer's Kill or Lift of the account that nobody trades on."""
    return kind + b"%-14d" % number + b"A63     "


def time_commands(port: int, until: Callable[[], bool], pause: float, timed: bytes = KILL) -> list[float]:
    """How many milliseconds each kill, or each of the commands of these kinds, takes until it is answered; a lift stands behind
    each kill."""
    line, times = Line(port, "OLGA", "orange", 0), []
    while not until():
        for kind in (KILL, LIFT):
            begun = time.monotonic()
            line.command(command_bytes(kind, next(TAGS)))
            if kind in timed:
                times.append((time.monotonic() - begun) * 1000)
        time.sleep(pause)
    return times


def time_pairs(port: int, until: Callable[[], bool]) -> list[float]:
    """How many milliseconds it takes, from the second of two orders that cross, until both are told of the fill."""
    buyer, seller, times = Line(port, "T253", "P253"), Line(port, "T254", "P254"), []
    while not until():
        seller.enter(b"S", b"TEST4   ")
        seller.report(b"A")
        begun = time.monotonic()
        buyer.enter(b"B", b"TEST4   ")
        buyer.report(b"E")
        seller.report(b"E")
        times.append((time.monotonic() - begun) * 1000)
        time.sleep(0.005)
    return times


def built(folder: Path) -> str:
    """The load client, built."""
    program = str(folder / "load")
    subprocess.run(["cc", "-O2", "-pthread", "-o", program, str(HERE / "load.c")], check=True)
    return program


class Run:
    """A run of the load client."""

    def __init__(self, load: str, port: int, clients: int, window: int, seconds: float, how: str) -> None:
        words = [load, str(port), str(clients), str(window), str(seconds), how]
        self.running = subprocess.Popen(words, stdout=subprocess.PIPE, text=True)

    def over(self) -> bool:
        """Whether it has ended."""
        return self.running.poll() is not None

    def figures(self) -> list[float]:
        """Orders, seconds, orders a second, and p50, p99 and the longest time to an Accepted, in microseconds."""
        out, _ = self.running.communicate(timeout=120)
        if self.running.returncode != 0:
            raise RuntimeError("the load client gave up")
        return [float(word) for word in out.split()]


def waiting_of(audit: bytes) -> tuple[int, list[float]]:
    """How many orders waited at the most, and how many milliseconds each did, from its record to its first matching step.

    All orders have one size, so the first matching step of an order is its last, but where it comes to rest first.
    """
    waits: list[float] = []
    queue: list[int] = []
    first = most = 0
    for _, _, moment, _, kind, verdict, *_ in RECORD.iter_unpack(audit[RECORD.size:]):
        if kind == b"O" and verdict == b"G":
            queue.append(moment)
            most = max(most, len(queue) - first)
        elif kind == b"4":
            waits.append((moment - queue[first]) / 1e6)
            first += 1
    return most, waits


def look_at_orders(gate: str, load: str, seconds: float, judge: Judge) -> None:
    """64 traders with 20 orders in flight each, and others beside them."""
    print("64 traders, 20 orders in flight each:")
    with tempfile.TemporaryDirectory() as name:
        folder = Path(name)
        with server(gate, folder, "--audit", str(folder / "audit"), "--connections-at-once", "1000") as (port, _):
            run = Run(load, port, 64, 20, seconds, "cross")
            kills: list[float] = []
            officer = threading.Thread(target=lambda: kills.extend(time_commands(port, run.over, 0.005)))
            officer.start()
            pairs = time_pairs(port, run.over)
            officer.join()
            orders, _, rate, p50, p99, longest = run.figures()
        most, waits = waiting_of((folder / "audit").read_bytes())
    print(f"{orders:.0f} orders, {rate:.0f} a second, to Accepted p50 {p50:.0f} us, p99 {p99:.0f} us, longest {longest:.0f} us")
    judge.say("orders that waited at once", most, 1000, "")
    judge.say("from an order to its matching step, p99", share(waits, 99), 20, "ms")
    judge.say(f"a pair in another stock, p99 of {len(pairs)}", share(pairs, 99), 20, "ms")
    judge.say(f"a kill, p99 of {len(kills)}", share(kills, 99), 20, "ms")


def kills_on(port: int, until: Callable[[], bool]) -> tuple[list[int], list[float]]:
    """Kills, each lifted: at which nanosecond of the wall clock each was sent, and how many milliseconds it was until it was
    answered."""
    line, sent, answered = Line(port, "OLGA", "orange", 0), [], []
    while not until():
        sent.append(time.time_ns())
        begun = time.monotonic()
        line.command(command_bytes(KILL, next(TAGS)))
        answered.append((time.monotonic() - begun) * 1000)
        line.command(command_bytes(LIFT, next(TAGS)))
        time.sleep(0.01)
    return sent, answered


def effects_of(records: bytes, sent: list[int]) -> list[float]:
    """How many milliseconds behind its sending each kill's record has its moment. An audit counts from midnight, wherever that
    was: only what is within a quarter of an hour is told."""
    moments = [r[2] for r in RECORD.iter_unpack(records[RECORD.size:]) if r[4] == KILL and r[5] == b"G"]
    return [((moment - at + QUARTER // 2) % QUARTER - QUARTER // 2) / 1e6 for moment, at in zip(moments, sent)]


def look_at_kills(gate: str, load: str, seconds: float, judge: Judge) -> None:
    """An officer's kills beside nobody, and beside 60 traders with so many orders in flight each, who read their reports or not."""
    none, read, mute = 0, 1, 2
    cases = (("nobody", none, 0, "--audit"), ("300 in flight", read, 300, "--audit"), ("300 in flight, a journal", read, 300, "--journal"),
             ("1,000 in flight", read, 1000, "--audit"), ("who read nothing", mute, 0, "--audit"))
    alone = 0.0
    for title, how, window, kept in cases:
        with tempfile.TemporaryDirectory() as name:
            folder = Path(name)
            with server(gate, folder, kept, str(folder / "kept"), "--connections-at-once", "1000") as (port, _):
                end = time.monotonic() + seconds
                words = [sys.executable, __file__, gate, "--unread", str(port), "--seconds", str(seconds)]
                run = Run(load, port, 60, window, seconds, "cross") if how == read else None
                unread = subprocess.Popen(words) if how == mute else None
                time.sleep(0.5)
                sent, answered = kills_on(port, run.over if run else lambda: time.monotonic() > end)
                figures = run.figures() if run else None
                if unread:
                    unread.wait(60)
            effects = effects_of((folder / "kept").read_bytes(), sent)
        alone = alone or share(effects, 99)
        print(f"60 traders, {title}: {len(effects)} kills, effect p50 {share(effects, 50):.2f} ms, longest {max(effects):.2f} ms,"
              f" answer p50 {share(answered, 50):.2f} ms, longest {max(answered):.2f} ms")
        judge.say("until a kill has its effect, p99, beside that without traders", share(effects, 99) - alone, 5, "ms")
        judge.say("until it is answered, p99", share(answered, 99), 15, "ms")
        if figures:
            _, _, rate, _, p99, _ = figures
            judge.say(f"a trader's wait, p99, beside the mean at {rate:.0f} orders a second", p99 * rate / (60 * window * 1e6), 5, "")


def enter_unread(port: int, seconds: float) -> None:
    """60 traders who enter orders as fast as they are taken, and read nothing."""
    end, looks = time.monotonic() + seconds, select.poll()
    lines = {line.line.fileno(): line for line in (Line(port, f"T{i:02d}", f"P{i:02d}") for i in range(60))}
    left = {number: b"" for number in lines}
    for number, line in lines.items():
        line.line.setblocking(False)
        looks.register(number, select.POLLOUT)
    while time.monotonic() < end:
        for number, _ in looks.poll(50):
            try:
                left[number] = left[number] or lines[number].orders(100)
                left[number] = left[number][lines[number].line.send(left[number]):]
            except BlockingIOError:
                pass
            except OSError:
                looks.unregister(number)


def flood(line: socket.socket, until: Callable[[], bool]) -> None:
    """Sends requests that are denied in silence, a logged-in trader's, up to 900 in a row between two that are told."""
    while not until():
        line.line.sendall(SILENT * 900)
        line.enter(b"B", b"TEST4   ")


def look_at_flood(gate: str, seconds: float, judge: Judge) -> None:
    """64 users whose requests are denied in silence, beside a journal."""
    print("64 users who are denied in silence, with a journal:")
    with tempfile.TemporaryDirectory() as name:
        folder = Path(name)
        with server(gate, folder, "--journal", str(folder / "journal"), "--connections-at-once", "1000") as (port, _):
            end = time.monotonic() + seconds
            flooding = [sys.executable, __file__, gate, "--flood", str(port), "--seconds", str(seconds)]
            with subprocess.Popen(flooding) as running:
                time.sleep(0.5)
                kills = time_commands(port, lambda: time.monotonic() > end, 0.02)
                running.wait(60)
        records = (folder / "journal").stat().st_size // RECORD.size
    print(f"{records} records in {seconds:.0f} s")
    judge.say(f"a kill, the longest of {len(kills)}", max(kills), 50, "ms")


def run_flood(port: int, seconds: float) -> None:
    """Floods from 64 connections, in threads of this process."""
    end = time.monotonic() + seconds
    threads = []
    for i in range(64):
        line = Line(port, f"T{i:02d}", f"P{i:02d}")
        threads.append(threading.Thread(target=flood, args=(line, lambda: time.monotonic() > end), daemon=True))
    for thread in threads:
        thread.start()
    for thread in threads:
        thread.join(seconds + 10)


@contextmanager
def browsing(gate: str, page: int) -> Iterator[None]:
    """A browser, in a process of its own, that has seen the page's state once, and asks for it over and over."""
    with subprocess.Popen([sys.executable, __file__, gate, "--browse", str(page)], stdout=subprocess.PIPE) as browser:
        try:
            if browser.stdout.readline() != b"seen\n":
                raise RuntimeError("the page does not answer")
            yield
        finally:
            browser.kill()


def browse(page: int) -> None:
    """Asks for the page's state, and says when it has seen it."""
    who = base64.b64encode(b"OLGA:orange").decode()
    asked = urllib.request.Request(f"http://127.0.0.1:{page}/state.json", headers={"Authorization": f"Basic {who}"})
    while True:
        with urllib.request.urlopen(asked, timeout=60) as answer:
            answer.read()
        print("seen", flush=True)


def look_at_page(gate: str, seconds: float, judge: Judge) -> None:
    """An officer's kills under the widest policy, without a browser and beside one."""
    print(f"{ACCOUNTS} accounts, {MOST_STOCKS} stocks, {USERS + 1} users and {MOST_RULES} net rules:")
    page = free_port()
    with tempfile.TemporaryDirectory() as name:
        with server(gate, Path(name), "--status-port", str(page), policy=widest_policy()) as (port, _):
            trader = Line(port, "T00", "P00")
            for i in range(STOCKS):
                trader.enter(b"B", b"TEST%d   " % i)
                trader.report(b"A")
            alone = time_commands_for(port, seconds)
            with browsing(gate, page):
                beside = time_commands_for(port, seconds)
    longer = share(beside, 99) - share(alone, 99)
    print(f"{len(alone)} commands without a browser, the longest {max(alone):.2f} ms; beside one {len(beside)}, {max(beside):.2f} ms")
    judge.say("a kill or a lift takes longer beside a browser, p99", longer, 1, "ms")


def time_commands_for(port: int, seconds: float) -> list[float]:
    """How many milliseconds each kill and each lift takes, for so many seconds."""
    end = time.monotonic() + seconds
    return time_commands(port, lambda: time.monotonic() > end, 0.002, KILL + LIFT)


def processor_seconds(process: int) -> float:
    """The processor time that a process has taken."""
    fields = Path(f"/proc/{process}/stat").read_text().rsplit(")", 1)[1].split()
    return (int(fields[11]) + int(fields[12])) / os.sysconf("SC_CLK_TCK")


def look_at_silence(gate: str, seconds: float, judge: Judge) -> None:
    """256 users who do nothing but send heartbeats."""
    with tempfile.TemporaryDirectory() as name:
        with server(gate, Path(name), "--connections-at-once", "1000") as (port, process):
            lines = [Line(port, f"T{i:02d}", f"P{i:02d}") for i in range(USERS)] + [Line(port, "OLGA", "orange")]
            time.sleep(1)
            begun, before = time.monotonic(), processor_seconds(process)
            while time.monotonic() - begun < seconds:
                time.sleep(1)
                for line in lines:
                    line.line.sendall(HEARTBEAT)
            taken = (processor_seconds(process) - before) / (time.monotonic() - begun)
    judge.say("256 silent users", taken * 100, 2, "% of a processor")


def is_ended(line: Line) -> bool:
    """Whether the server has closed a connection. What it has sent is let go."""
    line.line.setblocking(False)
    try:
        while line.line.recv(65536):
            pass
        return True
    except BlockingIOError:
        return False
    except ConnectionError:
        return True


def look_at_pause(gate: str, judge: Judge) -> None:
    """40 users who send heartbeats, and one who sends nothing, while the server is held up for 17 seconds."""
    print("41 users, one of them silent, and a server that is held up for 17 seconds:")
    with tempfile.TemporaryDirectory() as name:
        with server(gate, Path(name)) as (port, process):
            lines = [Line(port, f"T{i:02d}", f"P{i:02d}") for i in range(41)]
            os.kill(process, signal.SIGSTOP)
            for second in range(20):
                if second == 17:
                    os.kill(process, signal.SIGCONT)
                for line in lines[1:]:
                    line.line.sendall(HEARTBEAT)
                time.sleep(1)
            ended = [is_ended(line) for line in lines]
    judge.say("of those who sent heartbeats are put out", sum(ended[1:]), 0, "")
    judge.say("of those who did not are left", 1 - ended[0], 0, "")


def compare(gates: list[str], load: str, seconds: float) -> None:
    """Orders a second and times to Accepted of versions, of an echo, and of one that works for 3 microseconds an order."""
    for clients, window in ((1, 1), (64, 1), (64, 64)):
        for gate in gates + [ECHO, WORKING_ECHO]:
            with tempfile.TemporaryDirectory() as name, started(gate, load, Path(name)) as port:
                _, _, rate, p50, p99, _ = Run(load, port, clients, window, seconds, "rest").figures()
            print(f"{clients:3} traders, {window:2} in flight each, {gate}: {rate:.0f} orders a second,"
                  f" p50 {p50:.1f} us, p99 {p99:.1f} us", flush=True)


@contextmanager
def started(gate: str, load: str, folder: Path) -> Iterator[int]:
    """A server, or an echo, on a free port."""
    if not gate.startswith(ECHO):
        with server(gate, folder) as (port, _):
            yield port
        return
    port = free_port()
    words = [load, "echo", str(port)] + ([str(WORK)] if gate == WORKING_ECHO else [])
    with subprocess.Popen(words, stdout=subprocess.PIPE) as running:
        running.stdout.readline()
        yield port
        running.kill()


def main() -> int:
    """Looks at all of it. Status 1 where something takes too long."""
    parser = argparse.ArgumentParser(description=__doc__)
    parser.add_argument("gate", nargs="?", default=str(GATE), help="the program")
    parser.add_argument("--seconds", type=float, default=10, help="how long each part takes (10)")
    parser.add_argument("--slack", type=float, default=1, help="how many times as long things may take (1)")
    parser.add_argument("--before", help="another version, to compare with")
    parser.add_argument("--flood", type=int, help=argparse.SUPPRESS)
    parser.add_argument("--browse", type=int, help=argparse.SUPPRESS)
    parser.add_argument("--unread", type=int, help=argparse.SUPPRESS)
    asked = parser.parse_args()
    if asked.flood:
        run_flood(asked.flood, asked.seconds)
        return 0
    if asked.browse:
        browse(asked.browse)
    if asked.unread:
        enter_unread(asked.unread, asked.seconds)
        return 0
    resource.setrlimit(resource.RLIMIT_NOFILE, (4096, 4096))
    judge = Judge(asked.slack)
    with tempfile.TemporaryDirectory() as name:
        load = built(Path(name))
        if asked.before:
            compare([asked.before, asked.gate], load, asked.seconds)
            return 0
        look_at_silence(asked.gate, asked.seconds, judge)
        look_at_pause(asked.gate, judge)
        look_at_orders(asked.gate, load, asked.seconds, judge)
        look_at_kills(asked.gate, load, asked.seconds, judge)
        look_at_flood(asked.gate, asked.seconds, judge)
        look_at_page(asked.gate, asked.seconds, judge)
    return int(judge.bad > 0)


if __name__ == "__main__":
    sys.exit(main())
