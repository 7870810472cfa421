#!/usr/bin/env python3
"""Shows that nobody keeps an officer out: in a flood of wrong passwords, silent peers and garbage he logs in within a second,
and his kill is answered within a tenth, ten times, also where the server has 256 descriptors (`.ci/run` allows ten times as long).

  tests/hostile.py [GATE [SCALE]]
  tests/hostile.py [GATE [SCALE]] --slack 10    what is asked for may take ten times as long, for a busy machine

GATE: the built program; where none is named, crates/gate/out/gate of this repository. A part in which something took too long
is run again, three times at most: other programs of the machine hold up one run, and whoever keeps an officer out holds up each.

At once there come SCALE times 1,000 connections with a wrong password (7 is the default), and SCALE times some thirty of
each other kind: connections that stay silent, that send heartbeats, that send half a login, that send bytes at random, each
again a second after it was hung up on; and two users, a trader and a reader, send SCALE times 240,000 messages that nobody can
read. The server may open few descriptors, and has some already. In the middle an officer connects, logs in, kills and lifts. Behind it the journal
has to be legal and to have used few lines. Then a trader works beside the connections that only stay, and it is seen that
a guess too many waits, and that who does not log in is hung up on. It wants Linux, and room for some thousand sockets
(`ulimit -n`).
"""

import argparse
import asyncio
import random
import resource
import socket
import subprocess
import sys
import tempfile
import time
from collections.abc import Callable, Iterator
from contextlib import contextmanager
from functools import partial
from multiprocessing import Event, Process, Queue
from pathlib import Path
from typing import NamedTuple

sys.dont_write_bytecode = True
TOP = Path(__file__).resolve().parents[1]
GATE = TOP / "crates" / "gate" / "out" / "gate"
sys.path.insert(0, str(TOP / "examples"))

from client import Packets, enter, kill, lift, login_request, packet  # noqa: E402  (of examples/)

HOST = "127.0.0.1"
DEFAULT_SCALE = 7
WRONG = 1_000
SILENT = BEATING = HALF = 29
RANDOM = 15
UNREADABLE = 240_000
AT_A_TIME = 60_000
ORDERS = 1_000
TURNS = 5
AT_ONCE = 900
LIMITS = ((1024, 0), (256, 100))
TRIES = 3
MOST_LINES = 100
LOGIN_SECONDS = 1.0
KILL_SECONDS = 0.1
MOST_MEMORY = 120
FLOOD_SECONDS = 10.0
AGAIN_SECONDS = 1.0
NOISE_SECONDS = 0.001
LATE_SECONDS = 0.5
PATIENCE_SECONDS = 60.0


def free_port() -> int:
    """A port that nobody listens on."""
    with socket.create_server((HOST, 0)) as line:
        return line.getsockname()[1]


# The flood: each of its connections but guesses comes again after it was hung up on, until the flood's end.


def wrong_login() -> bytes:
    """A login with a password that nobody has."""
    return login_request(random.choice(["ALICE", "OLGA", "NOBODY"]), "guess%d" % random.randrange(1000), 1)


async def come(port: int, first: bytes, again: bytes | None) -> None:
    """Connects, sends this, and then something else each second where there is any, until it is hung up on."""
    reader, writer = await asyncio.open_connection(HOST, port)
    try:
        writer.write(first)
        while True:
            try:
                if not await asyncio.wait_for(reader.read(4096), 1.0):
                    return
            except asyncio.TimeoutError:
                if again is not None:
                    writer.write(again)
    finally:
        writer.close()


async def visit(port: int, first: Callable[[], bytes], again: bytes | None) -> None:
    """Comes, and comes again a second after it was hung up on."""
    while True:
        try:
            await come(port, first(), again)
        except OSError:
            pass
        await asyncio.sleep(AGAIN_SECONDS)


async def guess(port: int, count: int) -> None:
    """Makes so many connections with a wrong password, some at once."""
    places = asyncio.Semaphore(AT_ONCE)

    async def one() -> None:
        async with places:
            try:
                await asyncio.wait_for(come(port, wrong_login(), None), 3.0)
            except (OSError, asyncio.TimeoutError):
                pass

    await asyncio.gather(*(one() for _ in range(count)))


def visits(port: int, scale: int) -> list[asyncio.Task]:
    """Those who come and stay, or send what is no login."""
    kinds = [
        (SILENT, lambda: b"", None),
        (BEATING, lambda: packet(b"R"), packet(b"R")),
        (HALF, lambda: wrong_login()[:20], None),
        (RANDOM, lambda: random.randbytes(40), None),
    ]
    return [
        asyncio.create_task(visit(port, first, again))
        for count, first, again in kinds
        for _ in range(count * scale)
    ]


async def flood(port: int, scale: int, guesses: int, begun: Event) -> None:
    """All who come at once, until the last guess, and for some seconds at least."""
    tasks = visits(port, scale)
    begun.set()
    await asyncio.gather(guess(port, guesses), asyncio.sleep(FLOOD_SECONDS))
    left = set(tasks)
    while left:
        # a task that waits for less than a while may miss that it is cancelled
        for task in left:
            task.cancel()
        _, left = await asyncio.wait(left, timeout=1.0)


def run_flood(port: int, scale: int, guesses: int, begun: Event) -> None:
    """The flood, in a process of its own."""
    hard = resource.getrlimit(resource.RLIMIT_NOFILE)[1]
    resource.setrlimit(resource.RLIMIT_NOFILE, (hard, hard))
    asyncio.run(flood(port, scale, guesses, begun))


def babble(port: int, user: str, password: str, count: int) -> int:
    """A user sends so many messages that nobody can read, and logs in again each time that he is put out.

    Answers how often he was.
    """
    times = 0
    for _ in range(0, count, AT_A_TIME):
        peer = Speaker(port)
        peer.asks(login_request(user, password, 1), b"A")
        times += peer.is_cut_off_by(packet(b"U", b"?") * AT_A_TIME)
    return times


def run_babble(port: int, user: str, password: str, count: int, times: Queue) -> None:
    """The same, in a process of its own."""
    times.put(babble(port, user, password, count))


# Those who are let in: an officer, a trader, and whoever babbles.


class Speaker:
    """A user's connection, and how long its answers take."""

    def __init__(self, port: int) -> None:
        self.line = socket.create_connection((HOST, port), timeout=PATIENCE_SECONDS)
        self.line.setsockopt(socket.IPPROTO_TCP, socket.TCP_NODELAY, 1)
        self.packets = Packets()
        self.heard: list[tuple[bytes, bytes]] = []

    def hear(self, kind: bytes) -> bytes:
        """The next packet of this kind."""
        while True:
            for at, (found, payload) in enumerate(self.heard):
                if found == kind:
                    del self.heard[: at + 1]
                    return payload
            piece = self.line.recv(4096)
            if not piece:
                raise ConnectionError("the server closed a user's connection")
            self.heard += self.packets.take(piece)

    def asks(self, data: bytes, kind: bytes) -> float:
        """Sends this. Answers how long the next packet of the kind takes to come."""
        began = time.monotonic()
        self.line.sendall(data)
        self.hear(kind)
        return time.monotonic() - began

    def is_cut_off_by(self, data: bytes) -> bool:
        """Sends this, as far as it is taken. Answers whether the server closes the connection."""
        try:
            self.line.sendall(data)
            while self.line.recv(4096):
                pass
        except TimeoutError:
            return False
        except OSError:
            pass
        self.line.close()
        return True


class Desk(NamedTuple):
    """How long an officer waits at most: from his call on to his login's answer, for a kill, and for a lift."""

    login: float
    kill: float
    lift: float


def log_in_and_kill(port: int, number: int) -> Desk:
    """An officer logs in, kills an account, and lifts that."""
    began = time.monotonic()
    officer = Speaker(port)
    officer.asks(login_request("OLGA", "orange", 0), b"A")
    login_took = time.monotonic() - began
    kill_took = officer.asks(packet(b"U", kill(f"K{number}", "BETA")), b"S")
    lift_took = officer.asks(packet(b"U", lift(f"L{number}", "BETA")), b"S")
    officer.line.sendall(packet(b"O"))
    return Desk(login_took, kill_took, lift_took)


def slowest(asked: list[Desk]) -> Desk:
    """The longest that an officer waited for each."""
    return Desk(*(max(took) for took in zip(*asked)))


def late_order(trader: Speaker, tag: str) -> float:
    """Of some thousand orders, how long the slowest but one in a hundred takes from the order to its answer.

    It is the least of several such figures: other programs of the machine make any one of them larger.
    """
    late = []
    for turn in range(TURNS):
        orders = [packet(b"U", enter(f"{tag}{turn}{number}", "B", "1", "TEST", "0.01")) for number in range(ORDERS)]
        took = sorted(trader.asks(order, b"S") for order in orders)
        late.append(took[len(took) * 99 // 100])
    return min(late)


# The server, under a limit of descriptors.


def errors_of(journal: Path) -> Path:
    """What a server on this journal has told on standard error."""
    return journal.with_suffix(".err")


@contextmanager
def serving(gate: str, journal: Path, limit: int, held: int, *words: str) -> Iterator[tuple[int, subprocess.Popen]]:
    """A server on a journal, which ends with the block. It may open so many descriptors, and has these already."""
    port = free_port()
    first = f'ulimit -n {limit}; for _ in $(seq {held}); do exec {{held}}< /dev/null; done; exec "$@"'
    call = ["bash", "-c", first, "bash", gate, "serve", "--port", str(port), "--until-input-ends"]
    call += ["--journal", str(journal), *words]
    with errors_of(journal).open("wb") as told, subprocess.Popen(
        call, stdin=subprocess.PIPE, stdout=subprocess.PIPE, stderr=told
    ) as server:
        server.stdout.readline()
        yield port, server
        server.stdin.close()
        server.wait(PATIENCE_SECONDS)


def memory_of(server: subprocess.Popen) -> int:
    """The most memory that the server had, in MB."""
    text = Path(f"/proc/{server.pid}/status").read_text()
    return int(text.partition("VmHWM:")[2].split()[0]) // 1024


def lines_used(gate: str, journal: Path) -> int:
    """The highest line of the journal's records."""
    shown = subprocess.run([gate, "show", str(journal)], capture_output=True, check=False).stdout.decode()
    return max((int(line.rpartition("# line ")[2].split()[0]) for line in shown.splitlines() if "# line " in line), default=0)


def tell(right: dict[str, bool], limit: int) -> bool:
    """Tells what is as wanted. Answers whether all is."""
    for what, is_right in right.items():
        print(f"{limit} descriptors: {what}: {'as wanted' if is_right else 'NOT AS WANTED'}", flush=True)
    return all(right.values())


def under(gate: str, scale: int, limit: int, held: int, slack: float, journal: Path) -> bool:
    """Whether an officer is kept out by nobody where the server may open so many descriptors, and has these already."""
    begun, times = Event(), Queue()
    with serving(gate, journal, limit, held) as (port, server):
        flooding = [Process(target=run_flood, args=(port, scale, WRONG * scale, begun))]
        for user, password in (("BOB", "banana"), ("RITA", "raisin")):
            given = (port, user, password, UNREADABLE * scale // 2, times)
            flooding.append(Process(target=run_babble, args=given))
        for process in flooding:
            process.start()
        begun.wait(PATIENCE_SECONDS)
        asked = []
        for number in range(10):
            time.sleep(FLOOD_SECONDS / 15 * max(1, scale / 7))
            asked.append(log_in_and_kill(port, number))
        took = slowest(asked)
        put_out = times.get() + times.get()
        for process in flooding:
            process.join()
        memory = memory_of(server)
    checked = subprocess.run([gate, "check", str(journal)], capture_output=True, check=False).stdout.decode().strip()
    lines, babbled = lines_used(gate, journal), UNREADABLE * scale // AT_A_TIME
    others = (SILENT + BEATING + HALF + RANDOM) * scale
    told = errors_of(journal).read_text()
    return tell({
        "it says that these are too few": ("descriptors may be open" in told) == (limit < 1008),
        "it says where one was wanting": ("no connection could be taken" in told) == (held > 0),
        f"{WRONG * scale} wrong passwords, and {others} others who stay": server.returncode == 0,
        f"{UNREADABLE * scale} unreadable messages, put out {put_out} times": put_out == babbled,
        f"an officer's ten logins, the slowest in {took.login * 1000:.1f} ms": took.login <= slack * LOGIN_SECONDS,
        f"his kills, the slowest in {took.kill * 1000:.1f} ms": took.kill <= slack * KILL_SECONDS,
        f"his lifts, the slowest in {took.lift * 1000:.1f} ms": took.lift <= slack * KILL_SECONDS,
        f"the journal is {checked}": checked.startswith("legal "),
        f"{lines} lines, {babbled} of them for those who were put out": lines - babbled <= MOST_LINES,
        f"{memory} MB at most": memory <= MOST_MEMORY,
    }, limit)


def seconds_of(call: Callable[[], object]) -> float:
    """How long the call takes."""
    began = time.monotonic()
    call()
    return time.monotonic() - began


def is_hung_up_on(port: int, first: bytes) -> None:
    """Sends this again and again, until the server closes the connection."""
    line = socket.create_connection((HOST, port), timeout=0.2)
    while True:
        try:
            if first:
                line.sendall(first)
            if not line.recv(4096):
                return
        except TimeoutError:
            pass
        except OSError:
            return


def patience(gate: str, slack: float, journal: Path) -> bool:
    """Whether who does not log in is hung up on in time, and a guess that is one too many waits."""
    late = 1 + slack * LATE_SECONDS
    with serving(gate, journal, 1024, 0, "--login-within", "1") as (port, _):
        silent = seconds_of(lambda: is_hung_up_on(port, b""))
        beating = seconds_of(lambda: is_hung_up_on(port, packet(b"R")))
        wrong = login_request("OLGA", "guess", 1)
    with serving(gate, journal, 1024, 0) as (port, _):
        guesses = [Speaker(port).asks(wrong, b"J") for _ in range(6)]
    return tell({
        f"who is silent is hung up on after {silent:.2f} s, who sends heartbeats after {beating:.2f}": (
            1 <= silent <= late and 1 <= beating <= late
        ),
        f"five guesses are answered within {max(guesses[:5]):.2f} s, the sixth after {guesses[5]:.2f}": (
            max(guesses[:5]) < slack * LATE_SECONDS and 1 <= guesses[5] <= late
        ),
    }, 1024)


def beside(gate: str, scale: int, slack: float, journal: Path) -> bool:
    """Whether a trader works as well beside connections that stay as without them."""
    begun = Event()
    with serving(gate, journal, 1024, 0) as (port, _):
        trader = Speaker(port)
        trader.asks(login_request("ALICE", "apple", 1), b"A")
        alone = late_order(trader, "A")
        flooding = Process(target=run_flood, args=(port, scale, 0, begun))
        flooding.start()
        begun.wait(PATIENCE_SECONDS)
        time.sleep(2)
        crowded = late_order(trader, "B")
        flooding.join()
        trader.line.sendall(packet(b"O"))
    others = (SILENT + BEATING + HALF + RANDOM) * scale
    told = f"a trader's order beside {others} who stay, p99 {crowded * 1e6:.0f} us, without them {alone * 1e6:.0f}"
    return tell({told: crowded <= max(2 * alone, slack * NOISE_SECONDS)}, 1024)


def in_tries(part: Callable[[Path], bool], folder: Path, name: str) -> bool:
    """Whether all is as wanted in one of some runs of this part, each on a journal of its own."""
    for turn in range(TRIES):
        if turn > 0:
            print("something else may have held up the machine: once more", flush=True)
        if part(folder / f"{name}-{turn}"):
            return True
    return False


def main() -> int:
    """Answers the status: 1 where something is not as wanted."""
    parser = argparse.ArgumentParser(description="Shows that nobody keeps an officer out.")
    parser.add_argument("gate", nargs="?", default=str(GATE), help="the built program")
    parser.add_argument("scale", nargs="?", type=int, default=DEFAULT_SCALE, help="how many thousand guesses come (7)")
    parser.add_argument("--slack", type=float, default=1.0, help="how many times as long things may take (1)")
    words = parser.parse_args()
    gate, scale, slack = words.gate, words.scale, words.slack
    parts = {f"day-{limit}": partial(under, gate, scale, limit, held, slack) for limit, held in LIMITS}
    parts["beside"] = partial(beside, gate, scale, slack)
    parts["patience"] = partial(patience, gate, slack)
    with tempfile.TemporaryDirectory() as folder:
        right = [in_tries(part, Path(folder), name) for name, part in parts.items()]
    return 0 if all(right) else 1


if __name__ == "__main__":
    sys.exit(main())
