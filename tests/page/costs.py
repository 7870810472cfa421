"""What the page costs a trader, for what shows how it works."""

import base64
import multiprocessing
import resource
import select
import socket
import subprocess
import sys
from collections.abc import Callable, Iterator
from contextlib import contextmanager
from pathlib import Path
from statistics import mean, stdev

TOP = Path(__file__).resolve().parents[2]
sys.path.insert(0, str(TOP / "bench"))

import load  # noqa: E402  (of bench)
from pages import (  # noqa: E402  (beside this file)
    HOST, OLGA, PATIENCE_SECONDS, Points, Server, serving,
)

IDLE = 1_000
ROUNDS = 5
TRIES = 3  # something else may hold up the machine in one of them
ROUND_SECONDS = 1.0
SLOWER = 1.2  # how many times as long a trader may wait beside idle connections
DEARER = 0.02  # the share of a trader's orders a second that a page may cost
PORTION_SECONDS = 0.02
CYCLE, BEHIND = 5, 2  # an answer is asked for in each fifth portion, ten a second, and what it costs falls into two
# What is asked for at the beginning of the portions of the traders' time, over and over: for a second what the page has not, which
# costs what whoever asks costs, and no look at the gate; and for a second its state.
PLAN = 10 * "n...." + 10 * "s...."
DAY_SECONDS = 10.0  # of traders at one server
TRADERS, WINDOW = "4", "64"


def hold_idle(port: int, is_held, is_over) -> None:
    """Keeps a thousand connections that say nothing, each opened again where the server has ended it."""
    resource.setrlimit(resource.RLIMIT_NOFILE, (4096, 4096))
    poll, lines = select.epoll(), {}
    while not is_over.is_set():
        while len(lines) < IDLE:
            try:
                line = socket.create_connection((HOST, port), timeout=1)
            except OSError:
                break  # those that it has not taken yet wait for it
            lines[line.fileno()] = line
            poll.register(line, select.EPOLLIN | select.EPOLLHUP)
        is_held.set()
        for place, _ in poll.poll(0.1):
            poll.unregister(place)
            lines.pop(place).close()


@contextmanager
def beside(work: Callable | None, port: int) -> Iterator[None]:
    """This work goes on in a process of its own."""
    if work is None:
        yield
        return
    context = multiprocessing.get_context("fork")
    is_held, is_over = context.Event(), context.Event()
    process = context.Process(target=work, args=(port, is_held, is_over), daemon=True)
    process.start()
    try:
        if not is_held.wait(3 * PATIENCE_SECONDS):
            raise ConnectionError("the page does not answer")
        yield
        if not process.is_alive():
            raise ConnectionError("what goes on beside the trader has ended")
    finally:
        is_over.set()
        process.join(PATIENCE_SECONDS)
        process.kill()


def waited(port: int, turn: int) -> float:
    """What a trader sees who waits for each answer: his 99th percentile in microseconds."""
    trader = load.Trader(turn, port, 1, False)
    load.drive([trader], ROUND_SECONDS)
    leave([trader])
    latencies = sorted(trader.latencies)
    return latencies[len(latencies) * 99 // 100] / 1000


def leave(traders: list) -> None:
    """Logs them out. What was not as it has to be is a ValueError."""
    for trader in traders:
        trader.line.sendall(load.LOGOUT)
        if trader.faults:
            raise ValueError(trader.faults[0])


def rounds(server: Server, work: Callable) -> tuple[float, float]:
    """The least of a trader's rounds alone and of rounds beside this work, in turn; no trader comes twice. Other programs of the
    machine make any one of them larger."""
    alone, accompanied = [], []
    for turn in range(ROUNDS):
        alone.append(waited(server.port, 2 * turn))
        with beside(work, server.page):
            accompanied.append(waited(server.port, 2 * turn + 1))
    return min(alone), min(accompanied)


def load_policy() -> str:
    """Many traders, and an officer."""
    return load.policy_text() + '[[user]]\nname = "OLGA"\npassword = "orange"\nrole = "officer"\npowers = ["kill"]\n'


def idle_cost(gate: str, folder: Path, points: Points) -> None:
    """A thousand idle connections to the page beside a trader who waits for each answer."""
    for _ in range(TRIES):
        with serving(gate, folder, load_policy()) as server:
            alone, accompanied = rounds(server, hold_idle)
        limit = alone * (1 + (SLOWER - 1) * points.slack)
        if accompanied <= limit:
            break
    what = f"a trader's p99 beside {IDLE} idle connections to the page: {accompanied:.0f} us, alone {alone:.0f} us"
    points.look(what, accompanied <= limit, f"wanted: at most {limit:.0f} us")


def orders_of_portions(load_client: str, server: Server, how: str) -> list[int]:
    """The orders of native traders who enter all they can, in each portion of their time, while a thread beside them asks the page
    by the plan."""
    who = base64.b64encode(":".join(OLGA).encode()).decode()
    portion = str(round(1000 * PORTION_SECONDS))
    words = [load_client, str(server.port), TRADERS, WINDOW, str(DAY_SECONDS), how, portion, str(server.page), who, PLAN]
    run = subprocess.run(words, stdout=subprocess.PIPE, text=True, timeout=6 * DAY_SECONDS, check=False)
    if run.returncode != 0:
        raise ValueError("the load client gave up")
    return [int(word) for word in run.stdout.splitlines()[-1].split()]


def shares_lost(portions: list[int], letter: str) -> list[float]:
    """What the portions behind each question of this letter fall short by, of what those around them have, as a share of the orders
    that a cycle has on the day's average: around a question nothing may have come, where the machine stood still. Left out are the
    first second, and the first question of a kind: its answer is of all that came meanwhile."""
    first = round(1 / PORTION_SECONDS)
    usual = CYCLE * mean(portions[first:])
    if usual == 0:
        raise ValueError("no order came behind the first second")
    lost = []
    for at in range(first, len(portions) - CYCLE + 1, CYCLE):
        if all(PLAN[place % len(PLAN)] == letter for place in (at - CYCLE, at)):
            bare = mean(portions[at - CYCLE + BEHIND:at] + portions[at + BEHIND:at + CYCLE])
            lost.append((BEHIND * bare - sum(portions[at:at + BEHIND])) / usual)
    return lost


def figure(lost: list[float]) -> tuple[float, float]:
    """Their mean, and its standard error."""
    return mean(lost), stdev(lost) / len(lost) ** 0.5


def reading_cost(gate: str, folder: Path, points: Points) -> None:
    """A page that is asked for its state ten times a second beside traders who enter all they can."""
    load_client = str(folder / "load")
    subprocess.run(["cc", "-O2", "-pthread", "-o", load_client, str(TOP / "bench" / "load.c")], check=True)
    for how, which in (("cross", "executed"), ("rest", "left live")):
        states: list[float] = []
        refusals: list[float] = []
        for _ in range(points.days):
            with serving(gate, folder, load_policy()) as server:
                portions = orders_of_portions(load_client, server, how)
            states += shares_lost(portions, "s")
            refusals += shares_lost(portions, "n")
        (cost, error), (asking, doubtful) = figure(states), figure(refusals)
        doubt = 2 * error if points.slack > 1 else 0.0  # a run with slack fails only where the cost is beyond doubt
        what = f"ten states a second cost traders whose orders are {which} {cost:.2%} of their orders (+- {error:.2%}, " \
            f"{len(states)} times), ten answers of 404 {asking:.2%} (+- {doubtful:.2%})"
        points.look(what, cost - doubt <= DEARER * points.slack, f"wanted: at most {DEARER * points.slack:.0%}")
