"""The page beside others who ask all the time: an officer's looks and kills come through."""

import socket
import threading
import time
from collections.abc import Callable
from multiprocessing import Event, Process
from pathlib import Path

from pages import HOST, OLGA, OMAR, POLICY, RITA, Points, asked, exchanged, request_for, serving

CROWD = 80
LOOKS = 20
LOOK_SECONDS = 1.0
SILENT = 150


def over_and_over(call: Callable[[], object], begun: Event, over: Event) -> None:
    """So many threads that make a call, each again once it has ended."""

    def one() -> None:
        while not over.is_set():
            try:
                call()
            except OSError:
                time.sleep(0.01)

    threads = [threading.Thread(target=one) for _ in range(CROWD)]
    for thread in threads:
        thread.start()
    begun.set()
    for thread in threads:
        thread.join()


def stay_silent(port: int) -> None:
    """Connects, and says nothing."""
    lines = [socket.create_connection((HOST, port), timeout=5.0) for _ in range(SILENT // CROWD + 1)]
    time.sleep(1.0)
    for line in lines:
        line.close()


def crowds_at(port: int) -> dict[str, Callable[[], object]]:
    """Those who ask all the time, by what they do."""
    return {
        f"{CROWD} who ask whether the gate takes orders": lambda: exchanged(port, request_for("/healthz")),
        f"{CROWD} who guess the password of another officer": lambda: asked(port, "/state.json", ("OTTO", "wrong")),
        f"{CROWD} who ask in names that nobody has": lambda: asked(port, "/state.json", ("MALORY", "wrong")),
        f"{CROWD} who look as a reader": lambda: asked(port, "/state.json", RITA),
        f"{CROWD} who ask without a password": lambda: asked(port, "/"),
        f"{SILENT} who stay silent": lambda: stay_silent(port),
    }


def looks(port: int, points: Points, beside: str) -> None:
    """Looks of an officer, ten a second, and a kill form of another: each is answered in time."""
    failed, slowest = [], 0.0
    for _ in range(LOOKS):
        began = time.monotonic()
        try:
            answer = asked(port, "/state.json", OLGA)
            is_right = answer.status == 200 and answer.is_whole
        except OSError as error:
            answer, is_right = error, False
        slowest = max(slowest, time.monotonic() - began)
        if not is_right:
            failed.append(answer)
        time.sleep(0.1)
    is_right = not failed and slowest <= points.slack * LOOK_SECONDS
    points.look(f"beside {beside} {LOOKS} looks of an officer, the slowest in {1000 * slowest:.0f} ms", is_right, len(failed), failed[:3])


def crowds(gate: str, folder: Path, points: Points) -> None:
    """An officer beside each crowd."""
    with serving(gate, folder, POLICY) as server:
        answer = asked(server.page, "/state.json", OLGA)
        points.look("an officer alone looks", answer.status == 200, answer)
        for what, call in crowds_at(server.page).items():
            begun, over = Event(), Event()
            crowd = Process(target=over_and_over, args=(call, begun, over))
            crowd.start()
            begun.wait(5.0)
            time.sleep(0.3)
            looks(server.page, points, what)
            if "reader" in what:
                began = time.monotonic()
                answer = asked(server.page, "/state.json", OMAR)
                took = time.monotonic() - began
                is_right = answer.status == 200 and took <= points.slack * LOOK_SECONDS
                points.look(f"beside {what} the first look of another officer: {took:.2f} s", is_right, answer)
            token = asked(server.page, "/state.json", OLGA).body.partition(b'"token":"')[2][:32].decode()
            answer = asked(server.page, "/kill", OLGA, method="POST", body=f"account=ALFA&token={token}")
            points.look(f"beside {what} a kill", answer.body.startswith((b"the account is killed", b"the gate denied the kill")), answer)
            over.set()
            crowd.join()
