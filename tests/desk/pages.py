"""Runs of `gate desk --status-port`, beside the page of a server and beside pages that are none: what is told of each."""

import json
import socket
import threading
import time
from collections.abc import Callable, Iterator
from contextlib import contextmanager
from pathlib import Path

from desks import HOST, Server, free_port, serving  # beside this file

WHY = "gate: the server's page tells nothing: "
LATE = WHY + "no whole answer within 5 seconds"
NO_STATE = WHY + "its answer is not what the page of a gate tells"
KILLED_BOTH = ["ALFA killed: record {n} at {t}", "BETA killed: record {n} at {t}"]


def answer(body: bytes, status: str = "200 OK", length: int | None = None) -> bytes:
    """A response with this body, which says that it has so many bytes."""
    said = len(body) if length is None else length
    return f"HTTP/1.1 {status}\r\nContent-Length: {said}\r\nConnection: close\r\n\r\n".encode() + body


def say(what: bytes) -> Callable[[socket.socket], None]:
    """Says this, and hangs up."""
    return lambda line: line.sendall(what)


def say_nothing(line: socket.socket) -> None:
    """Leaves the line open and says nothing."""
    time.sleep(8)


def say_slowly(line: socket.socket) -> None:
    """Says a byte each tenth of a second."""
    for byte in answer(b" " * 1000):
        line.sendall(bytes([byte]))
        time.sleep(0.1)


def say_all_the_time(line: socket.socket) -> None:
    """Says more than is read."""
    line.sendall(answer(b"", length=1 << 40))
    while True:
        line.sendall(b" " * 65536)


@contextmanager
def page_that(does: Callable[[socket.socket], None]) -> Iterator[int]:
    """The port of a server that does this with each connection once it has heard a request."""

    def take() -> None:
        while True:
            try:
                line, _ = listener.accept()
            except OSError:
                return
            threading.Thread(target=serve, args=(line,), daemon=True).start()

    def serve(line: socket.socket) -> None:
        with line:
            try:
                line.recv(65536)
                does(line)
            except OSError:
                pass

    with socket.create_server((HOST, 0)) as listener:
        threading.Thread(target=take, daemon=True).start()
        yield listener.getsockname()[1]


HOSTILE: dict[str, tuple[Callable[[socket.socket], None], str]] = {
    "that hangs up": (say(b""), WHY + "its answer is cut short"),
    "that answers with another status": (say(answer(b"", "401 Unauthorized")), WHY + "it answers with status 401"),
    "that is none": (say(b"SSH-2.0-OpenSSH_9.9\r\n\r\n"), WHY + "its answer is no HTTP"),
    "whose answer is cut": (say(answer(b'{"accounts":[]}', length=99)), WHY + "its answer is cut short"),
    "whose answer is no JSON": (say(answer(b"<html>")), NO_STATE),
    "whose answer is no text": (say(answer(b'"\xff"')), NO_STATE),
    "without accounts": (say(answer(b'{"limits":[]}')), NO_STATE),
    "with an account that has no name": (say(answer(b'{"accounts":[{"account":"ALFA"},{}],"limits":[]}')), NO_STATE),
    "with a name that is too long": (say(answer(b'{"accounts":[{"account":"ALFABETAG"}],"limits":[]}')), NO_STATE),
    "whose answer nests": (say(answer(b"[" * 100_000)), NO_STATE),
    "that says nothing": (say_nothing, LATE),
    "that is slow": (say_slowly, LATE),
    "that says too much": (say_all_the_time, WHY + "its answer has more than 64 MB"),
}


def hostile_pages(server: Server, points) -> None:
    """No kill is sent where a page tells no accounts."""
    for what, (does, why) in HOSTILE.items():
        with page_that(does) as port:
            told = server.desk("OLGA", "kill", "--all", options=("--status-port", str(port)))
        points.told(f"`kill --all` beside a page {what}", told, 1, [], [why])
    nobody = ("--status-port", str(free_port()))
    told = server.desk("OLGA", "kill", "--all", options=nobody)
    points.told("`kill --all` where nobody is on the page's port", told, 1, [], [WHY + "{any}"])
    told = server.desk("OLGA", given="kill --all\nrestrict NONE TEST\n", options=nobody)
    wanted = ["gate: denied Q1: {any}"]
    points.told("of a line of standard input, the run goes on", told, 5, wanted, [WHY + "{any}"])
    told = server.desk("OLGA", given="kill --all\nhelp\n", options=nobody)
    points.look("with status 1", told.status == 1 and len(told.out) > 9, told)
    server.end()
    shown = server.read_audit("show", "--user", "OLGA")
    points.look("no kill was sent for any of them", not any(" kill " in line for line in shown), shown)


def kills_of_the_page(gate: str, folder: Path, points) -> None:
    """`kill --all` of the accounts that the server's page has."""
    port = free_port()
    page = ("--status-port", str(port))
    with serving(gate, folder, "sample.toml", *page) as server:
        for other in ("--accounts", "--policy"):
            told = server.desk("OLGA", "kill", "--all", options=(*page, other, "ALFA"))
            points.look(f"{other} beside --status-port", told.status == 2 and not told.out, told)
        told = server.desk("OLGA", "kill", "--all", options=page)
        points.told("`kill --all` of the page's accounts", told, 0, [*KILLED_BOTH, "2 accounts: 2 killed"])
        told = server.desk("OLGA", given="lift ALFA\nlift BETA\nkill --all\nlift ALFA\nkill --all\n", options=page)
        wanted = ["ALFA lifted: {any}", "BETA lifted: {any}", *KILLED_BOTH, "2 accounts: 2 killed", "ALFA lifted: {any}",
                  KILLED_BOTH[0], "gate: denied Q4: BETA is killed already", "2 accounts: 1 killed, 1 was killed already"]
        points.told("so twice on standard input, between other commands", told, 0, wanted)
        told = server.desk("OLGA", "kill", "--all", options=(*page, "--json"))
        summed = json.loads(told.out[-1]) if told.out else {}
        points.look("its line of JSON names no file", summed.get("killed_already") == 2 and "policy" not in summed, told)
    with serving(gate, folder) as server:
        hostile_pages(server, points)
