#!/usr/bin/env python3
"""How `gate serve` is started, and when it ends by itself.

It is started with no standard input, with a closed one, in a session of its own, under nohup and in the background of a
terminal: each time the first line on standard output is `listening P`, a client who then comes is logged in and out, and
the server ends behind him with status 0. Without `--connections` it ends once 64 connections were taken and have ended,
and not before. With `--until-input-ends` it takes more, and ends with its standard input; with `--until` when it is that
time, and with `--stop-file` once there is such a file: each time a user who is on is logged out, the audit is written and
legal, the status is 0, and the log says why. Where it is allowed too few threads it says `listening P` not before it has
those that it needs: it ends with status 1 without that line, or serves. Where it is to wait for a file that can never be,
it is not started. Run as

  tests/starts.py [GATE]

GATE: the built program; where none is named, crates/gate/out/gate of this repository.
"""

import os
import pty
import resource
import shutil
import signal
import socket
import subprocess
import sys
import tempfile
import time
from collections.abc import Callable
from pathlib import Path

TOP = Path(__file__).resolve().parents[1]
GATE = TOP / "crates" / "gate" / "out" / "gate"
PATIENCE_SECONDS = 10
A_WHILE_SECONDS = 0.3
LOGIN = b"\x00\x2fL" + b"ALICE apple     " + b" " * 10 + b"%20d" % 1
LOGIN_ACCEPTED = b"\x00\x1fA" + b" " * 4 + b"GATE01" + b" " * 19 + b"1"
LOGOUT = b"\x00\x01O"
DEFAULT_CONNECTIONS = 64
# How far off a time of day is at which a server is to end: farther than a busy machine needs until all have come.
TIME_OF_DAY_SECONDS = 8
# The user whose threads are bounded, and how many he is allowed at the most.
NOBODY = 65534
MOST_THREADS = 12

# What stands before the program's words, by how it is started.
STARTS = {
    "no standard input": ["bash", "-c", 'exec "$@" < /dev/null', "bash"],
    "a closed standard input": ["bash", "-c", 'exec "$@" <&-', "bash"],
    "a session of its own": ["setsid"],
    "under nohup": ["nohup"],
}
# What runs the program's words in the background, as a shell at a terminal does.
BACKGROUND = ["bash", "-c", 'set -m; "$@" & wait $!', "bash"]


def free_port() -> int:
    """A port that nobody listens on."""
    with socket.create_server(("127.0.0.1", 0)) as line:
        return line.getsockname()[1]


def log_in_and_out(port: int) -> bool:
    """Whether a client is logged in and out."""
    with socket.create_connection(("127.0.0.1", port), timeout=PATIENCE_SECONDS) as line:
        line.sendall(LOGIN)
        heard = line.recv(len(LOGIN_ACCEPTED), socket.MSG_WAITALL)
        line.sendall(LOGOUT)
        while line.recv(4096):
            pass
    return heard == LOGIN_ACCEPTED


def come_and_go(port: int, times: int) -> None:
    """So many connections, each of which its peer closes at once."""
    for _ in range(times):
        with socket.create_connection(("127.0.0.1", port), timeout=PATIENCE_SECONDS) as line:
            line.shutdown(socket.SHUT_WR)
            while line.recv(4096):
                pass


def started(words: list[str], port: int, given: object) -> tuple[subprocess.Popen, bool]:
    """A server, and whether its first line is the one that it is to be."""
    words = [*words, "--port", str(port)]
    server = subprocess.Popen(words, stdin=given, stdout=subprocess.PIPE, stderr=subprocess.DEVNULL)
    return server, server.stdout.readline() == b"listening %d\n" % port


def serves_one(before: list[str], gate: str) -> bool:
    """Whether a server that is started so serves a client, and ends behind him."""
    port = free_port()
    server, has_told = started([*before, gate, "serve", "--connections", "1"], port, subprocess.DEVNULL)
    with server:
        return has_told and log_in_and_out(port) and server.wait(PATIENCE_SECONDS) == 0


def serves_in_background(gate: str) -> bool:
    """Whether a server in the background of a terminal serves a client, and ends behind him."""
    port = free_port()
    words = [*BACKGROUND, gate, "serve", "--connections", "1", "--port", str(port)]
    child, terminal = pty.fork()
    if child == 0:
        os.execvp(words[0], words)
    has_told = os.read(terminal, 4096) == b"listening %d\r\n" % port
    is_served = has_told and log_in_and_out(port)
    _, status = os.waitpid(child, 0)
    os.close(terminal)
    return is_served and os.waitstatus_to_exitcode(status) == 0


def goes_on(server: subprocess.Popen) -> bool:
    """Whether a server goes on for a while."""
    time.sleep(A_WHILE_SECONDS)
    return server.poll() is None


def ends_behind_the_default(gate: str) -> bool:
    """Whether a server ends behind as many connections as are taken where nothing is said, and not before."""
    port = free_port()
    server, has_told = started([gate, "serve"], port, subprocess.DEVNULL)
    with server:
        come_and_go(port, DEFAULT_CONNECTIONS - 1)
        is_there = has_told and goes_on(server)
        come_and_go(port, 1)
        return is_there and server.wait(PATIENCE_SECONDS) == 0


def ends_with_its_input(gate: str) -> bool:
    """Whether a server that is to end with its standard input does, and not before, however many came."""
    port = free_port()
    server, has_told = started([gate, "serve", "--until-input-ends"], port, subprocess.PIPE)
    with server:
        come_and_go(port, DEFAULT_CONNECTIONS + 1)
        is_there = has_told and goes_on(server)
        server.stdin.close()
        return is_there and server.wait(PATIENCE_SECONDS) == 0


def ends_for(gate: str, folder: Path, words: list[str], bring_on: Callable[[], None], why: str) -> bool:
    """Whether a server that is to end so ends once that is brought on, and not before: in order, and it says why."""
    port, audit = free_port(), folder / "audit"
    words = [gate, "serve", "--port", str(port), "--audit", str(audit), *words]
    server = subprocess.Popen(
        words, stdin=subprocess.DEVNULL, stdout=subprocess.PIPE, stderr=subprocess.PIPE, text=True
    )
    with server:
        is_there = server.stdout.readline() == f"listening {port}\n"
        come_and_go(port, DEFAULT_CONNECTIONS + 1)
        with socket.create_connection(("127.0.0.1", port), timeout=PATIENCE_SECONDS) as line:
            line.sendall(LOGIN)
            is_on = line.recv(len(LOGIN_ACCEPTED), socket.MSG_WAITALL) == LOGIN_ACCEPTED
            is_there = is_there and is_on and goes_on(server)
            bring_on()
            is_ended = server.wait(PATIENCE_SECONDS) == 0
        told = server.stderr.read()
    shown = subprocess.run([gate, "show", audit], capture_output=True, text=True, check=False).stdout.splitlines()
    checked = subprocess.run([gate, "check", audit], capture_output=True, text=True, check=False).stdout
    is_out = len(shown) == 2 and " ALICE logout # " in shown[1] and checked == "legal 2\n"
    return is_there and is_ended and is_out and told == f"gate: the server ends: {why}\n"


def serves_or_tells_nothing(gate: str, folder: Path, threads: int) -> bool | None:
    """Whether a server that is allowed so many threads serves; `None` where it tells that it listens, and does not."""
    port, stop = free_port(), folder / f"stop-{threads}"
    words = ["setpriv", "--reuid", str(NOBODY), "--clear-groups", "prlimit", f"--nproc={threads}"]
    words += [gate, "serve", "--port", str(port), "--stop-file", str(stop)]
    server = subprocess.Popen(
        words, stdin=subprocess.DEVNULL, stdout=subprocess.PIPE, stderr=subprocess.PIPE, text=True
    )
    with server:
        told = server.stdout.readline()
        if told == "":
            is_as_wanted = server.wait(PATIENCE_SECONDS) == 1 and server.stderr.read() == "gate: out of memory\n"
            return False if is_as_wanted else None
        come_and_go(port, 1)
        stop.touch()
        is_as_wanted = told == f"listening {port}\n" and server.wait(PATIENCE_SECONDS) == 0
        return True if is_as_wanted else None


def tells_that_it_listens_once_it_does(gate: str) -> bool:
    """Whether servers that are allowed few threads tell that they listen exactly where they serve."""
    if os.geteuid() != 0 or not shutil.which("setpriv") or not shutil.which("prlimit"):
        print("with few threads: not tried: it wants root, setpriv and prlimit")
        return True
    with tempfile.TemporaryDirectory() as name:
        folder = Path(name)
        folder.chmod(0o777)
        copy = shutil.copy(gate, folder / "gate")
        seen = {serves_or_tells_nothing(copy, folder, threads) for threads in range(1, MOST_THREADS + 1)}
    return seen == {False, True}


def page_gives_way(gate: str) -> bool:
    """Whether a server that may open few descriptors serves the trading port, and the page only where there are enough for
    both; what is not served is told."""
    is_right = True
    for limit, has_page in ((20, False), (74, False), (76, True)):
        port, page = free_port(), free_port()
        words = [gate, "serve", "--connections", "1", "--port", str(port), "--status-port", str(page)]
        with subprocess.Popen(
            words, stdin=subprocess.DEVNULL, stdout=subprocess.PIPE, stderr=subprocess.PIPE,
            preexec_fn=lambda limit=limit: resource.setrlimit(resource.RLIMIT_NOFILE, (limit, limit)),
        ) as server:
            is_right &= server.stdout.readline() == b"listening %d\n" % port
            silent = [socket.create_connection(("127.0.0.1", page)) for _ in range(40)] if has_page else []
            with socket.socket() as line:
                is_right &= (line.connect_ex(("127.0.0.1", page)) == 0) == has_page
            is_right &= log_in_and_out(port)
            for line in silent:
                line.close()
            is_right &= server.wait(PATIENCE_SECONDS) == 0
            told = server.stderr.read()
            is_right &= (b"and the page is not\n" in told) != has_page and b"%d descriptors may be open" % limit in told
    return is_right


def ends_at_a_time(gate: str) -> bool:
    """Whether a server ends at the time of day that it is told."""
    at = time.strftime("%H:%M:%S", time.gmtime(time.time() + TIME_OF_DAY_SECONDS))
    with tempfile.TemporaryDirectory() as folder:
        return ends_for(gate, Path(folder), ["--until", at], lambda: None, f"it is {at}")


def ends_with_a_file(gate: str) -> bool:
    """Whether a server ends once there is the file that it is told; the time of day is another day's."""
    at = time.strftime("%H:%M", time.gmtime(time.time() - 60))
    with tempfile.TemporaryDirectory() as folder:
        stop = Path(folder) / "stop"
        words = ["--stop-file", str(stop), "--until", at]
        return ends_for(gate, Path(folder), words, stop.touch, f"there is the file {stop}")


def refuses_what_can_never_be(gate: str) -> bool:
    """Whether a server is not started that waits for a file that can never be, and one is whose file's folder is there."""
    with tempfile.TemporaryDirectory() as name:
        folder = Path(name)
        file, journal, port = folder / "file", folder / "journal", str(free_port())
        file.touch()
        wanted = {
            "": "a file has a name", str(folder / "nowhere" / "stop"): "No such file or directory (os error 2)",
            str(file / "stop"): "Not a directory (os error 20)", "x" * 5_000: "File name too long (os error 36)",
            str(folder / ("x" * 300)): "File name too long (os error 36)",
        }
        are_right = True
        for stop, why in wanted.items():
            for words in (["--stop-file", stop], ["--standby", str(journal), "--takeover-file", stop]):
                call = [gate, "serve", "--port", port, *words]
                told = subprocess.run(
                    call, stdin=subprocess.DEVNULL, capture_output=True, text=True, timeout=PATIENCE_SECONDS, check=False
                )
                is_told = told.stderr.startswith("gate: read failed\n") and told.stderr.endswith(f": {why}\n")
                are_right &= told.returncode == 1 and told.stdout == "" and is_told and not journal.exists()
    return are_right


def main() -> int:
    """Starts them all. Answers the status: 1 where one of them does something else."""
    gate = sys.argv[1] if len(sys.argv) > 1 else str(GATE)
    runs: dict[str, Callable[[], bool]] = {
        name: lambda before=before: serves_one(before, gate) for name, before in STARTS.items()
    }
    runs["in the background of a terminal"] = lambda: serves_in_background(gate)
    runs["without a number of connections"] = lambda: ends_behind_the_default(gate)
    runs["with few threads"] = lambda: tells_that_it_listens_once_it_does(gate)
    runs["until its input ends"] = lambda: ends_with_its_input(gate)
    runs["with few descriptors"] = lambda: page_gives_way(gate)
    runs["until a time of day"] = lambda: ends_at_a_time(gate)
    runs["until there is a file"] = lambda: ends_with_a_file(gate)
    runs["until there is a file that can never be"] = lambda: refuses_what_can_never_be(gate)
    are_right = True
    for what, run in runs.items():
        signal.alarm(3 * PATIENCE_SECONDS)
        is_right = run()
        are_right &= is_right
        print(f"{what}: {'as wanted' if is_right else 'NOT AS WANTED'}", flush=True)
    return 0 if are_right else 1


if __name__ == "__main__":
    sys.exit(main())
