"""Servers and runs of `gate desk`, for what shows how it works."""

import os
import queue
import re
import signal
import socket
import subprocess
import sys
import threading
import time
from collections.abc import Iterator
from contextlib import contextmanager
from dataclasses import dataclass
from pathlib import Path

HOST = "127.0.0.1"
POLICIES = Path(__file__).resolve().parents[2] / "examples" / "policies"
FLOOD = Path(__file__).resolve().parent / "flood.py"
PASSWORDS = {
    "ALICE": "apple", "BOB": "banana", "OLGA": "orange", "OTTO": "olive", "RITA": "raisin",
}
PATIENCE_SECONDS = 10
# What stands in a wanted line for a number, for a moment, and for a token or a tag.
WILD = {"{n}": r"(\d+)", "{t}": r"\d\d+:\d\d:\d\d\.\d{9}", "{token}": r"([!-~]+)", "{any}": r".+"}


def pattern(wanted: str) -> str:
    """The regular expression of a wanted line."""
    found = re.escape(wanted)
    for name, meaning in WILD.items():
        found = found.replace(re.escape(name), meaning)
    return found


def are_lines(lines: list[str], wanted: list[str]) -> bool:
    """Whether these are the lines that are wanted, one by one."""
    return len(lines) == len(wanted) and all(
        re.fullmatch(pattern(form), line) for line, form in zip(lines, wanted)
    )


def free_port() -> int:
    """A port that nobody listens on."""
    with socket.create_server((HOST, 0)) as line:
        return line.getsockname()[1]


@dataclass
class Told:
    """What a run told: its status, its lines on both outputs, and how long it took."""

    status: int
    out: list[str]
    err: list[str]
    seconds: float

    def is_as(self, status: int, out: list[str] | None = None, err: list[str] | None = None) -> bool:
        """Whether it ended with the status, and told these lines and no other."""
        return self.status == status and are_lines(self.out, out or []) and are_lines(self.err, err or [])

    def number(self, wanted: str) -> int:
        """The number in its first line, which is to be as wanted; -1 where it is not."""
        found = re.fullmatch(pattern(wanted), self.out[0]) if self.out else None
        return int(found[1]) if found else -1


class Session:
    """A run of `gate desk` that is told its commands as it goes; both outputs are heard as one."""

    def __init__(self, words: list[str], password: str) -> None:
        self.run = subprocess.Popen(
            words, stdin=subprocess.PIPE, stdout=subprocess.PIPE, stderr=subprocess.STDOUT,
            env={**os.environ, "GATE_PASSWORD": password}, text=True, bufsize=1,
        )
        self.lines: queue.Queue[str] = queue.Queue()
        self.heard: list[str] = []
        threading.Thread(target=self.listen, daemon=True).start()

    def listen(self) -> None:
        """Takes each line as it comes."""
        for line in self.run.stdout:
            self.lines.put(line.rstrip("\n"))

    def says(self, line: str) -> None:
        """Gives it a line."""
        self.run.stdin.write(line + "\n")
        self.run.stdin.flush()

    def hears(self, wanted: str, seconds: float = PATIENCE_SECONDS) -> list[str] | None:
        """The numbers and tokens of the next line that is as wanted; None where none comes in time."""
        until = time.monotonic() + seconds
        while (rest := until - time.monotonic()) > 0:
            try:
                self.heard.append(self.lines.get(timeout=rest))
            except queue.Empty:
                break
            if found := re.fullmatch(pattern(wanted), self.heard[-1]):
                return list(found.groups())
        return None

    def ends(self) -> int:
        """Ends its standard input, and answers its status."""
        self.run.stdin.close()
        return self.run.wait(PATIENCE_SECONDS)


class Server:
    """`gate serve` on a port of its own, under a policy, until it is ended."""

    def __init__(self, gate: str, folder: Path, policy: Path, *words: str, port: int = 0) -> None:
        self.gate = gate
        self.policy = policy
        self.port = port or free_port()
        self.audit = folder / f"audit-{self.port}"
        self.words = [gate, "serve", "--port", str(self.port), "--policy", str(policy), "--until-input-ends", *words]
        self.start("--audit", str(self.audit))

    def start(self, *more: str) -> None:
        """Starts it, and waits until it listens."""
        self.run = subprocess.Popen(
            [*self.words, *more], stdin=subprocess.PIPE, stdout=subprocess.PIPE, stderr=subprocess.DEVNULL, text=True
        )
        self.run.stdout.readline()

    def crash(self) -> None:
        """Kills it where it stands."""
        self.run.send_signal(signal.SIGKILL)
        self.run.wait(PATIENCE_SECONDS)

    def end(self) -> None:
        """Ends it in order; its audit is written then."""
        self.run.stdin.close()
        self.run.wait(3 * PATIENCE_SECONDS)

    def call(self, user: str, *options: str) -> list[str]:
        """The call of `gate desk` for this user."""
        return [self.gate, "desk", "--port", str(self.port), "--user", user, *options]

    def desk(self, user: str, *words: str, options: tuple[str, ...] = (), **how: str | None) -> Told:
        """What a run of `gate desk` tells: `password` for the user's own, `given` on standard input."""
        password = how.get("password", PASSWORDS[user])
        surroundings = {name: value for name, value in os.environ.items() if name != "GATE_PASSWORD"}
        if password is not None:
            surroundings["GATE_PASSWORD"] = password
        began = time.monotonic()
        done = subprocess.run(
            [*self.call(user, *options), *words], input=how.get("given", ""), capture_output=True, text=True,
            timeout=2 * PATIENCE_SECONDS, env=surroundings, check=False,
        )
        seconds = time.monotonic() - began
        return Told(done.returncode, done.stdout.splitlines(), done.stderr.splitlines(), seconds)

    @contextmanager
    def session(self, user: str, *options: str) -> Iterator[Session]:
        """A run that is told its commands as it goes."""
        session = Session(self.call(user, *options), PASSWORDS[user])
        try:
            yield session
        finally:
            session.run.kill()
            session.run.wait(PATIENCE_SECONDS)

    def read_audit(self, command: str, *words: str) -> list[str]:
        """What `gate check` or `gate show` prints of the audit."""
        call = [self.gate, command, str(self.audit), "--policy", str(self.policy), *words]
        return subprocess.run(call, capture_output=True, text=True, check=False).stdout.splitlines()


@contextmanager
def serving(gate: str, folder: Path, policy: str | Path = "sample.toml", *words: str) -> Iterator[Server]:
    """A server under a policy, one of examples/policies where it is a name."""
    server = Server(gate, folder, POLICIES / policy, *words)
    try:
        yield server
    finally:
        server.run.kill()
        server.run.wait(PATIENCE_SECONDS)


@contextmanager
def flooding(port: int, traders: int) -> Iterator[None]:
    """So many traders who enter orders all the time, in a process of their own."""
    words = [sys.executable, str(FLOOD), str(port), str(traders)]
    with subprocess.Popen(words, stdin=subprocess.PIPE, stdout=subprocess.PIPE, text=True) as flood:
        try:
            if flood.stdout.readline() != "flooding\n":
                raise ConnectionError("the traders can't flood")
            yield
        finally:
            flood.stdin.close()
