#!/usr/bin/env python3
# A small client of `gate serve`, to begin from. To try it, from the top of the repository:
#
#   crates/gate/out/gate serve --port 9001 &
#   export GATE_PASSWORD=banana
#   examples/client.py --port 9001 BOB 'enter S1 S 60 TEST 10.00' 'wait 1' logout
#   export GATE_PASSWORD=apple
#   examples/client.py --port 9001 ALICE 'enter T1 B 100 TEST 10.00' 'wait 1' \
#       'replace T1 T2 90 10.10' 'wait 1' 'cancel T2 0' 'wait 1' logout
#   examples/client.py --port 9001 --number 1 ALICE 'wait 1' logout
#   export GATE_PASSWORD=orange
#   examples/client.py --port 9001 OLGA 'kill K1 ALFA' 'wait 1' 'lift K2 ALFA'
#
# The third shows ALICE all her reports of the day again. Without commands behind the user it reads
# them from standard input, a line each. The password is the first line of --password-file, or the
# variable GATE_PASSWORD, or is asked for on the terminal: on the command line everybody on the machine
# could read it.
#
# The status is 0 where all that was asked for was done; 1 where the connection or the login failed; 2
# where a command can't be read; 3 where an order was rejected, or a command's answer is not OK.
"""A client that speaks OUCH 4.2 in SoupBinTCP 3.00 packets.

docs/PROTOCOL.md has the fields of each message, docs/CLIENTS.md what to mind.
"""

import argparse
import getpass
import inspect
import os
import select
import socket
import struct
import sys
import time
from collections import deque
from collections.abc import Callable, Iterator
from dataclasses import dataclass, field
from decimal import Decimal, InvalidOperation

HEARTBEAT_SECONDS = 1.0
SILENCE_SECONDS = 15.0
LINGER_SECONDS = 1.0
PRICE_UNIT = 10_000
STDIN = 0
DONE, FAILED, UNREADABLE, REFUSED = 0, 1, 2, 3
CLOSED = "the server closed the connection"
REFUSALS = {b"A": "not authorized", b"S": "session not available"}


class ClientError(Exception):
    """Something that ends the client, told in one line."""


# Fields of messages that are sent.


def text(word: str, width: int) -> bytes:
    """A word, padded with spaces to its field."""
    encoded = word.encode("ascii", "strict") if word.isascii() else b""
    if not 0 < len(encoded) <= width:
        raise ClientError(f"{word!r}: wanted 1 to {width} ASCII characters")
    return encoded.ljust(width)


def number(word: str, bits: int) -> int:
    """A number of decimal digits that fits so many bits."""
    if not (word.isascii() and word.isdigit() and int(word) < 2**bits):
        raise ClientError(f"{word!r}: wanted a number below 2^{bits}")
    return int(word)


def price_of(word: str) -> int:
    """A price in dollars, as 10.00, in ten-thousandths of a dollar."""
    try:
        units = Decimal(word) * PRICE_UNIT
    except InvalidOperation:
        raise ClientError(f"{word!r}: wanted a price, as 10.00") from None
    if not units.is_finite() or units != int(units) or not 0 <= units < 2**32:
        raise ClientError(f"{word!r}: wanted a price of at most four decimals")
    return int(units)


# Messages that are sent: orders of traders, and commands of officers.


def enter(token: str, side: str, shares: str, stock: str, price: str, tif: str = "99999") -> bytes:
    """Enter Order: firm blank, displayed, no sweep, no minimum quantity, no cross."""
    return struct.pack(
        ">c14scI8sII4scccIcc",
        b"O", text(token, 14), text(side, 1), number(shares, 32), text(stock, 8),
        price_of(price), number(tif, 32), b"    ", b"Y", b"A", b"N", 0, b"N", b"N",
    )


def replace(old: str, new: str, shares: str, price: str, tif: str = "99999") -> bytes:
    """Replace Order: shares is the size of the whole chain, what is executed of it included."""
    return struct.pack(
        ">c14s14sIIIccI",
        b"U", text(old, 14), text(new, 14), number(shares, 32), price_of(price),
        number(tif, 32), b"Y", b"N", 0,
    )


def cancel(token: str, shares: str = "0") -> bytes:
    """Cancel Order: shares is the new size, what is executed of it included; 0 ends it."""
    return struct.pack(">c14sI", b"X", text(token, 14), number(shares, 32))


def kill(tag: str, account: str) -> bytes:
    """An officer's Kill."""
    return b"K" + text(tag, 14) + text(account, 8)


def lift(tag: str, account: str) -> bytes:
    """An officer's Lift."""
    return b"L" + text(tag, 14) + text(account, 8)


def limit(tag: str, rule: str, value: str) -> bytes:
    """An officer's Set Limit."""
    return b"M" + text(tag, 14) + text(rule, 8) + number(value, 64).to_bytes(8, "big")


def restrict(tag: str, rule: str, stock: str) -> bytes:
    """An officer's Restrict."""
    return b"R" + text(tag, 14) + text(rule, 8) + text(stock, 8)


def unrestrict(tag: str, rule: str, stock: str) -> bytes:
    """An officer's Unrestrict."""
    return b"N" + text(tag, 14) + text(rule, 8) + text(stock, 8)


def grant(tag: str, reader: str, account: str) -> bytes:
    """An officer's Grant."""
    return b"G" + text(tag, 14) + text(reader, 6) + text(account, 8)


def revoke(tag: str, reader: str, account: str) -> bytes:
    """An officer's Revoke."""
    return b"V" + text(tag, 14) + text(reader, 6) + text(account, 8)


def close(tag: str) -> bytes:
    """An officer's Close Day."""
    return b"Z" + text(tag, 14)


MESSAGES: dict[str, Callable[..., bytes]] = {
    form.__name__: form
    for form in (
        enter, replace, cancel, kill, lift, limit, restrict, unrestrict, grant, revoke, close
    )
}


def message_of(words: list[str]) -> bytes:
    """The message that a command asks for."""
    name, *rest = words
    if name not in MESSAGES:
        raise ClientError(f"{name!r}: wanted {', '.join(MESSAGES)}, wait or logout")
    form = MESSAGES[name]
    try:
        inspect.signature(form).bind(*rest)
    except TypeError:
        raise ClientError(f"wanted: {usage_of(form)}") from None
    return form(*rest)


def usage_of(form: Callable[..., bytes]) -> str:
    """How a command is written."""
    words = [
        name.upper() if word.default is word.empty else f"[{name.upper()}]"
        for name, word in inspect.signature(form).parameters.items()
    ]
    return " ".join([form.__name__, *words])


# Messages that are received.


@dataclass(frozen=True)
class Layout:
    """How a message is laid out behind its type and its timestamp, and how it is shown."""

    fields: str
    shown: str

    def show(self, message: bytes) -> str:
        """The message as a line; {n:$} is the n-th field as a price."""
        timestamp, *values = struct.unpack(">xQ" + self.fields, message)
        words = [Shown(value) for value in values]
        return f"{clock(timestamp)} {self.shown.format(*words)}"


class Shown:
    """A field's value, as it is printed."""

    def __init__(self, value: int | bytes) -> None:
        self.value = value

    def __format__(self, spec: str) -> str:
        if isinstance(self.value, bytes):
            return self.value.decode("ascii", "backslashreplace").rstrip()
        return dollars(self.value) if spec == "$" else str(self.value)


def dollars(units: int) -> str:
    """A price, with two decimals or with all four that it needs."""
    price = f"{units // PRICE_UNIT}.{units % PRICE_UNIT:04d}"
    return price[:-2] if price.endswith("00") else price


def clock(timestamp: int) -> str:
    """Nanoseconds past midnight as a time, whose hours go on past 24."""
    seconds, nanos = divmod(timestamp, 1_000_000_000)
    minutes, second = divmod(seconds, 60)
    hour, minute = divmod(minutes, 60)
    return f"{hour:02d}:{minute:02d}:{second:02d}.{nanos:09d}"


ORDER = "cI8sII4scQccIcc"
LAYOUTS: dict[tuple[bytes, int], Layout] = {
    (b"A", 66): Layout(
        "14s" + ORDER + "c", "Accepted {0} {1} {2} {3} {4:$} tif {5} firm {6} order {8}"
    ),
    (b"U", 80): Layout(
        "14s" + ORDER + "14sc",
        "Replaced {14} by {0} {1} {2} {3} {4:$} tif {5} firm {6} order {8}",
    ),
    (b"J", 24): Layout("14sc", "Rejected {0} reason {1}"),
    (b"C", 28): Layout("14sIc", "Canceled {0} by {1} reason {2}"),
    (b"E", 40): Layout("14sIIcQ", "Executed {0} {1} at {2:$} flag {3} match {4}"),
    (b"E", 49): Layout(
        "14sIIcQ8sc", "Drop copy {0} {1} at {2:$} flag {3} match {4} account {5} side {6}"
    ),
    (b"S", 10): Layout("c", "System Event {0}"),
    (b"Q", 34): Layout("14sc2sQ", "Answer {0} to {1}: {2} record {3}"),
}


def tokens_of(message: bytes) -> set[bytes]:
    """The tokens that a message names: one, or a Replace Order's two."""
    return {message[1:15], message[15:29]} if message[:1] == b"U" else {message[1:15]}


def is_refusal(message: bytes, asked: set[bytes]) -> bool:
    """Whether a message rejects an order of one of these tokens, or answers such a command with other than OK."""
    refuses = message[:1] == b"J" or message[:1] == b"Q" and message[24:26] != b"OK"
    return refuses and message[9:23] in asked


def show(message: bytes) -> str:
    """A message as a line."""
    layout = LAYOUTS.get((message[:1], len(message)))
    return layout.show(message) if layout else f"unknown message {message.hex()}"


# Packets.


def packet(kind: bytes, payload: bytes = b"") -> bytes:
    """A SoupBinTCP packet: its length counts the type and the payload."""
    return struct.pack(">Hc", len(payload) + 1, kind) + payload


def login_request(user: str, password: str, wanted: int) -> bytes:
    """A Login Request for the current session, from this report on."""
    payload = text(user, 6) + text(password, 10) + b" " * 10 + b"%20d" % wanted
    return packet(b"L", payload)


@dataclass
class Packets:
    """Puts packets together from whatever pieces a socket gives."""

    held: bytearray = field(default_factory=bytearray)

    def take(self, piece: bytes) -> Iterator[tuple[bytes, bytes]]:
        """The packets that are whole now: type and payload of each."""
        self.held += piece
        while len(self.held) >= 2:
            end = 2 + int.from_bytes(self.held[:2], "big")
            if len(self.held) < end:
                return
            whole = bytes(self.held[2:end])
            del self.held[:end]
            yield whole[:1], whole[1:]


# Commands.


class Commands:
    """Commands to be given in turn, from the arguments or from standard input."""

    def __init__(self, given: list[str]) -> None:
        self.lines = deque(given)
        self.more = not given
        self.held = b""
        self.not_before = 0.0

    def wants_input(self) -> bool:
        """Whether a line of standard input is to be read."""
        return self.more and not self.lines

    def read(self) -> None:
        """Reads what is there of standard input."""
        piece = os.read(STDIN, 4096)
        self.more = bool(piece)
        *lines, self.held = (self.held + (piece or b"\n")).split(b"\n")
        self.lines.extend(line.decode("utf-8", "replace") for line in lines)

    def wait(self, seconds: str) -> None:
        """Gives no command for so many seconds."""
        try:
            self.not_before = time.monotonic() + float(seconds)
        except ValueError:
            raise ClientError(f"{seconds!r}: wanted seconds") from None

    def next(self) -> list[str] | None:
        """The words of the next command, if one is to be given now."""
        while self.lines and time.monotonic() >= self.not_before:
            words = self.lines.popleft().split()
            if words and not words[0].startswith("#"):
                return words
        return None

    def are_done(self) -> bool:
        """Whether there are no more, and the last wait is over."""
        return not (self.lines or self.more) and time.monotonic() >= self.not_before


# The session.


class Client:
    """A connection, from its login to its end."""

    def __init__(self, line: socket.socket, commands: Commands) -> None:
        self.line = line
        self.commands = commands
        self.packets = Packets()
        self.sent_at = self.heard_at = time.monotonic()
        self.next_number: int | None = None
        self.leaving = False
        self.asked: set[bytes] = set()
        self.status = DONE

    def run(self, login: bytes) -> None:
        """Logs in, gives the commands, and shows what comes, until the server closes."""
        self.send(login)
        while self.listen():
            self.beat()
            if self.next_number is not None and not self.leaving:
                self.give_commands()

    def send(self, data: bytes) -> None:
        """Sends a whole packet."""
        try:
            self.line.sendall(data)
        except (BrokenPipeError, ConnectionResetError):
            raise ClientError(CLOSED) from None
        self.sent_at = time.monotonic()

    def beat(self) -> None:
        """Sends a heartbeat where nothing was sent for a second, and minds the server's silence."""
        now = time.monotonic()
        if now - self.heard_at >= SILENCE_SECONDS:
            raise ClientError("the server is silent: nothing came for 15 seconds")
        if now - self.sent_at >= HEARTBEAT_SECONDS and not self.leaving:
            self.send(packet(b"R"))

    def listen(self) -> bool:
        """Takes what comes within a tenth of a second. False once the server has closed."""
        sources: list[socket.socket | int] = [self.line]
        if self.commands.wants_input():
            sources.append(STDIN)
        ready, _, _ = select.select(sources, [], [], 0.1)
        if STDIN in ready:
            self.commands.read()
        if self.line not in ready:
            return True
        try:
            piece = self.line.recv(65536)
        except ConnectionResetError:
            piece = b""
        if not piece:
            return self.end()
        self.heard_at = time.monotonic()
        for kind, payload in self.packets.take(piece):
            self.hear(kind, payload)
        return True

    def end(self) -> bool:
        """The server has closed: that is an error where nobody asked for it."""
        if not self.leaving:
            raise ClientError(CLOSED)
        print("closed", flush=True)
        return False

    def hear(self, kind: bytes, payload: bytes) -> None:
        """Shows a packet, and counts the reports."""
        match kind:
            case b"A":
                self.next_number = int(payload[10:])
                session = payload[:10].decode("ascii").strip()
                print(f"Login Accepted session {session} next {self.next_number}", flush=True)
            case b"J":
                reason = REFUSALS.get(payload, "of no known reason")
                raise ClientError(f"Login Rejected {payload.decode('ascii', 'replace')}, {reason}")
            case b"S":
                print(f"{self.next_number} {show(payload)}", flush=True)
                if is_refusal(payload, self.asked):
                    self.status = self.status or REFUSED
                self.next_number = (self.next_number or 0) + 1
            case b"Z":
                print("End of Session", flush=True)
                self.leaving = True
            case b"H":
                pass
            case _:
                print(f"packet of type {kind!r}: {payload.hex()}", flush=True)

    def give_commands(self) -> None:
        """Gives the commands that are due; logs out behind the last."""
        while not self.leaving and (words := self.commands.next()):
            try:
                self.give(words)
            except ClientError as error:
                print(f"client: {error}", file=sys.stderr, flush=True)
                self.status = UNREADABLE
        if not self.leaving and self.commands.are_done():
            self.commands.lines.append("logout")
            self.commands.wait(str(LINGER_SECONDS))

    def give(self, words: list[str]) -> None:
        """Gives a command."""
        match words:
            case ["logout"]:
                self.leaving = True
                self.send(packet(b"O"))
            case ["wait", seconds]:
                self.commands.wait(seconds)
            case _:
                message = message_of(words)
                self.asked |= tokens_of(message)
                self.send(packet(b"U", message))


def arguments() -> argparse.Namespace:
    """The words of the command line."""
    forms = "\n".join(f"  {usage_of(form)}" for form in MESSAGES.values())
    parser = argparse.ArgumentParser(
        description="A client of `gate serve`: logs in, gives commands, shows what comes.",
        epilog=f"commands:\n{forms}\n  wait SECONDS\n  logout\n\n"
        "PRICE is in dollars, as 10.00. Behind the last command it waits a second and logs out.",
        formatter_class=argparse.RawDescriptionHelpFormatter,
    )
    parser.add_argument("--host", default="127.0.0.1", help="where the gate is (127.0.0.1)")
    parser.add_argument("--port", type=int, required=True, help="the gate's port")
    parser.add_argument(
        "--number", type=int, default=1, help="the first report wanted; 0 is the last one (1)"
    )
    parser.add_argument("--password-file", help="a file whose first line is the password")
    parser.add_argument("user")
    parser.add_argument(
        "command", nargs="*", help="a command, in quotes; without any, lines of standard input"
    )
    return parser.parse_args()


def password_of(asked: argparse.Namespace) -> str:
    """The password: the first line of the file, or the variable, or what is typed."""
    if asked.password_file:
        with open(asked.password_file, encoding="ascii", errors="replace") as lines:
            return lines.readline().rstrip("\r\n")
    if "GATE_PASSWORD" in os.environ:
        return os.environ["GATE_PASSWORD"]
    return getpass.getpass(f"Password of {asked.user}: ")


def login_of(asked: argparse.Namespace) -> bytes:
    """The login; what is wrong with a password is told without it."""
    password = password_of(asked)
    if not (password.isascii() and 0 < len(password) <= 10):
        raise ClientError("wanted a password of 1 to 10 ASCII characters")
    return login_request(asked.user, password, asked.number)


def main() -> int:
    """Runs the client. Answers its status."""
    asked = arguments()
    try:
        login = login_of(asked)
        with socket.create_connection((asked.host, asked.port)) as line:
            line.setsockopt(socket.IPPROTO_TCP, socket.TCP_NODELAY, 1)
            client = Client(line, Commands(asked.command))
            client.run(login)
            return client.status
    except (ClientError, OSError, EOFError) as error:
        print(f"client: {error}", file=sys.stderr)
        return FAILED
    except KeyboardInterrupt:
        return 130


if __name__ == "__main__":
    sys.exit(main())
