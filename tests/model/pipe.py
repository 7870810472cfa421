"""Serves one connection: client packets in, server packets out (docs/OPERATIONS.md, "`gate pipe`")."""

from dataclasses import dataclass, field

from day import Day, Granted
from messages import Login, Logout, read_payload
from soup import LoginRequest, Packet, login_accepted, login_rejected, packet, packets
from state import bare

LINE = 1
"""The line of the one connection."""


@dataclass
class Pipe:
    """A connection: who is logged in, what was sent, and the number of his reports that were."""

    day: Day
    user: bytes | None = None
    reports: int = 0
    moment: int = 0
    is_over: bool = False
    sent: list[bytes] = field(default_factory=list)

    def take(self, given: Packet) -> None:
        """Answers a packet. The first has moment 1, and each further one the next."""
        self.moment += 1
        match given.type, self.user:
            case b"R" | b"+", _:
                pass
            case b"L", None:
                self.log_in(LoginRequest.read(given.payload))
            case b"U", bytes():
                self.day.step(LINE, self.user, self.moment, read_payload(given.payload))
            case _:
                self.log_out()
        if not self.is_over:
            while self.day.match_one(self.moment) is not None:
                pass
            self.send_reports()

    def log_in(self, asked: LoginRequest) -> None:
        """Answers a Login Request: a denied one ends the session."""
        policy = self.day.state.policy
        user = bare(asked.user)
        is_session = asked.session.strip(b" ") in (b"", policy.session)
        login = Login(policy.is_password(user, bare(asked.password)), is_session, asked.wanted)
        record = self.day.step(LINE, user, self.moment, login)
        if record.verdict == Granted():
            self.user = user
            number = asked.wanted or max(1, len(self.day.state.streams[user]))
            self.reports = number - 1
            self.sent.append(login_accepted(policy.session, number))
        else:
            self.sent.append(login_rejected(b"S" if record.verdict.rule == b"L3" else b"A"))
            self.is_over = True

    def send_reports(self) -> None:
        """Sends all reports that are there; behind the last one of a closed day the session ends."""
        if self.user is not None:
            waiting = self.day.state.streams[self.user][self.reports:]
            self.reports += len(waiting)
            self.sent += [packet(b"S", report) for report in waiting]
            if self.day.state.is_closed:
                self.sent.append(packet(b"Z"))
                self.log_out()

    def log_out(self) -> None:
        """Ends the session. A user who is on is logged out, at the moment of the last packet."""
        self.is_over = True
        if self.user is not None:
            self.day.step(LINE, self.user, self.moment, Logout())


def run_pipe(day: Day, content: bytes) -> bytes:
    """Answers a client's bytes, to their end, the first that is malformed, or the end of the session."""
    pipe = Pipe(day)
    for given in packets(content):
        pipe.take(given)
        if pipe.is_over:
            break
    else:
        pipe.log_out()
    return b"".join(pipe.sent)
