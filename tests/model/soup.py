"""SoupBinTCP 3.00 packets (docs/PROTOCOL.md, "Packets")."""

import re
from collections.abc import Iterator
from dataclasses import dataclass
from struct import Struct

LOGIN = Struct(">6s10s10s20s")
CLIENT_TYPES = (b"L", b"U", b"R", b"O", b"+")
GREATEST_NUMBER = 2**64 - 1


@dataclass(frozen=True)
class Packet:
    """A packet that a client sends."""

    type: bytes
    payload: bytes


@dataclass(frozen=True)
class LoginRequest:
    """The payload of a Login Request."""

    user: bytes
    password: bytes
    session: bytes
    wanted: int

    @classmethod
    def read(cls, payload: bytes) -> "LoginRequest | None":
        """What a payload of the right length asks for; None where its number is none. A blank number is 0."""
        user, password, session, number = LOGIN.unpack(payload)
        digits = number.strip(b" ")
        if re.fullmatch(b"[0-9]*", digits) is None:
            return None
        return cls(user.upper(), password, session, min(int(digits or b"0"), GREATEST_NUMBER))


def packets(content: bytes) -> Iterator[Packet]:
    """The packets of a client's bytes, up to where they are malformed or end."""
    while len(content) >= 2:
        length = int.from_bytes(content[:2], "big")
        kind = content[2:3]
        is_login = kind == b"L"
        is_malformed = length == 0 or kind not in CLIENT_TYPES or is_login and length != 1 + LOGIN.size
        if is_malformed or len(content) < 2 + length:
            return
        payload, content = content[3:2 + length], content[2 + length:]
        if is_login and LoginRequest.read(payload) is None:
            return
        yield Packet(kind, payload)


def packet(kind: bytes, payload: bytes = b"") -> bytes:
    """The bytes of a packet."""
    return (1 + len(payload)).to_bytes(2, "big") + kind + payload


def login_accepted(session: bytes, number: int) -> bytes:
    """Login Accepted, with the number of the next report."""
    return packet(b"A", session.rjust(10) + str(number).encode().rjust(20))


def login_rejected(reason: bytes) -> bytes:
    """Login Rejected."""
    return packet(b"J", reason)
