"""What is asked for and what is told: OUCH 4.2 messages and this project's own (docs/PROTOCOL.md).

Each class with a LAYOUT has its fields in the order of the wire, behind the type byte. A field that `pack` fills with
zero bytes is handed in at its full length, so what is written is what was read.
"""

from dataclasses import astuple, dataclass
from struct import Struct
from typing import ClassVar

TOKEN = 14
PAYLOAD = 65_534
"""The most bytes of a payload: a packet's length is two bytes, and counts the type byte."""


@dataclass(frozen=True)
class Message:
    """A message of a type byte and fields."""

    TYPE: ClassVar[bytes]
    LAYOUT: ClassVar[Struct]

    def write(self) -> bytes:
        """Its bytes."""
        return self.TYPE + self.LAYOUT.pack(*astuple(self))

    @classmethod
    def length(cls) -> int:
        """How many bytes it has."""
        return 1 + cls.LAYOUT.size

    @classmethod
    def read(cls, payload: bytes) -> "Message":
        """The message of these bytes, whose type and length are right."""
        return cls(*cls.LAYOUT.unpack(payload[1:]))


# From traders.


@dataclass(frozen=True)
class Enter(Message):
    """Enter Order."""

    TYPE = b"O"
    LAYOUT = Struct(">14scI8sII4scccIcc")
    token: bytes
    side: bytes
    shares: int
    stock: bytes
    price: int
    time_in_force: int
    firm: bytes = b"    "
    display: bytes = b"Y"
    capacity: bytes = b"A"
    sweep: bytes = b"N"
    minimum: int = 0
    cross: bytes = b"N"
    customer: bytes = b"N"


@dataclass(frozen=True)
class Replace(Message):
    """Replace Order."""

    TYPE = b"U"
    LAYOUT = Struct(">14s14sIIIccI")
    old: bytes
    token: bytes
    shares: int
    price: int
    time_in_force: int
    display: bytes = b"Y"
    sweep: bytes = b"N"
    minimum: int = 0


@dataclass(frozen=True)
class Cancel(Message):
    """Cancel Order."""

    TYPE = b"X"
    LAYOUT = Struct(">14sI")
    token: bytes
    shares: int


# From officers.


@dataclass(frozen=True)
class Command(Message):
    """A command of an officer; its answer repeats the tag."""

    tag: bytes


@dataclass(frozen=True)
class Kill(Command):
    """Ends the account's orders, and denies it new ones."""

    TYPE = b"K"
    LAYOUT = Struct(">14s8s")
    account: bytes


@dataclass(frozen=True)
class Lift(Command):
    """Lifts a Kill."""

    TYPE = b"L"
    LAYOUT = Struct(">14s8s")
    account: bytes


@dataclass(frozen=True)
class SetLimit(Command):
    """Sets the limit of a rule."""

    TYPE = b"M"
    LAYOUT = Struct(">14s8sQ")
    rule: bytes
    limit: int


@dataclass(frozen=True)
class Restrict(Command):
    """Puts a stock on the list of a rule."""

    TYPE = b"R"
    LAYOUT = Struct(">14s8s8s")
    rule: bytes
    stock: bytes


@dataclass(frozen=True)
class Unrestrict(Command):
    """Takes a stock off the list of a rule."""

    TYPE = b"N"
    LAYOUT = Struct(">14s8s8s")
    rule: bytes
    stock: bytes


@dataclass(frozen=True)
class Grant(Command):
    """Lets a reader see an account."""

    TYPE = b"G"
    LAYOUT = Struct(">14s6s8s")
    reader: bytes
    account: bytes


@dataclass(frozen=True)
class Revoke(Command):
    """Lets a reader see an account no longer."""

    TYPE = b"V"
    LAYOUT = Struct(">14s6s8s")
    reader: bytes
    account: bytes


@dataclass(frozen=True)
class CloseDay(Command):
    """Ends the day."""

    TYPE = b"Z"
    LAYOUT = Struct(">14s")


# From anybody, and not as the payload of Unsequenced Data.


@dataclass(frozen=True)
class Login:
    """A login, with what the gate found of its password and session; `wanted` is the first report that is wanted."""

    is_password: bool
    is_session: bool
    wanted: int


@dataclass(frozen=True)
class Logout:
    """A logout."""


@dataclass(frozen=True)
class Unreadable:
    """A payload that is no message: its length, and its first byte, a zero byte where it has none."""

    length: int
    first: bytes


Request = Message | Login | Logout | Unreadable

MESSAGES: dict[tuple[bytes, int], type[Message]] = {
    (message.TYPE, message.length()): message
    for message in (Enter, Replace, Cancel, Kill, Lift, SetLimit, Restrict, Unrestrict, Grant, Revoke, CloseDay)
}
"""The messages that a client may send, by type and exact length."""


def read_payload(payload: bytes) -> Message | Unreadable:
    """What the payload of Unsequenced Data asks for."""
    message = MESSAGES.get((payload[:1], len(payload)))
    return Unreadable(len(payload), payload[:1] or b"\0") if message is None else message.read(payload)


# To clients.


@dataclass(frozen=True)
class Accepted(Message):
    """An order was granted."""

    TYPE = b"A"
    LAYOUT = Struct(">Q14scI8sII4scQccIccc")
    moment: int
    token: bytes
    side: bytes
    shares: int
    stock: bytes
    price: int
    time_in_force: int
    firm: bytes
    display: bytes
    order: int
    capacity: bytes
    sweep: bytes
    minimum: int
    cross: bytes
    state: bytes = b"L"
    weight: bytes = b" "


@dataclass(frozen=True)
class Replaced(Message):
    """An order stands in the place of another."""

    TYPE = b"U"
    LAYOUT = Struct(">Q14scI8sII4scQccIcc14sc")
    moment: int
    token: bytes
    side: bytes
    shares: int
    stock: bytes
    price: int
    time_in_force: int
    firm: bytes
    display: bytes
    order: int
    capacity: bytes
    sweep: bytes
    minimum: int
    cross: bytes
    state: bytes
    old: bytes
    weight: bytes = b" "


@dataclass(frozen=True)
class Rejected(Message):
    """An order was denied, and why."""

    TYPE = b"J"
    LAYOUT = Struct(">Q14sc")
    moment: int
    token: bytes
    reason: bytes


@dataclass(frozen=True)
class Executed(Message):
    """Shares of an order were traded."""

    TYPE = b"E"
    LAYOUT = Struct(">Q14sIIcQ")
    moment: int
    token: bytes
    shares: int
    price: int
    liquidity: bytes
    match: int


@dataclass(frozen=True)
class DropCopy(Executed):
    """A fill, as a reader sees a side of it."""

    LAYOUT = Struct(">Q14sIIcQ8sc")
    account: bytes
    side: bytes


@dataclass(frozen=True)
class Canceled(Message):
    """An order has lost open shares."""

    TYPE = b"C"
    LAYOUT = Struct(">Q14sIc")
    moment: int
    token: bytes
    shares: int
    reason: bytes


@dataclass(frozen=True)
class DayEnds(Message):
    """The System Event of the end of the day."""

    TYPE = b"S"
    LAYOUT = Struct(">Qc")
    moment: int
    code: bytes = b"E"


@dataclass(frozen=True)
class Answer(Message):
    """The answer to a command."""

    TYPE = b"Q"
    LAYOUT = Struct(">Q14sc2sQ")
    moment: int
    tag: bytes
    command: bytes
    code: bytes
    record: int
