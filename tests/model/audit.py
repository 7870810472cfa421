"""Audits: the bytes of their records, and the check whether one is that of a legal day (docs/AUDIT.md)."""

from struct import Struct

import headers
from day import Day, DayFull, Denied, Expired, Filled, Granted, Record, Rested, Verdict
from messages import MESSAGES, Login, Logout, Message, Request, Unreadable
from policy import Policy

LAYOUT = Struct(">4sQQQH6sc58sc8sQQII")
"""Mark, number, handed moment, moment, line, user, kind, body, verdict, rule, first order, maker, shares, price."""
LOGIN, LOGOUT, UNREADABLE, MATCH = b"1", b"2", b"3", b"4"
LOGIN_BODY = Struct(">ccQ")
UNREADABLE_BODY = Struct(">Hc")
MESSAGE_OF_TYPE = {kind: message for (kind, _), message in MESSAGES.items()}
YES_NO = {b"Y": True, b"N": False}


class NoRecord(Exception):
    """The bytes are no record's."""


# From a record to its bytes.


def write_audit(day: Day, version: int) -> bytes:
    """The audit of a day."""
    mark = mark_of(version)
    return headers.header(day.state.policy, version) + b"".join(write_record(record, mark) for record in day.records)


def mark_of(version: int) -> bytes:
    """The mark of a record."""
    return b"GXA%d" % version


def write_record(record: Record, mark: bytes) -> bytes:
    """The bytes of a record. `pack` puts zero bytes behind the body."""
    step = (record.number, record.handed, record.moment, record.line, record.user.ljust(6))
    return LAYOUT.pack(mark, *step, *write_request(record.request), *write_verdict(record.verdict))


def write_request(request: Request | None) -> tuple[bytes, bytes]:
    """The kind and the body."""
    match request:
        case None:
            return MATCH, b""
        case Login(is_password, is_session, wanted):
            answers = (b"Y" if is_password else b"N", b"Y" if is_session else b"N")
            return LOGIN, LOGIN_BODY.pack(*answers, wanted)
        case Logout():
            return LOGOUT, b""
        case Unreadable(length, first):
            return UNREADABLE, UNREADABLE_BODY.pack(length, first)
    return request.TYPE, request.write()


def write_verdict(verdict: Verdict) -> tuple[bytes, bytes, int, int, int, int]:
    """The verdict, and all behind it."""
    blank = b"".ljust(8)
    match verdict:
        case Denied(rule):
            return b"D", rule.ljust(8), 0, 0, 0, 0
        case Filled(taker, maker, shares, price):
            return b"F", blank, taker, maker, shares, price
        case Rested(order):
            return b"R", blank, order, 0, 0, 0
        case Expired(order):
            return b"E", blank, order, 0, 0, 0
    return b"G", blank, 0, 0, 0, 0


# From bytes to their record.


def read_record(content: bytes, number: int, mark: bytes) -> Record:
    """The record of this mark and number that has these bytes. What it reads it writes again, and compares: so each
    field that the kind and the verdict leave free has to be blank."""
    _, _, handed, moment, line, user, kind, body, letter, rule, *match = LAYOUT.unpack(content)
    request = read_request(kind, body)
    verdict = read_verdict(letter, rule, *match)
    record = Record(number, handed, moment, line, user.rstrip(b" "), request, verdict)
    is_match = request is None
    is_step = is_match == isinstance(verdict, Filled | Rested | Expired) and is_match == (line == 0)
    is_user = user == user.upper() and not (is_match and record.user)
    if not is_step or not is_user or not may_be(request, verdict) or write_record(record, mark) != content:
        raise NoRecord
    return record


def may_be(request: Request | None, verdict: Verdict) -> bool:
    """Whether a record can show the request with this verdict: an unreadable payload is never granted, and has a first
    byte only where it has one."""
    if not isinstance(request, Unreadable):
        return True
    return not isinstance(verdict, Granted) and (request.length > 0 or request.first == b"\0")


def read_request(kind: bytes, body: bytes) -> Request | None:
    """What was asked for; None of a matching step."""
    if kind == MATCH:
        return None
    if kind == LOGIN:
        password, session, wanted = LOGIN_BODY.unpack_from(body)
        if password not in YES_NO or session not in YES_NO:
            raise NoRecord
        return Login(YES_NO[password], YES_NO[session], wanted)
    if kind == LOGOUT:
        return Logout()
    if kind == UNREADABLE:
        return Unreadable(*UNREADABLE_BODY.unpack_from(body))
    return read_message(kind, body)


def read_message(kind: bytes, body: bytes) -> Message:
    """The message of a kind that stands at the beginning of a body."""
    message = MESSAGE_OF_TYPE.get(kind)
    if message is None or body[:1] != kind:
        raise NoRecord
    return message.read(body[:message.length()])


def read_verdict(letter: bytes, rule: bytes, order: int, maker: int, shares: int, price: int) -> Verdict:
    """What became of it."""
    match letter:
        case b"G":
            return Granted()
        case b"D" if rule.strip(b" "):
            return Denied(rule.rstrip(b" "))
        case b"F":
            return Filled(order, maker, shares, price)
        case b"R":
            return Rested(order)
        case b"E":
            return Expired(order)
    raise NoRecord


# The check.


def check(policy: Policy, content: bytes) -> tuple[bool, str]:
    """Whether these bytes are the audit of a legal day, and what is said of them: the first fault, if there is one."""
    version = {b"GXH2": 2, b"GXH3": 3}.get(content[:4], 1)
    if version > 1:
        header, content = content[:headers.SIZE], content[headers.SIZE:]
        if len(header) < headers.SIZE:
            return False, "truncated"
        if not headers.is_header_of(policy, header):
            return False, "other policy"
    day = Day.opened(policy)
    whole = len(content) // LAYOUT.size
    for number in range(1, whole + 1):
        try:
            record = read_record(content[LAYOUT.size * (number - 1):LAYOUT.size * number], number, mark_of(version))
        except NoRecord:
            return False, f"bad record {number}"
        if remade(day, record) != record:
            return False, f"illegal verdict {number}"
    return (True, f"legal {whole}") if len(content) == LAYOUT.size * whole else (False, "truncated")


def remade(day: Day, record: Record) -> Record | None:
    """The record that the step of a record leaves by the rules; None where it leaves none."""
    try:
        if record.request is None:
            return day.match_one(record.handed)
        return day.step(record.line, record.user, record.handed, record.request)
    except DayFull:
        return None
