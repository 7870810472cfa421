"""The headers of audits, and the text of a policy, whose digest stands in that of version 3 (docs/AUDIT.md)."""

import hashlib
from collections.abc import Iterable
from datetime import UTC, datetime

from policy import POWERS, Officer, Policy, Reader, Rule, Scope, Trader, User

SIZE = 128
EPOCH = datetime(1970, 1, 1, tzinfo=UTC)
KIND_LETTERS = {
    "halt": b"H", "restricted": b"R", "no_short": b"N", "no_iso": b"I", "odd_lot": b"L", "order_shares": b"S",
    "order_value": b"V", "collar": b"C", "gross_shares": b"G", "gross_value": b"W", "net_shares": b"T", "rate": b"Q",
    "repeat": b"P",
}


def header(policy: Policy, version: int) -> bytes:
    """The header with which a run begins: in version 3 that of today, in UTC."""
    if version == 2:
        return beginning(policy, 2).ljust(SIZE, b"\0")
    return header_3(policy, (datetime.now(UTC) - EPOCH).days.to_bytes(4, "big"), b"+", b"\0\0")


def header_3(policy: Policy, date: bytes, sign: bytes, minutes: bytes) -> bytes:
    """The header of version 3 of a day."""
    digest = hashlib.sha256(policy_text(policy)).digest()
    return (beginning(policy, 3) + digest + date + sign + minutes).ljust(SIZE, b"\0")


def is_header_of(policy: Policy, given: bytes) -> bool:
    """Whether a header is the policy's: in version 3 with whatever date and minutes it names."""
    if given.startswith(b"GXH2"):
        return given == header(policy, 2)
    date, sign, minutes = given[55:59], given[59:60], given[60:62]
    return sign in (b"+", b"-") and given == header_3(policy, date, sign, minutes)


def beginning(policy: Policy, version: int) -> bytes:
    """What a header of either version begins with: session, lifters, and how many the policy has of each."""
    places = (policy.accounts, policy.stocks, policy.users, policy.rules)
    counts = b"".join(len(place).to_bytes(2, "big") for place in places)
    return b"GXH%d" % version + policy.session.ljust(10) + policy.lifters.to_bytes(1, "big") + counts


# The policy's text.


def policy_text(policy: Policy) -> bytes:
    """All that a policy says but passwords, as one string of bytes."""
    return b"".join((
        b"GXP1", policy.session.ljust(10), b"%d" % policy.lifters,
        listed(name_of_8(account.name) + account.firm.ljust(4) for account in policy.accounts),
        listed(name_of_8(stock.name) + number(stock.reference) for stock in policy.stocks),
        listed(map(user_text, policy.users)), listed(map(rule_text, policy.rules)),
    ))


def user_text(user: User) -> bytes:
    """A user: his name and his role."""
    match user.role:
        case Trader(account):
            role = b"T" + name_of_8(account)
        case Officer(powers, accounts):
            role = b"O" + b"".join(b"Y" if power in powers else b"N" for power in POWERS) + scope_text(accounts)
        case Reader(accounts):
            role = b"R" + listed(map(name_of_8, accounts))
    return user.name.ljust(6) + role


def rule_text(rule: Rule) -> bytes:
    """A rule."""
    return b"".join((
        name_of_8(rule.name), KIND_LETTERS[rule.kind], listed(map(name_of_8, rule.stocks)), number(rule.limit),
        number(rule.back), b"T" if rule.together else b"E", scope_text(rule.accounts),
    ))


def scope_text(scope: Scope) -> bytes:
    """All accounts, or these."""
    return b"A" if scope is None else b"O" + listed(map(name_of_8, scope))


def name_of_8(name: bytes) -> bytes:
    """A name in its field."""
    return name.ljust(8)


def number(value: int) -> bytes:
    """A number."""
    return value.to_bytes(8, "big")


def listed(items: Iterable[bytes]) -> bytes:
    """A list: each item behind a comma, and a semicolon."""
    return b"".join(b"," + item for item in items) + b";"
