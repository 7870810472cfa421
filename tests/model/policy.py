"""What a policy says: a session, accounts, stocks, users and rules (docs/POLICY.md).

A name is its bytes without the spaces that fill up its field on the wire. Names of users and passwords are kept in
upper case, since they are compared so.
"""

from dataclasses import dataclass

POWERS = (b"kill", b"lift", b"limits", b"symbols", b"people", b"close")
SIDES = (b"B", b"S", b"T", b"E")

Scope = tuple[bytes, ...] | None
"""Accounts, in the order of the file and each once; None is all of them."""


def covers(scope: Scope, account: bytes) -> bool:
    """Whether an account is in a scope."""
    return scope is None or account in scope


@dataclass(frozen=True)
class Account:
    """An account, and the firm that its orders are sent with."""

    name: bytes
    firm: bytes


@dataclass(frozen=True)
class Stock:
    """A listed stock, and its reference price in ten-thousandths of a dollar."""

    name: bytes
    reference: int


@dataclass(frozen=True)
class Trader:
    """Who trades, for one account."""

    account: bytes


@dataclass(frozen=True)
class Officer:
    """Who has powers, over some accounts or all."""

    powers: tuple[bytes, ...]
    accounts: Scope


@dataclass(frozen=True)
class Reader:
    """Who sees the fills of some accounts: of these at first."""

    accounts: tuple[bytes, ...]


@dataclass(frozen=True)
class User:
    """Who may log in, and as what."""

    name: bytes
    password: bytes
    role: Trader | Officer | Reader


@dataclass(frozen=True)
class Rule:
    """A rule of the file. What its kind has not is empty, 0 or False."""

    name: bytes
    kind: str
    accounts: Scope
    stocks: tuple[bytes, ...] = ()
    limit: int = 0
    back: int = 0
    """The window of a rate in nanoseconds, the span of a repeat in orders."""
    together: bool = False
    """Whether the accounts of the rule are counted as one."""


@dataclass(frozen=True)
class Policy:
    """A policy; `lifters` is how many officers have to lift a killed account."""

    session: bytes
    lifters: int
    accounts: tuple[Account, ...]
    stocks: tuple[Stock, ...]
    users: tuple[User, ...]
    rules: tuple[Rule, ...]

    def account(self, name: bytes) -> Account | None:
        """The account of this name."""
        return next((account for account in self.accounts if account.name == name), None)

    def stock(self, name: bytes) -> Stock | None:
        """The stock of this name."""
        return next((stock for stock in self.stocks if stock.name == name), None)

    def user(self, name: bytes) -> User | None:
        """The user of this name, which is in upper case."""
        return next((user for user in self.users if user.name == name), None)

    def rule(self, name: bytes) -> Rule | None:
        """The rule of the file of this name."""
        return next((rule for rule in self.rules if rule.name == name), None)

    def is_password(self, name: bytes, password: bytes) -> bool:
        """Whether there is a user of this name, and this is his password, in either case of letters."""
        user = self.user(name.upper())
        return user is not None and user.password == password.upper()
