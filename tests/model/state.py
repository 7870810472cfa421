"""What the records of a day leave behind: who is on, orders, kills, limits, figures and streams (docs/POLICY.md)."""

from collections import Counter
from dataclasses import dataclass, field

from book import Book, Order
from messages import Message
from policy import Officer, Policy, Reader, Rule, covers


def bare(name: bytes) -> bytes:
    """A name without the spaces that fill up its field."""
    return name.rstrip(b" ")


@dataclass(frozen=True)
class GrantedOrder:
    """An Enter or a Replace that was granted, whatever became of it."""

    moment: int
    account: bytes
    is_enter: bool
    alike: tuple[bytes, int, bytes, int]
    """Its side, shares, stock and price."""


@dataclass
class State:
    """Behind the records of a day."""

    policy: Policy
    moment: int = 0
    """That of the last record."""
    is_closed: bool = False
    book: Book = field(default_factory=Book)
    lines: dict[bytes, int] = field(default_factory=dict)
    """The line of each user who is logged in."""
    used: set[tuple[bytes, bytes]] = field(default_factory=set)
    """The tokens that each user has used."""
    kills: dict[bytes, set[bytes]] = field(default_factory=dict)
    """The killed accounts, each with the officers who have lifted it since its last Kill."""
    limits: dict[bytes, int] = field(default_factory=dict)
    """The limit of each rule of the file."""
    lists: dict[bytes, set[bytes]] = field(default_factory=dict)
    """The stocks that each rule of the file lists."""
    sights: dict[bytes, set[bytes]] = field(default_factory=dict)
    """The accounts whose fills each reader sees."""
    references: dict[bytes, int] = field(default_factory=dict)
    """The price of each stock's last fill, or else of the policy."""
    granted: list[GrantedOrder] = field(default_factory=list)
    executed: Counter[tuple[bytes, bytes, bool]] = field(default_factory=Counter)
    """The executed shares of each account in each stock, of buys and of sells."""
    executed_value: Counter[bytes] = field(default_factory=Counter)
    """The executed value of each account."""
    streams: dict[bytes, list[bytes]] = field(default_factory=dict)
    """The reports that each user is owed."""

    @classmethod
    def opened(cls, policy: Policy) -> "State":
        """At the beginning of a day."""
        return cls(
            policy,
            limits={rule.name: rule.limit for rule in policy.rules},
            lists={rule.name: set(rule.stocks) for rule in policy.rules},
            sights={user.name: set(user.role.accounts) for user in policy.users if isinstance(user.role, Reader)},
            references={stock.name: stock.reference for stock in policy.stocks},
            streams={user.name: [] for user in policy.users},
        )

    def tell(self, user: bytes, report: Message) -> None:
        """Puts a report behind the user's others."""
        self.streams[user].append(report.write())

    def officer(self, user: bytes) -> Officer | None:
        """The powers of an officer; None of anybody else."""
        found = self.policy.user(user)
        return found.role if found is not None and isinstance(found.role, Officer) else None

    def is_counted(self, rule: Rule, order: Order, account: bytes) -> bool:
        """Whether an account's orders count where a rule judges an order."""
        return covers(rule.accounts, account) if rule.together else account == order.account
