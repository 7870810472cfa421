"""Orders that are live: those that wait to be matched, and those that rest (docs/PROTOCOL.md, "Matching")."""

from dataclasses import dataclass, field


@dataclass(eq=False)
class Order:
    """A live order, or one that is proposed; its number is that of the record that grants it.

    `total` and `executed` are those of its whole chain: of the order that was entered and all that replaced it.
    """

    number: int
    user: bytes
    account: bytes
    token: bytes
    side: bytes
    stock: bytes
    price: int
    time_in_force: int
    total: int
    executed: int
    capacity: bytes
    cross: bytes

    @property
    def open(self) -> int:
        """The shares that are not filled yet."""
        return self.total - self.executed

    @property
    def is_buy(self) -> bool:
        """Whether it buys; every other side sells."""
        return self.side == b"B"

    def crosses(self, other: "Order") -> bool:
        """Whether it can trade with an order of the other side of its stock: the buy is at or above the sell."""
        buy, sell = (self, other) if self.is_buy else (other, self)
        return self.stock == other.stock and buy.is_buy and not sell.is_buy and buy.price >= sell.price


@dataclass
class Book:
    """The live orders, each place in the order in which they came to it."""

    waiting: list[Order] = field(default_factory=list)
    resting: list[Order] = field(default_factory=list)

    def live(self) -> list[Order]:
        """All live orders, by their numbers."""
        return sorted(self.waiting + self.resting, key=lambda order: order.number)

    def under(self, user: bytes, token: bytes) -> Order | None:
        """The live order of a user under a token."""
        found = (order for order in self.waiting + self.resting if (order.user, order.token) == (user, token))
        return next(found, None)

    def remove(self, order: Order) -> None:
        """An order is live no longer."""
        place = self.waiting if order in self.waiting else self.resting
        place.remove(order)

    def best_against(self, taker: Order) -> Order | None:
        """The order that rests which an order trades with: of the best price, and at one price the first to rest."""
        crossing = [order for order in self.resting if taker.crosses(order)]
        return min(crossing, key=lambda order: order.price if taker.is_buy else -order.price, default=None)
