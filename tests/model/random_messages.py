"""Messages of traders and commands of officers at random, on a scene that a policy sets."""

from dataclasses import dataclass, field, replace
from random import Random

from day import Day
from messages import (
    TOKEN, Cancel, CloseDay, Command, Enter, Grant, Kill, Lift, Message, Replace, Restrict, Revoke, SetLimit,
    Unrestrict,
)
from policyfile import Table
from random_policy import chance, visible

SHARES = (1, 7, 10, 50, 50, 100, 100, 100, 100, 150, 200, 200, 300, 500, 1_000)
ODD_SHARES = (0, 999_999, 1_000_000, 2**32 - 1)
ODD_PRICES = (0, 1, 10_050, 1_999_999_900, 2_000_000_000, 2**31 - 1, 2**32 - 1)
TIMES_IN_FORCE = (99_999, 99_999, 99_999, 99_998, 0)
ODD_TIMES_IN_FORCE = (1, 99_997, 100_000, 2**32 - 1)
LIMITS = (0, 50, 100, 500, 10_000, 10**7, 2**63, 2**64 - 1)
SIDES = (b"B", b"B", b"S", b"S", b"T", b"E")


@dataclass
class Scene:
    """What a run's messages are about: its policy's names, and the tokens that were sent."""

    random: Random
    policy: Table
    day: Day
    """What the run has come to, which tells the orders that are live."""
    tokens: dict[str, list[bytes]] = field(default_factory=dict)
    sent: int = 0

    def users(self, role: str) -> list[str]:
        """The names of the users of a role."""
        return [user["name"] for user in self.policy["user"] if user["role"] == role]

    def named(self, place: str, role: str = "") -> str:
        """The name of an entry of a place, or seldom another."""
        if chance(self.random, 3):
            return self.random.choice(("NOSUCH", "alfa", "ALFA", "TEST2", "P1", visible(self.random, 6)))
        names = [entry["name"] for entry in self.policy.get(place, []) if entry.get("role", "") == role]
        return self.random.choice(names) if names else "NONE"

    def rule(self, kinds: tuple[str, ...]) -> str:
        """The name of a rule of some kinds, or else any name."""
        names = [rule["name"] for rule in self.policy["rule"] if rule["kind"] in kinds]
        return self.random.choice(names) if names and chance(self.random, 85) else self.named("rule")

    # What a trader sends.

    def order_message(self, user: str) -> Message:
        """An Enter, a Replace or a Cancel."""
        drawn = self.random.random()
        if drawn < 0.62 or not self.live_tokens(user) and chance(self.random, 90):
            return self.enter(user)
        return self.replace(user) if drawn < 0.84 else self.cancel(user)

    def live_tokens(self, user: str) -> list[bytes]:
        """The tokens of the user's live orders; of some of them where shares of some are executed."""
        live = [order for order in self.day.state.book.live() if order.user == user.upper().encode()]
        partial = [order for order in live if order.executed > 0]
        return [order.token for order in (partial if partial and chance(self.random, 50) else live)]

    def enter(self, user: str) -> Enter:
        """An order that may well cross another."""
        stock, side = self.named("stock"), self.random.choice(SIDES)
        price = self.price(stock)
        resting = self.day.state.book.resting
        if resting and chance(self.random, 45):
            other = self.random.choice(resting)
            stock, price = other.stock.decode(), other.price
            side = self.random.choice((b"S", b"T", b"E")) if other.is_buy else b"B"
        message = Enter(self.new_token(user), side, self.shares(), field_of(stock, 8), price, self.time_in_force())
        return self.with_odd_field(message) if chance(self.random, 8) else message

    def with_odd_field(self, message: Enter) -> Enter:
        """An order that asks for what a script's words can't say."""
        account = self.random.choice(self.policy["account"])
        odd = {
            "firm": field_of(self.random.choice((account["firm"], account["firm"], "alf", "NONE")), 4),
            "display": self.random.choice((b"A", b"N", b"y")), "capacity": self.random.choice((b"P", b"\xff")),
            "sweep": self.random.choice((b"Y", b"Y", b"y", b" ")), "minimum": self.random.choice((1, 100)),
            "cross": self.random.choice((b"O", b"n")), "side": self.random.choice((b"X", b"b", b"\0")),
            "customer": b"R", "time_in_force": self.random.choice(ODD_TIMES_IN_FORCE), "stock": field_of("", 8),
        }
        key = self.random.choice(list(odd))
        return replace(message, **{key: odd[key]})

    def replace(self, user: str) -> Replace:
        """An order in the place of another."""
        old = self.old_token(user)
        stock = self.named("stock")
        sweep = b"Y" if chance(self.random, 5) else b"N"
        display = self.random.choice((b"A", b"Q")) if chance(self.random, 5) else b"Y"
        minimum = 1 if chance(self.random, 2) else 0
        return Replace(
            old, self.new_token(user), self.shares(), self.price(stock), self.time_in_force(), display, sweep, minimum,
        )

    def cancel(self, user: str) -> Cancel:
        """An order cut."""
        return Cancel(self.old_token(user), self.random.choice((0, 0, 1, 5, 10, 50, 90, 150, 2**32 - 1)))

    def new_token(self, user: str) -> bytes:
        """A token that the user has not sent, or seldom one that he has."""
        if chance(self.random, 5) and self.tokens.get(user):
            return self.old_token(user)
        self.sent += 1
        token = self.random.randbytes(TOKEN) if chance(self.random, 2) else field_of(f"T{self.sent}", TOKEN)
        self.tokens.setdefault(user, []).append(token)
        return token

    def old_token(self, user: str) -> bytes:
        """The token of a live order of the user, or of any that he has sent, or seldom one that he has not."""
        live = self.live_tokens(user)
        tokens = live if live and chance(self.random, 85) else self.tokens.get(user, [])
        return self.random.choice(tokens) if tokens and chance(self.random, 97) else field_of("T0", TOKEN)

    def shares(self) -> int:
        """A size of an order."""
        return self.random.choice(ODD_SHARES if chance(self.random, 4) else SHARES)

    def price(self, stock: str) -> int:
        """A price near a stock's reference."""
        if chance(self.random, 2):
            return self.random.choice(ODD_PRICES)
        reference = next((entry["reference"] for entry in self.policy["stock"] if entry["name"] == stock), 10_000)
        tick = max(1, reference // 100) if reference < 10_000 else max(100, reference // 100 // 100 * 100)
        price = reference + tick * self.random.choice((-4, -2, -1, -1, 0, 0, 0, 1, 1, 2, 4))
        return max(1, price) + (1 if chance(self.random, 2) else 0)

    def time_in_force(self) -> int:
        """How long an order rests."""
        return self.random.choice(ODD_TIMES_IN_FORCE if chance(self.random, 3) else TIMES_IN_FORCE)

    # What an officer sends.

    def command(self) -> Command:
        """A command; seldom the last of a day."""
        tag = field_of(self.random.choice(("K1", "K2", "SAME", "fourteen_bytes")), TOKEN)
        account = field_of(self.named("account"), 8)
        drawn = self.random.random()
        if drawn < 0.15:
            return Kill(tag, account)
        if drawn < 0.45:
            killed = list(self.day.state.kills)
            return Lift(tag, self.random.choice(killed).ljust(8) if killed and chance(self.random, 90) else account)
        if drawn < 0.62:
            rule = self.rule(("order_shares", "order_value", "collar", "gross_shares", "gross_value", "net_shares"))
            return SetLimit(tag, field_of(rule, 8), self.random.choice(LIMITS))
        if drawn < 0.8:
            make = self.random.choice((Restrict, Unrestrict))
            return make(tag, field_of(self.rule(("halt", "restricted")), 8), field_of(self.named("stock"), 8))
        if drawn < 0.985:
            make = self.random.choice((Grant, Grant, Revoke))
            return make(tag, field_of(self.named("user", "reader"), 6), account)
        return CloseDay(tag)

    def message(self, user: str, role: str) -> Message:
        """What a user of a role sends, or seldom one of another."""
        if chance(self.random, 3):
            role = self.random.choice(("trader", "officer"))
        return self.command() if role == "officer" else self.order_message(user)

    def payload(self, message: Message) -> bytes:
        """The bytes of a message, which seldom are none of one."""
        content = message.write()
        drawn = self.random.random()
        if drawn < 0.9:
            return content
        if drawn < 0.94:
            place = self.random.randrange(len(content))
            return content[:place] + self.random.randbytes(1) + content[place + 1:]
        if drawn < 0.97:
            return content[:self.random.randint(1, len(content))]
        return self.random.choice((b"\0", b"O", content + b" ", self.random.randbytes(self.random.randint(1, 60))))


def field_of(name: str, size: int) -> bytes:
    """A name in its field."""
    return name.encode()[:size].ljust(size)
