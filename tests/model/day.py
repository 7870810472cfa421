"""A day: its records, and the steps that make them (docs/POLICY.md, docs/PROTOCOL.md, docs/AUDIT.md)."""

from dataclasses import dataclass, field, replace

from book import Order
from messages import (
    Accepted, Answer, Cancel, Canceled, CloseDay, Command, DayEnds, DropCopy, Enter, Executed, Grant, Kill, Lift, Login,
    Logout, Rejected, Replace, Replaced, Request, Restrict, Revoke, SetLimit, Unrestrict,
)
from policy import Policy, Trader
from rules import denying_rule, proposed, reject_letter
from state import GrantedOrder, State, bare

RECORDS = 16_777_216
"""The most records of a day, but for Kills and Logouts that are granted."""


@dataclass(frozen=True)
class Granted:
    """No rule forbids the request."""


@dataclass(frozen=True)
class Denied:
    """The first rule that forbids it."""

    rule: bytes


@dataclass(frozen=True)
class Filled:
    """Two orders trade."""

    taker: int
    maker: int
    shares: int
    price: int


@dataclass(frozen=True)
class Rested:
    """An order comes to rest."""

    order: int


@dataclass(frozen=True)
class Expired:
    """An immediate-or-cancel order meets nothing, and ends."""

    order: int


Verdict = Granted | Denied | Filled | Rested | Expired


@dataclass(frozen=True)
class Record:
    """A step: what was asked, by whom and when, and what became of it. A matching step has no request, and line 0."""

    number: int
    handed: int
    moment: int
    line: int
    user: bytes
    request: Request | None
    verdict: Verdict


class DayFull(Exception):
    """The day has no room for a step."""


@dataclass
class Day:
    """The records of a day, and what they leave behind."""

    state: State
    records: list[Record] = field(default_factory=list)

    @classmethod
    def opened(cls, policy: Policy) -> "Day":
        """A day without a record."""
        return cls(State.opened(policy))

    def step(self, line: int, user: bytes, handed: int, request: Request) -> Record:
        """Judges a request, and does what it asks for where no rule forbids it. The user's name is in upper case."""
        moment = max(handed, self.state.moment)
        rule = denying_rule(self.state, line, user, moment, request)
        ends_something = rule is None and isinstance(request, (Kill, Logout))
        if len(self.records) >= RECORDS and not ends_something:
            raise DayFull
        verdict = Granted() if rule is None else Denied(rule)
        record = self.put(handed, line, user, request, verdict)
        if rule is None:
            self.apply(record, bare(user), request)
        else:
            self.tell_denied(record, bare(user), request, rule)
        return record

    def match_one(self, handed: int) -> Record | None:
        """Makes a matching step with the first order that waits; None where none does."""
        if not self.state.book.waiting:
            return None
        if len(self.records) >= RECORDS:
            raise DayFull
        taker = self.state.book.waiting[0]
        maker = self.state.book.best_against(taker)
        if maker is not None:
            shares = min(taker.open, maker.open)
            record = self.put_match(handed, Filled(taker.number, maker.number, shares, maker.price))
            self.fill(record, taker, maker, shares)
        elif taker.time_in_force == 0:
            record = self.put_match(handed, Expired(taker.number))
            self.end(record, taker, b"I")
        else:
            record = self.put_match(handed, Rested(taker.number))
            self.state.book.waiting.remove(taker)
            self.state.book.resting.append(taker)
        return record

    def put(self, handed: int, line: int, user: bytes, request: Request | None, verdict: Verdict) -> Record:
        """Puts a record last. No moment is earlier than the one before."""
        self.state.moment = max(handed, self.state.moment)
        record = Record(len(self.records) + 1, handed, self.state.moment, line, user, request, verdict)
        self.records.append(record)
        return record

    def put_match(self, handed: int, verdict: Verdict) -> Record:
        """Puts the record of a matching step last."""
        return self.put(handed, 0, b"", None, verdict)

    # What a record does.

    def tell_denied(self, record: Record, user: bytes, request: Request, rule: bytes) -> None:
        """A denial by a rule P or of the file uses the token and is answered; one by a rule Q is answered."""
        letter = reject_letter(self.state, rule)
        if letter is not None:
            self.state.used.add((user, request.token))
            self.state.tell(user, Rejected(record.moment, request.token, letter))
        elif rule.startswith(b"Q"):
            self.answer(record, user, request, rule)

    def apply(self, record: Record, user: bytes, request: Request) -> None:
        """What a request that is granted changes."""
        match request:
            case Login():
                self.state.lines[user] = record.line
            case Logout():
                del self.state.lines[user]
            case Enter():
                self.place(record, proposed(self.state, user, request, None), request)
            case Replace():
                old = self.state.book.under(user, request.old)
                order = proposed(self.state, user, request, old)
                self.state.book.remove(old)
                self.place(record, order, request)
            case Cancel():
                self.cancel(record, self.state.book.under(user, request.token), request.shares)
            case Command():
                self.command(record, user, request)

    def place(self, record: Record, order: Order, request: Enter | Replace) -> None:
        """A new order waits behind all others."""
        order = replace(order, number=record.number)
        self.state.book.waiting.append(order)
        self.state.used.add((order.user, order.token))
        alike = (order.side, order.total, order.stock, order.price)
        self.state.granted.append(GrantedOrder(record.moment, order.account, isinstance(request, Enter), alike))
        firm = self.state.policy.account(order.account).firm.ljust(4)
        echo = (
            record.moment, order.token, order.side, order.open, order.stock.ljust(8), order.price, order.time_in_force,
            firm, request.display, order.number, order.capacity, request.sweep, request.minimum, order.cross,
        )
        is_enter = isinstance(request, Enter)
        self.state.tell(order.user, Accepted(*echo) if is_enter else Replaced(*echo, b"L", request.old))

    def cancel(self, record: Record, order: Order, shares: int) -> None:
        """An order gets a new size, and ends where nothing of it is open."""
        before = order.open
        order.total = max(shares, order.executed)
        self.state.tell(order.user, Canceled(record.moment, order.token, before - order.open, b"U"))
        if order.open == 0:
            self.state.book.remove(order)

    def end(self, record: Record, order: Order, reason: bytes) -> None:
        """An order ends with what is open of it."""
        self.state.book.remove(order)
        self.state.tell(order.user, Canceled(record.moment, order.token, order.open, reason))

    def fill(self, record: Record, taker: Order, maker: Order, shares: int) -> None:
        """Two orders trade at the price of the one that rested; an order with nothing left is gone."""
        self.state.references[taker.stock] = maker.price
        for order, liquidity in ((taker, b"R"), (maker, b"A")):
            order.executed += shares
            self.state.executed[order.account, order.stock, order.is_buy] += shares
            self.state.executed_value[order.account] += shares * maker.price
            told = (record.moment, order.token, shares, maker.price, liquidity, record.number)
            self.state.tell(order.user, Executed(*told))
            for reader, accounts in self.state.sights.items():
                if order.account in accounts:
                    self.state.tell(reader, DropCopy(*told, order.account.ljust(8), order.side))
            if order.open == 0:
                self.state.book.remove(order)

    def command(self, record: Record, user: bytes, command: Command) -> None:
        """What an officer's command does, and last its answer."""
        state = self.state
        code = b"OK"
        match command:
            case Kill():
                state.kills[bare(command.account)] = set()
                self.end_all(record, bare(command.account))
            case Lift():
                lifters = state.kills[bare(command.account)]
                lifters.add(user)
                if len(lifters) < state.policy.lifters:
                    code = b"PL"
                else:
                    del state.kills[bare(command.account)]
            case SetLimit():
                state.limits[bare(command.rule)] = command.limit
            case Restrict():
                state.lists[bare(command.rule)].add(bare(command.stock))
            case Unrestrict():
                state.lists[bare(command.rule)].remove(bare(command.stock))
            case Grant():
                state.sights[bare(command.reader).upper()].add(bare(command.account))
            case Revoke():
                state.sights[bare(command.reader).upper()].remove(bare(command.account))
            case CloseDay():
                state.is_closed = True
                self.end_all(record, None)
                for trader in state.policy.users:
                    if isinstance(trader.role, Trader):
                        state.tell(trader.name, DayEnds(record.moment))
        self.answer(record, user, command, code)

    def end_all(self, record: Record, account: bytes | None) -> None:
        """All live orders of an account end, or of every account, by their numbers."""
        for order in self.state.book.live():
            if account in (None, order.account):
                self.end(record, order, b"S")

    def answer(self, record: Record, user: bytes, command: Command, code: bytes) -> None:
        """The officer has his answer."""
        self.state.tell(user, Answer(record.moment, command.tag, command.TYPE, code, record.number))
