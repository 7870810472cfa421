"""Which rule forbids a request: the first in the written order (docs/POLICY.md, "The rules, in their written order").

Each of these functions gives rules in that order, each with whether it forbids. They are asked one by one, so behind a
rule it may be taken for granted that it does not forbid: behind I2, say, that there is an order.
"""

from collections.abc import Iterator

from book import Order
from messages import (
    Cancel, CloseDay, Command, Enter, Grant, Kill, Lift, Login, Logout, Replace, Request, Restrict, Revoke, SetLimit,
    Unreadable, Unrestrict,
)
from policy import SIDES, Reader, Rule, Trader, covers
from state import State, bare

LETTERS = {
    b"P1": b"C", b"P2": b"a", b"P3": b"L", b"P4": b"S", b"P5": b"Z", b"P6": b"X", b"P7": b"D", b"P8": b"O", b"P9": b"N",
    b"P10": b"R", b"P11": b"O", b"P12": b"O",
}
KIND_LETTERS = {
    "halt": b"H", "restricted": b"c", "no_short": b"i", "no_iso": b"d", "odd_lot": b"e", "order_shares": b"Z",
    "order_value": b"n", "collar": b"X", "gross_shares": b"m", "gross_value": b"n", "net_shares": b"m", "rate": b"O",
    "repeat": b"O",
}
POWERS = {
    Kill: b"kill", Lift: b"lift", SetLimit: b"limits", Restrict: b"symbols", Unrestrict: b"symbols", Grant: b"people",
    Revoke: b"people", CloseDay: b"close",
}
LISTING = ("halt", "restricted")
LIMITED = ("order_shares", "order_value", "collar", "gross_shares", "gross_value", "net_shares")
TIMES_IN_FORCE = (0, 99_998, 99_999)
SHARES = range(1, 1_000_000)
PRICES = range(1, 1_999_999_901)

Asked = Iterator[tuple[bytes, bool]]


def denying_rule(state: State, line: int, user: bytes, moment: int, request: Request) -> bytes | None:
    """The name of the first rule that forbids a request, which a user asks for on a line; None where none does."""
    asked = asked_rules(state, line, bare(user), moment, request)
    return next((rule for rule, forbids in asked if forbids), None)


def reject_letter(state: State, rule: bytes) -> bytes | None:
    """The letter of the Rejected that tells of a denial by a rule; None where it is not told so."""
    of_file = state.policy.rule(rule)
    return LETTERS.get(rule) if of_file is None else KIND_LETTERS[of_file.kind]


def asked_rules(state: State, line: int, user: bytes, moment: int, request: Request) -> Asked:
    """The rules that a request is asked."""
    if isinstance(request, Login):
        yield from login_rules(state, user, request)
        return
    yield b"G1", state.lines.get(user) != line
    match request:
        case Unreadable():
            yield b"G3", True
        case Enter() | Replace() | Cancel():
            yield from order_rules(state, user, moment, request)
        case Command():
            yield from command_rules(state, user, request)
        case Logout():
            pass


def login_rules(state: State, user: bytes, login: Login) -> Asked:
    """The rules of a login. Of n reports 0 asks for the last, and 1 to n + 1 for themselves."""
    yield b"L1", state.policy.user(user) is None or not login.is_password
    yield b"L2", user in state.lines
    yield b"L3", not login.is_session or login.wanted > len(state.streams[user]) + 1


def order_rules(state: State, user: bytes, moment: int, request: Enter | Replace | Cancel) -> Asked:
    """The rules of a trader's request."""
    trader = state.policy.user(user).role
    yield b"G2", not isinstance(trader, Trader)
    if not isinstance(request, Cancel):
        yield b"I1", (user, request.token) in state.used
    if isinstance(request, Enter):
        yield from safe_rules(state, trader.account, request, None)
        yield from file_rules(state, moment, proposed(state, user, request, None), None, request.sweep)
        return
    old = state.book.under(user, request.old if isinstance(request, Replace) else request.token)
    yield b"I2", old is None
    if isinstance(request, Cancel):
        yield b"I3", request.shares >= old.total
    else:
        yield from safe_rules(state, trader.account, request, old)
        yield from file_rules(state, moment, proposed(state, user, request, old), old, request.sweep)


def safe_rules(state: State, account: bytes, request: Enter | Replace, old: Order | None) -> Asked:
    """The rules P, of an order or of one that replaces an old one."""
    yield b"P1", state.is_closed
    yield b"P2", account in state.kills
    if isinstance(request, Enter):
        yield b"P3", bare(request.firm) not in (b"", state.policy.account(account).firm)
        yield b"P4", state.policy.stock(bare(request.stock)) is None
    yield b"P5", request.shares not in SHARES
    yield b"P6", request.price not in PRICES or request.price >= 10_000 and request.price % 100 != 0
    yield b"P7", request.display not in (b"A", b"Y")
    yield b"P8", request.time_in_force not in TIMES_IN_FORCE
    yield b"P9", request.minimum != 0
    if isinstance(request, Enter):
        yield b"P10", request.cross != b"N"
        yield b"P11", request.side not in SIDES
    else:
        yield b"P12", request.shares <= old.executed


def proposed(state: State, user: bytes, request: Enter | Replace, old: Order | None) -> Order:
    """The order that a request makes where it is granted, not numbered yet."""
    account = state.policy.user(user).role.account
    terms = (request.price, request.time_in_force, request.shares)
    if isinstance(request, Enter):
        fields = (user, account, request.token, request.side, bare(request.stock))
        return Order(0, *fields, *terms, 0, request.capacity, request.cross)
    fields = (user, account, request.token, old.side, old.stock)
    return Order(0, *fields, *terms, old.executed, old.capacity, old.cross)


def file_rules(state: State, moment: int, order: Order, old: Order | None, sweep: bytes) -> Asked:
    """The rules of the file that are for the order's account, in its order."""
    for rule in state.policy.rules:
        if covers(rule.accounts, order.account):
            yield rule.name, forbids(state, rule, moment, order, old, sweep)


def forbids(state: State, rule: Rule, moment: int, order: Order, old: Order | None, sweep: bytes) -> bool:
    """Whether a rule of the file forbids an order, which is to replace an old one if there is one."""
    limit = state.limits[rule.name]
    match rule.kind:
        case "halt" | "restricted":
            return order.stock in state.lists[rule.name]
        case "no_short":
            return order.side in (b"T", b"E")
        case "no_iso":
            return sweep == b"Y"
        case "odd_lot":
            return order.total % 100 != 0
        case "order_shares":
            return order.total > limit
        case "order_value":
            return order.total * order.price > limit
        case "collar":
            reference = state.references[order.stock]
            return abs(order.price - reference) * 10_000 > limit * reference
        case "gross_shares":
            return gross_shares(state, rule, order, old) > limit
        case "gross_value":
            return gross_value(state, rule, order, old) > limit
        case "net_shares":
            return net_shares(state, rule, order, old) > limit
        case "rate":
            return orders_within(state, rule, moment, order) >= limit
        case "repeat":
            return old is None and orders_alike(state, rule, order) >= limit
    raise ValueError(rule.kind)


# The figures of the day.


def open_orders(state: State, rule: Rule, order: Order, old: Order | None) -> list[Order]:
    """The open orders that count where a rule judges an order: the new one, and not the one that it replaces."""
    live = state.book.waiting + state.book.resting
    return [order] + [other for other in live if other is not old and state.is_counted(rule, order, other.account)]


def gross_shares(state: State, rule: Rule, order: Order, old: Order | None) -> int:
    """Open and executed shares, on both sides of all stocks."""
    executed = sum(
        shares for (account, _, _), shares in state.executed.items() if state.is_counted(rule, order, account)
    )
    return executed + sum(other.open for other in open_orders(state, rule, order, old))


def gross_value(state: State, rule: Rule, order: Order, old: Order | None) -> int:
    """What open shares are worth at their orders' prices, and executed ones at those of their fills."""
    executed = sum(value for account, value in state.executed_value.items() if state.is_counted(rule, order, account))
    return executed + sum(other.open * other.price for other in open_orders(state, rule, order, old))


def net_shares(state: State, rule: Rule, order: Order, old: Order | None) -> int:
    """In the order's stock: executed on its side less executed on the other, and open on its side."""
    executed = sum(
        shares if is_buy == order.is_buy else -shares
        for (account, stock, is_buy), shares in state.executed.items()
        if stock == order.stock and state.is_counted(rule, order, account)
    )
    return executed + sum(
        other.open for other in open_orders(state, rule, order, old)
        if (other.stock, other.is_buy) == (order.stock, order.is_buy)
    )


def orders_within(state: State, rule: Rule, moment: int, order: Order) -> int:
    """How many granted orders lie less than the window back."""
    return sum(
        moment - granted.moment < rule.back and state.is_counted(rule, order, granted.account)
        for granted in state.granted
    )


def orders_alike(state: State, rule: Rule, order: Order) -> int:
    """How many of the last granted Enters, as many as the span says, are like an order."""
    enters = [
        granted.alike for granted in state.granted
        if granted.is_enter and state.is_counted(rule, order, granted.account)
    ]
    return enters[-rule.back:].count((order.side, order.total, order.stock, order.price))


# Officers' commands.


def command_rules(state: State, user: bytes, command: Command) -> Asked:
    """The rules of a command."""
    officer = state.officer(user)
    yield b"G2", officer is None
    yield b"Q1", not are_names_known(state, command)
    yield b"Q2", POWERS[type(command)] not in officer.powers
    yield b"Q3", not all(covers(officer.accounts, account) for account in concerned(state, command))
    yield b"Q4", not would_change(state, user, command)


def are_names_known(state: State, command: Command) -> bool:
    """Whether the policy knows what a command names, and a rule has what it sets."""
    policy = state.policy
    match command:
        case Kill(account=account) | Lift(account=account):
            return policy.account(bare(account)) is not None
        case SetLimit():
            rule = policy.rule(bare(command.rule))
            return rule is not None and rule.kind in LIMITED
        case Restrict() | Unrestrict():
            rule = policy.rule(bare(command.rule))
            return rule is not None and rule.kind in LISTING and policy.stock(bare(command.stock)) is not None
        case Grant() | Revoke():
            reader = policy.user(bare(command.reader).upper())
            is_reader = reader is not None and isinstance(reader.role, Reader)
            return is_reader and policy.account(bare(command.account)) is not None
    return True


def concerned(state: State, command: Command) -> tuple[bytes, ...]:
    """The accounts that a command concerns."""
    match command:
        case SetLimit() | Restrict() | Unrestrict():
            scope = state.policy.rule(bare(command.rule)).accounts
            return tuple(account.name for account in state.policy.accounts) if scope is None else scope
        case CloseDay():
            return ()
    return (bare(command.account),)


def would_change(state: State, user: bytes, command: Command) -> bool:
    """Whether a command would change anything."""
    match command:
        case Kill():
            lifters = state.kills.get(bare(command.account))
            return lifters is None or len(lifters) > 0
        case Lift():
            lifters = state.kills.get(bare(command.account))
            return lifters is not None and user not in lifters
        case SetLimit():
            return state.limits[bare(command.rule)] != command.limit
        case Restrict():
            return bare(command.stock) not in state.lists[bare(command.rule)]
        case Unrestrict():
            return bare(command.stock) in state.lists[bare(command.rule)]
        case Grant():
            return bare(command.account) not in state.sights[bare(command.reader).upper()]
        case Revoke():
            return bare(command.account) in state.sights[bare(command.reader).upper()]
    return not state.is_closed
