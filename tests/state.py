#!/usr/bin/env python3
"""What `gate state` tells of a day, against what is worked out here from the lines of `gate show`.

A day at random is made by `gate script`: orders, replaces, cancels, fills, kills, lifts, limits, halts, logins and logouts.
Then, behind several of its records, and at several times of day, live orders, executed shares and values, kills, limits,
what is used of them, lists and lines are compared, each with the figure that a few lines of Python work out from the day's
records up to there. An audit whose last record is cut is taken as it stands; one that is not legal up to there, or
of another policy, is refused with status 4. Run as

  tests/state.py [GATE [SEED]]

GATE: the built program; where none is named, crates/gate/out/gate of this repository.
"""

import json
import random
import re
import subprocess
import sys
import tempfile
from dataclasses import dataclass, field
from pathlib import Path

TOP = Path(__file__).resolve().parents[1]
GATE = TOP / "crates" / "gate" / "out" / "gate"
SECOND = 10**9
RECORD = 128
STEPS = 400
PATIENCE_SECONDS = 60

POLICY = """version = 2
session = "GATE01"
lifters = 2
""" + "".join(f'[[account]]\nname = "{name}"\nfirm = "{name[:3]}"\n' for name in ("ALFA", "BETA", "GAMMA")) + "".join(
    f'[[stock]]\nname = "{name}"\nreference = {price}\n' for name, price in (("TEST", 100_000), ("ACME", 250_000))
) + "".join(
    f'[[user]]\nname = "{user}"\npassword = "RIGHT"\nrole = "trader"\naccount = "{account}"\n'
    for user, account in (("ALICE", "ALFA"), ("ANN", "ALFA"), ("BOB", "BETA"), ("GUS", "GAMMA"))
) + """[[user]]
name = "OLGA"
password = "RIGHT"
role = "officer"
powers = ["kill", "lift", "limits", "symbols", "people", "close"]

[[user]]
name = "OTTO"
password = "RIGHT"
role = "officer"
powers = ["kill", "lift", "limits", "symbols", "people", "close"]

[[rule]]
name = "HALT"
kind = "halt"
stocks = ["ACME"]

[[rule]]
name = "SIZE"
kind = "order_shares"
limit = 500

[[rule]]
name = "SHARES"
kind = "gross_shares"
limit = 9000
count = "each"
accounts = ["ALFA", "BETA"]

[[rule]]
name = "GROSS"
kind = "gross_value"
limit = 9000000000
count = "together"

[[rule]]
name = "NET"
kind = "net_shares"
limit = 3000
count = "each"
"""
ACCOUNT = {"ALICE": "ALFA", "ANN": "ALFA", "BOB": "BETA", "GUS": "GAMMA"}
OFFICERS = ["OLGA", "OTTO"]
ACCOUNTS = ["ALFA", "BETA", "GAMMA"]
STOCKS = ["TEST", "ACME"]
LIMITS = {"SIZE": 500, "SHARES": 9000, "GROSS": 9_000_000_000, "NET": 3000}


def script(chance: random.Random) -> str:
    """A day at random, a step a line."""
    lines, moment, tokens = [], 9 * 3600 * SECOND, {user: [] for user in ACCOUNT}
    lines += [f"{moment} {user} login RIGHT 1" for user in [*ACCOUNT, *OFFICERS]]
    lines.append(f"{moment} OLGA unrestrict U0 HALT ACME")
    for step in range(STEPS):
        moment += chance.randrange(1, 4 * SECOND)
        user = chance.choice(list(ACCOUNT))
        kind = chance.choices(
            ["enter", "replace", "cancel", "kill", "lift", "limit", "restrict", "unrestrict", "logout", "login"],
            [60, 9, 8, 1, 14, 3, 1, 6, 1, 6],
        )[0]
        price, shares = 100 * chance.randrange(990, 1011), 10 * chance.randrange(1, 60)
        if kind == "enter":
            token = f"T{step}"
            tokens[user].append(token)
            side, stock = chance.choice("BBBSTE"), chance.choice(STOCKS)
            ends = chance.choice([99_999, 99_999, 0])
            lines.append(f"{moment} {user} enter {token} {side} {shares} {stock} {price} {ends}")
        elif kind == "replace" and tokens[user]:
            old, token = chance.choice(tokens[user]), f"T{step}"
            tokens[user].append(token)
            lines.append(f"{moment} {user} replace {old} {token} {shares} {price} 99999")
        elif kind == "cancel" and tokens[user]:
            lines.append(f"{moment} {user} cancel {chance.choice(tokens[user])} {chance.choice([0, 10, 50])}")
        elif kind in ("kill", "lift"):
            lines.append(f"{moment} {chance.choice(OFFICERS)} {kind} C{step} {chance.choice(ACCOUNTS)}")
        elif kind == "limit":
            rule = chance.choice(list(LIMITS))
            lines.append(f"{moment} OLGA limit C{step} {rule} {LIMITS[rule] + chance.randrange(100)}")
        elif kind in ("restrict", "unrestrict"):
            lines.append(f"{moment} OLGA {kind} C{step} HALT {chance.choice(STOCKS)}")
        elif kind == "logout":
            lines.append(f"{moment} {user} logout")
        elif kind == "login":
            lines.append(f"{moment} {user} login RIGHT 1")
        if chance.random() < 0.8:
            lines.append(f"{moment} settle" if chance.random() < 0.7 else f"{moment} match")
    return "\n".join(lines) + "\n"


@dataclass
class Order:
    """An order, as it is open."""

    number: int
    user: str
    token: str
    side: str
    stock: str
    price: int
    total: int
    done: int = 0
    waits: bool = True
    is_live: bool = True

    @property
    def account(self) -> str:
        return ACCOUNT[self.user]

    @property
    def open(self) -> int:
        return self.total - self.done if self.is_live else 0

    @property
    def buys(self) -> bool:
        return self.side == "B"


@dataclass
class Day:
    """What stands, worked out from the lines of the records."""

    orders: dict = field(default_factory=dict)
    fills: list = field(default_factory=list)
    kills: dict = field(default_factory=dict)
    lifts: dict = field(default_factory=dict)
    limits: dict = field(default_factory=dict)
    lists: dict = field(default_factory=lambda: {"ACME": None})
    lines: dict = field(default_factory=dict)
    number: int = 0
    moment: int = 0
    highest_line: int = 0

    def live(self) -> list:
        return [order for order in self.orders.values() if order.is_live]

    def under(self, user: str, token: str) -> Order:
        return next(order for order in self.live() if (order.user, order.token) == (user, token))

    def end_if_done(self, order: Order) -> None:
        if order.total <= order.done:
            order.is_live = False

    def take(self, words: list, line: int) -> None:
        """What a granted request does; `words` are its user and what he asked for."""
        user, kind, *more = words
        mark = {"officer": user, "record": self.number, "at": clock(self.moment)}
        if kind == "login":
            self.lines[user] = line
        elif kind == "logout":
            self.lines.pop(user, None)
        elif kind == "enter":
            token, side, shares, stock, price, _ends = more
            self.orders[self.number] = Order(self.number, user, token, side, stock, int(price), int(shares))
        elif kind == "replace":
            old, token, shares, price, _ends = more
            before = self.under(user, old)
            before.is_live = False
            order = Order(self.number, user, token, before.side, before.stock, int(price), int(shares), before.done)
            self.orders[self.number] = order
        elif kind == "cancel":
            order = self.under(user, more[0])
            order.total = min(order.total, int(more[1]))
            self.end_if_done(order)
        elif kind == "kill":
            self.kills[more[1]] = mark
            self.lifts[more[1]] = {}
            for order in self.live():
                if order.account == more[1]:
                    order.is_live = False
        elif kind == "lift":
            self.lifts[more[1]][user] = mark
            if len(self.lifts[more[1]]) == 2:
                del self.kills[more[1]], self.lifts[more[1]]
        elif kind == "limit":
            self.limits[more[1]] = (int(more[2]), mark)
        elif kind == "restrict":
            self.lists[more[2]] = mark
        elif kind == "unrestrict":
            self.lists.pop(more[2], None)

    def match(self, kind: str, more: list) -> None:
        """What a matching step does."""
        if kind == "filled":
            taker, maker, shares, price = (int(word) for word in more)
            for order in (self.orders[taker], self.orders[maker]):
                order.done += shares
                self.fills.append((order, shares, price))
                self.end_if_done(order)
        elif kind == "rested":
            self.orders[int(more[0])].waits = False
        elif kind == "expired":
            self.orders[int(more[0])].is_live = False


def clock(moment: int) -> str:
    """A moment as a clock shows it."""
    seconds, nanoseconds = divmod(moment, SECOND)
    return f"{seconds // 3600:02}:{seconds // 60 % 60:02}:{seconds % 60:02}.{nanoseconds:09}"


def dollars(amount: int) -> str:
    """Ten-thousandths of a dollar as a person reads them: to the cent, or with all four digits."""
    whole, part = divmod(amount, 10_000)
    return f"${whole:,}.{part // 100:02}" if part % 100 == 0 else f"${whole:,}.{part:04}"


SHOWN = re.compile(r"(?:(?P<asked>.*?) )?# (?:line (?P<line>\d+) )?at (?P<moment>\d+): (?P<number>\d+) (?P<verdict>\w+) ?(?P<more>.*)")


def days(shown: str) -> list:
    """The day behind no record, behind the first, and so on: each as the figures that are compared."""
    day, told = Day(), []
    told.append((0, figures(day)))
    for text in shown.splitlines():
        found = SHOWN.fullmatch(text)
        if not found:
            sys.exit(f"not understood: {text}")
        day.number, day.moment = int(found["number"]), int(found["moment"])
        day.highest_line = max(day.highest_line, int(found["line"] or 0))
        if found["verdict"] == "granted":
            day.take(found["asked"].split()[1:], int(found["line"]))
        elif found["verdict"] != "denied":
            day.match(found["verdict"], found["more"].split())
        told.append((day.moment, figures(day)))
    return told


def used(day: Day, accounts: list, stock: str | None = None, buys: bool | None = None, value: bool = False) -> int:
    """What these accounts have open and executed: shares, or their value; on a side of a stock less what they did on the other."""
    total = 0
    for order in day.live():
        if order.account in accounts and stock in (None, order.stock) and buys in (None, order.buys):
            total += order.open * (order.price if value else 1)
    for order, shares, price in day.fills:
        if order.account in accounts and stock in (None, order.stock):
            sign = -1 if buys is not None and order.buys != buys else 1
            total += sign * shares * (price if value else 1)
    return total


def executed(day: Day, account: str, buys: bool) -> dict:
    made = [(shares, price) for order, shares, price in day.fills if (order.account, order.buys) == (account, buys)]
    return {"shares": sum(shares for shares, _ in made), "value": sum(shares * price for shares, price in made)}


def account_row(day: Day, name: str) -> dict:
    live = [order for order in day.live() if order.account == name]
    return {
        "account": name,
        "killed": name in day.kills,
        "kill": day.kills.get(name),
        "lift": max(day.lifts.get(name, {}).values(), key=lambda mark: mark["record"], default=None),
        "live": len(live),
        "open_buys": sum(order.open for order in live if order.buys),
        "open_sells": sum(order.open for order in live if not order.buys),
        "bought": executed(day, name, True),
        "sold": executed(day, name, False),
    }


def net_row(day: Day, limit: int, name: str, stock: str) -> dict:
    buys, sells = (used(day, [name], stock, side) for side in (True, False))
    left = {"buys_left": max(limit - buys, 0), "sells_left": max(limit - sells, 0)}
    return {"account": name, "stock": stock, "buys": buys, "sells": sells, **left}


def rule_row(day: Day, rule: str) -> dict:
    limit, mark = day.limits.get(rule, (LIMITS[rule], None))
    row = {"rule": rule, "limit": limit, "file": LIMITS[rule], "set": mark}
    if rule in ("SHARES", "GROSS"):
        row["gross"] = []
        for name in ACCOUNTS:
            mine = ACCOUNTS if rule == "GROSS" else [name]
            amount = used(day, mine, value=rule == "GROSS") if rule == "GROSS" or name != "GAMMA" else None
            left = None if amount is None else max(limit - amount, 0)
            row["gross"].append({"account": name, "used": amount, "left": left})
    if rule == "NET":
        row["net"] = [net_row(day, limit, name, stock) for name in ACCOUNTS for stock in STOCKS]
    return row


def figures(day: Day) -> dict:
    """All that `gate state --json --orders` tells."""
    halted = [{"stock": stock, "listed": stock in day.lists, "put": day.lists.get(stock)} for stock in STOCKS]
    return {
        "session": "GATE01",
        "record": day.number,
        "records_left": 16_777_216 - day.number,
        "lines_left": 65_535 - day.highest_line,
        "at": clock(day.moment),
        "closed": False,
        "users": [{"user": user, "line": day.lines.get(user)} for user in [*ACCOUNT, *OFFICERS]],
        "accounts": [account_row(day, name) for name in ACCOUNTS],
        "rules": [
            {"rule": "HALT", "limit": None, "file": None, "set": None, "stocks": halted},
            *(rule_row(day, rule) for rule in LIMITS),
        ],
        "orders": [
            {
                "order": order.number, "account": order.account, "user": order.user, "token": order.token, "side": order.side,
                "open": order.open, "total": order.total, "stock": order.stock, "price": order.price, "waits": order.waits,
            }
            for order in day.live()
        ],
    }


def by(mark: dict) -> str:
    """Who gave a command, when, and its record, as the lines of the text form have it."""
    return f"{mark['officer']} {mark['at']}, record {mark['record']}"


def account_line(row: dict) -> str:
    """The line of an account in the text form, with one space between words."""
    line = f"account {row['account']} live {row['live']} open B {row['open_buys']} open S {row['open_sells']}"
    for side, done in (("B", row["bought"]), ("S", row["sold"])):
        line += f" done {side} {done['shares']} for {dollars(done['value'])}"
    line += " KILLED" if row["killed"] else ""
    line += f" by {by(row['kill'])}" if row["kill"] else ""
    return line + (f" lifted by {by(row['lift'])}" if row["lift"] else "")


def limit_lines(row: dict) -> list:
    """The lines of a rule's limit and of what is used of it in the text form, with one space between words."""
    if row["limit"] is None:
        return []
    name, amount = row["rule"], dollars if row["rule"] == "GROSS" else str
    set_by = f" set by {by(row['set'])}" if row["set"] else ""
    lines = [f"limit {name} {amount(row['limit'])} file {amount(row['file'])}{set_by}"]
    for used in row.get("gross", []):
        if used["used"] is not None:
            whose = "together" if name == "GROSS" else used["account"]
            lines.append(f"used {name} {whose} used {amount(used['used'])} left {amount(used['left'])}")
    return lines[:2] if name == "GROSS" else lines


def lines_of(told: dict) -> list:
    """The lines of accounts, of limits and of what is used of gross limits in the text form."""
    return [*map(account_line, told["accounts"]), *(line for row in told["rules"] for line in limit_lines(row))]


class Gate:
    """The program, with a policy and an audit."""

    def __init__(self, program: str, folder: Path) -> None:
        self.program = program
        self.policy = folder / "day.toml"
        self.audit = folder / "day.gxh"
        self.third = folder / "third.gxh"
        self.policy.write_text(POLICY)

    def run(self, *words: object, given: str = "") -> tuple[int, str]:
        ran = subprocess.run(
            [self.program, *map(str, words), "--policy", self.policy], input=given, capture_output=True, text=True, timeout=PATIENCE_SECONDS
        )
        return ran.returncode, ran.stdout

    def state(self, *words: object, audit: Path | None = None) -> dict:
        status, told = self.run("state", audit or self.audit, "--json", "--orders", *words)
        if status != 0:
            sys.exit(f"state {words}: status {status}: {told}")
        return json.loads(told)

    def lines(self, *words: object) -> list:
        """The same lines of the text form as `lines_of` makes, with one space between words."""
        told = self.run("state", self.audit, *words)[1]
        lines = [" ".join(line.split()) for line in told.splitlines()]
        return [line for line in lines if line.startswith(("account ", "limit ", "used "))]


def same(what: str, told: dict, expected: dict) -> None:
    if told != expected:
        for key in expected:
            if told.get(key) != expected[key]:
                print(f"{what}, {key}:\n  told     {told.get(key)}\n  expected {expected[key]}")
        sys.exit(1)


def main() -> None:
    chance = random.Random(int(sys.argv[2]) if len(sys.argv) > 2 else 1)
    with tempfile.TemporaryDirectory() as folder:
        gate = Gate(sys.argv[1] if len(sys.argv) > 1 else str(GATE), Path(folder))
        steps = script(chance)
        status, told = gate.run("script", "--audit", gate.audit, given=steps)
        if status != 0:
            sys.exit(f"script: status {status}: {told[-300:]}")
        expected = days(gate.run("show", gate.audit)[1])
        last = len(expected) - 1
        same("at the end", gate.state(), expected[last][1])
        places = sorted({0, 1, last, *chance.sample(range(last), 12)})
        for place in places:
            same(f"behind record {place}", gate.state("--at", place), expected[place][1])
            told, wanted = gate.lines("--at", place), lines_of(expected[place][1])
            same(f"in words, behind record {place}", dict(enumerate(told)), dict(enumerate(wanted)))
        times = [9 * 3600 + minutes * 60 + 7 for minutes in (0, 3, 8)]
        for time in times:
            count = max(place for place, (moment, _) in enumerate(expected) if place == 0 or moment <= time * SECOND)
            at = f"{time // 3600:02}:{time // 60 % 60:02}:{time % 60:02}"
            same(f"at {at}", gate.state("--at", at), expected[count][1])
        whole = gate.audit.read_bytes()
        gate.audit.write_bytes(whole[:-50])
        same("cut in its last record", gate.state(), expected[last - 1][1])
        # another verdict on a record in the middle: nothing is told behind it, and all before it
        middle = last // 2
        place = RECORD * (middle + 1)
        wrong = bytearray(whole)
        wrong[place - 1 - RECORD : place - RECORD] = b"\xff"
        gate.audit.write_bytes(bytes(wrong))
        if gate.run("state", gate.audit)[0] != 4:
            sys.exit("an audit with a wrong record was taken")
        same("before a wrong record", gate.state("--at", middle - 2), expected[middle - 2][1])
        gate.audit.write_bytes(whole)
        # version 2 of an audit names the session, version 3 has the policy's digest
        status, _ = gate.run("script", "--audit-version", 3, "--audit", gate.third, given=steps)
        same("of version 3", gate.state(audit=gate.third), expected[last][1])
        for audit, old, new in ((gate.audit, "GATE01", "GATE02"), (gate.third, "limit = 9000", "limit = 9001")):
            gate.policy.write_text(POLICY.replace(old, new))
            if gate.run("state", audit) != (4, "other policy\n"):
                sys.exit(f"{audit.name} was taken under another policy")
    print(f"{last} records, {len(places)} places, {len(times)} times: all as worked out from the records")


if __name__ == "__main__":
    main()
