#!/usr/bin/env python3
# Which records `gate show` shows, beside what this file works out by itself. Run as
#
#   tests/audit/shows.py [GATE] [--days 6] [--lines 400]
#
# GATE: the built program; where none is named, crates/gate/out/gate of this repository.
#
# It makes days with `gate script` out of chance (the same ones each time), has each shown whole as JSON, and works out from
# that alone which records each filter has to show: each account, each user, each stock, each rule, some orders, denials, spans
# of time, and some of these together. Then it asks `gate show` for the same, and compares. The CSV is read by Python's csv and
# compared with the JSON, field for field; the text has to have a line for each record. The status is 0 where all is the same.
"""`gate show` shows the records that a reading of its own finds."""

import argparse
import csv
import io
import json
import random
import subprocess
import sys
import tempfile
from pathlib import Path

TOP = Path(__file__).resolve().parents[2]
ACCOUNTS = ["NORTH", "SOUTH", "WEST"]
TRADERS = {"ANN": "NORTH", "ABE": "NORTH", "BEA": "SOUTH", "CAL": "WEST"}
STOCKS = ["ACME", "BOLT", "CORK"]
RULES = {"SIZE": None, "GROSS": ["NORTH", "SOUTH"], "HALT": None, "LIST": ["WEST"]}
TIMEOUT = 120

POLICY = """version = 1
session = "SHOWS"

[[account]]
name = "NORTH"
firm = "NRTH"

[[account]]
name = "SOUTH"
firm = "STH"

[[account]]
name = "WEST"
firm = "WST"

[[stock]]
name = "ACME"
reference = 100000

[[stock]]
name = "BOLT"
reference = 200000

[[stock]]
name = "CORK"
reference = 50000

[[user]]
name = "ANN"
password = "RIGHT"
role = "trader"
account = "NORTH"

[[user]]
name = "ABE"
password = "RIGHT"
role = "trader"
account = "NORTH"

[[user]]
name = "BEA"
password = "RIGHT"
role = "trader"
account = "SOUTH"

[[user]]
name = "CAL"
password = "RIGHT"
role = "trader"
account = "WEST"

[[user]]
name = "OPAL"
password = "RIGHT"
role = "officer"
powers = ["kill", "lift", "limits", "symbols", "people", "close"]

[[user]]
name = "RITA"
password = "RIGHT"
role = "reader"
accounts = ["NORTH"]

[[rule]]
name = "HALT"
kind = "halt"
stocks = []

[[rule]]
name = "LIST"
kind = "restricted"
stocks = []
accounts = ["WEST"]

[[rule]]
name = "SIZE"
kind = "order_shares"
limit = 900

[[rule]]
name = "GROSS"
kind = "gross_shares"
limit = 9000
count = "each"
accounts = ["NORTH", "SOUTH"]
"""


# A day out of chance.


def trader_line(chance: random.Random, user: str, tokens: dict[str, list[str]]) -> str:
    """An order, a replacement or a cut, most of them of an order that there is."""
    known = tokens[user]
    kind = chance.choice(["enter"] * 6 + ["replace"] * 2 + ["cancel"] * 2)
    if kind == "enter" or not known:
        token = f"T{len(known) + 1}"
        if chance.random() < 0.95:
            known.append(token)
        side = chance.choice("BS")
        shares = chance.choice([100, 200, 300, 1000])
        price = chance.choice([99000, 100000, 101000])
        life = chance.choice([0, 99999, 99999])
        stock = chance.choice(STOCKS + (["NONE"] if chance.random() < 0.1 else []))
        return f"enter {token} {side} {shares} {stock} {price} {life}"
    old = chance.choice(known[-6:])
    if kind == "cancel":
        return f"cancel {old} {chance.choice([0, 0, 50, 100])}"
    token = f"T{len(known) + 1}"
    known.append(token)
    return f"replace {old} {token} {chance.choice([150, 250, 400])} {chance.choice([99500, 100500])} 99999"


def officer_line(chance: random.Random, tag: int) -> str:
    """A command, about an account, a rule or a reader."""
    account = chance.choice(ACCOUNTS)
    stock = chance.choice(STOCKS)
    return chance.choice(
        [
            f"kill K{tag} {account}",
            f"lift K{tag} {account}",
            f"lift K{tag} {account}",
            f"limit K{tag} {chance.choice(['SIZE', 'GROSS', 'HALT'])} {chance.choice([800, 900, 9000])}",
            f"restrict K{tag} {chance.choice(['HALT', 'LIST'])} {stock}",
            f"unrestrict K{tag} {chance.choice(['HALT', 'LIST'])} {stock}",
            f"grant K{tag} RITA {account}",
            f"revoke K{tag} RITA {account}",
        ]
    )


def script_of(seed: int, lines: int) -> str:
    """A script of a day."""
    chance = random.Random(seed)
    moment = 34_200_000_000_000
    told = [f"{moment} {user} login RIGHT 1" for user in [*TRADERS, "OPAL", "RITA"]]
    told.append(f"{moment} ANN login WRONG 1")
    tokens: dict[str, list[str]] = {user: [] for user in TRADERS}
    for place in range(lines):
        moment += chance.choice([0, 1_000_000, 700_000_000, 5_000_000_000])
        if chance.random() < 0.06:
            told.append(f"{moment} OPAL {officer_line(chance, place)}")
        else:
            user = chance.choice(list(TRADERS))
            told.append(f"{moment} {user} {trader_line(chance, user, tokens)}")
        if chance.random() < 0.7:
            told.append(f"{moment} settle")
        if place == lines * 9 // 10:
            told.append(f"{moment} OPAL close CLOSE")
    told.append(f"{moment} CAL logout")
    return "\n".join(told) + "\n"


# What each filter has to show, from the JSON of the whole day.


class Day:
    """The records of a day, and which order each speaks of."""

    def __init__(self, records: list[dict]) -> None:
        self.records = records
        self.orders: dict[int, dict] = {}
        self.by_token: dict[tuple[str, str], int] = {}
        self.spoken: list[set[int]] = []
        self.ends: list[set[int]] = []
        self.over: set[int] = set()
        self.total: dict[int, int] = {}
        self.done: dict[int, int] = {}
        for record in records:
            self.spoken.append(self.orders_of(record))
            self.ends.append(self.ended_by(record))
            self.make(record)

    def orders_of(self, record: dict) -> set[int]:
        """The orders that the record names or matches."""
        numbers = {record[field] for field in ("order", "taker", "maker") if field in record}
        if record["kind"] in ("replace", "cancel"):
            number = self.by_token.get((record["user"], record["token"]))
            if number is not None:
                numbers.add(number)
        return numbers

    def ended_by(self, record: dict) -> set[int]:
        """The orders whose Kill or Close Day the record is."""
        if record["verdict"] != "granted" or record["kind"] not in ("kill", "close"):
            return set()
        account = record.get("named_account")
        return {
            number
            for number, order in self.orders.items()
            if number not in self.over and account in (None, order["account"])
        }

    def make(self, record: dict) -> None:
        """Notes the order that the record makes, and which ones it ends."""
        number, kind = record["number"], record["kind"]
        self.over |= self.ends[-1]
        if record["verdict"] == "expired":
            self.over.add(record["order"])
        if record["verdict"] == "filled":
            for filled in (record["taker"], record["maker"]):
                self.done[filled] += record["fill_shares"]
                self.end_if_done(filled)
        if record["verdict"] != "granted" or kind not in ("enter", "replace", "cancel"):
            return
        user = record["user"]
        if kind == "cancel":
            cut = self.by_token[user, record["token"]]
            self.total[cut] = min(self.total[cut], record["shares"])
            self.end_if_done(cut)
            return
        if kind == "enter":
            made = {"user": user, "account": TRADERS[user], "stock": record["stock"]}
            token, done = record["token"], 0
        else:
            old = self.by_token[user, record["token"]]
            self.over.add(old)
            made = dict(self.orders[old])
            token, done = record["new_token"], self.done[old]
        self.orders[number] = made
        self.total[number], self.done[number] = record["shares"], done
        self.by_token[user, token] = number
        self.spoken[-1].add(number)

    def end_if_done(self, number: int) -> None:
        """An order with nothing open lives no more."""
        if self.total[number] <= self.done[number]:
            self.over.add(number)

    def speaks_of(self, place: int, field: str, value: str) -> bool:
        """Whether the record speaks of an order with this value."""
        return any(self.orders[number][field] == value for number in self.spoken[place] if number in self.orders)

    def account(self, place: int, name: str) -> bool:
        record = self.records[place]
        if TRADERS.get(record.get("user", "")) == name or record.get("named_account") == name or record["kind"] == "close":
            return True
        rule = record.get("named_rule")
        if rule in RULES and (RULES[rule] is None or name in RULES[rule]):
            return True
        return self.speaks_of(place, "account", name)

    def user(self, place: int, name: str) -> bool:
        return self.records[place].get("user") == name or self.speaks_of(place, "user", name)

    def order(self, place: int, number: int) -> bool:
        return number in self.spoken[place] or number in self.ends[place]

    def stock(self, place: int, name: str) -> bool:
        record = self.records[place]
        return record.get("stock") == name or self.speaks_of(place, "stock", name)

    def rule(self, place: int, name: str) -> bool:
        record = self.records[place]
        return record.get("rule") == name or record.get("named_rule") == name

    def denied(self, place: int, _value: str) -> bool:
        return self.records[place]["verdict"] == "denied"

    def since(self, place: int, seconds: int) -> bool:
        return self.records[place]["moment"] >= seconds * 1_000_000_000

    def until(self, place: int, seconds: int) -> bool:
        return self.records[place]["moment"] <= seconds * 1_000_000_000


def clock_of(seconds: int) -> str:
    """The time as HH:MM:SS."""
    return f"{seconds // 3600:02}:{seconds // 60 % 60:02}:{seconds % 60:02}"


OPTIONS = {
    "account": "--account",
    "user": "--user",
    "order": "--order",
    "stock": "--stock",
    "rule": "--rule",
    "denied": "--denied",
    "since": "--from",
    "until": "--to",
}


def words_of(wanted: list[tuple[str, object]]) -> list[str]:
    """The options that ask for this."""
    words = []
    for kind, value in wanted:
        words.append(OPTIONS[kind])
        if kind in ("since", "until"):
            words.append(clock_of(int(value)))
        elif kind != "denied":
            words.append(str(value))
    return words


def filters_of(day: Day, chance: random.Random) -> list[list[tuple[str, object]]]:
    """What is asked for of a day."""
    single: list[tuple[str, object]] = [("account", name) for name in ACCOUNTS]
    single += [("user", name) for name in [*TRADERS, "OPAL", "RITA"]]
    single += [("stock", name) for name in STOCKS]
    single += [("rule", name) for name in [*RULES, "P1", "P2", "P4", "I1", "I2", "I3", "L1", "Q1", "Q4"]]
    single += [("order", number) for number in chance.sample(sorted(day.orders), min(25, len(day.orders)))]
    single.append(("order", day.records[-1]["number"] + 1))
    single.append(("denied", ""))
    first, last = (day.records[place]["moment"] // 1_000_000_000 for place in (0, -1))
    middle = (first + last) // 2
    single += [("since", middle), ("until", middle)]
    wanted = [[one] for one in single] + [[]]
    for _ in range(25):
        wanted.append(list({kind: (kind, value) for kind, value in chance.sample(single, 3)}.values()))
    wanted.append([("since", first + 10), ("until", middle)])
    return wanted


# The program.


class Gate:
    """The program, and what it answers."""

    def __init__(self, path: str, folder: Path) -> None:
        self.path = path
        self.policy = folder / "policy.toml"
        self.audit = folder / "audit"
        self.policy.write_text(POLICY)

    def run(self, *words: str, given: str = "") -> str:
        """What a run prints."""
        done = subprocess.run([self.path, *words], input=given, capture_output=True, text=True, timeout=TIMEOUT)
        if done.returncode != 0:
            sys.exit(f"gate {' '.join(words)}: status {done.returncode}: {done.stderr}")
        return done.stdout

    def show(self, *words: str) -> str:
        """The lines of `gate show`."""
        return self.run("show", str(self.audit), "--policy", str(self.policy), *words)

    def make(self, script: str) -> None:
        """Makes the audit of a day."""
        self.run("script", "--policy", str(self.policy), "--audit", str(self.audit), given=script)


def records_of(text: str) -> list[dict]:
    """The records of lines of JSON."""
    return [json.loads(line) for line in text.splitlines()]


def compare_csv(records: list[dict], text: str) -> None:
    """Compares the CSV with the JSON, field for field."""
    rows = list(csv.DictReader(io.StringIO(text)))
    if len(rows) != len(records):
        sys.exit(f"CSV has {len(rows)} records, JSON {len(records)}")
    for row, record in zip(rows, records):
        told = {field: str(value) for field, value in record.items()}
        if {field: value for field, value in row.items() if value} != told:
            sys.exit(f"record {record['number']}: CSV {row}, JSON {record}")


def compare_day(gate: Gate, seed: int, lines: int) -> int:
    """Compares all filters of a day: how many they are."""
    gate.make(script_of(seed, lines))
    day = Day(records_of(gate.show("--format", "json")))
    compare_csv(day.records, gate.show("--format", "csv"))
    if len(gate.show().splitlines()) != len(day.records):
        sys.exit("the text has not a line for each record")
    filters = filters_of(day, random.Random(seed))
    for wanted in filters:
        want = [
            record["number"]
            for place, record in enumerate(day.records)
            if all(getattr(day, kind)(place, value) for kind, value in wanted)
        ]
        words = words_of(wanted)
        found = [record["number"] for record in records_of(gate.show("--format", "json", *words))]
        if found != want:
            sys.exit(f"day {seed}: gate show {' '.join(words)}: shows {found}, has to show {want}")
    return len(filters)


def main() -> None:
    asked = argparse.ArgumentParser()
    asked.add_argument("gate", nargs="?", default=str(TOP / "crates" / "gate" / "out" / "gate"))
    asked.add_argument("--days", type=int, default=6)
    asked.add_argument("--lines", type=int, default=400)
    given = asked.parse_args()
    with tempfile.TemporaryDirectory() as folder:
        gate = Gate(given.gate, Path(folder))
        for seed in range(1, given.days + 1):
            count = compare_day(gate, seed, given.lines)
            print(f"day {seed}: {count} filters show what they have to, and CSV and JSON say the same")


if __name__ == "__main__":
    main()
