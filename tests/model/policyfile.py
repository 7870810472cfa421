"""Reads a policy file: the policy that it means, or its first fault (docs/POLICY.md, "The policy file" and "Faults").

The functions follow the order in which faults are looked for. Each raises the fault that it finds, so the first one
ends the reading.
"""

import re
from dataclasses import dataclass, replace
from typing import Any

from policy import POWERS, Account, Officer, Policy, Reader, Rule, Scope, Stock, Trader, User
from toml import NotToml, read_toml

TOP_KEYS = ("version", "session", "account", "stock", "user", "rule")
MOST = {"account": 64, "stock": 1_024, "user": 256, "rule": 128}
CAPITALS = "[A-Z0-9_]"
VISIBLE = "[!-~]"
BUILT_IN = re.compile("[GIL][1-3]|P[1-9]|P1[0-2]|Q[1-4]")
ROLE_KEYS = {"trader": ("account",), "officer": ("powers", "accounts"), "reader": ("accounts",)}
KIND_KEYS = {
    "halt": ("stocks",), "restricted": ("stocks",), "no_short": (), "no_iso": (), "odd_lot": (),
    "order_shares": ("limit",), "order_value": ("limit",), "collar": ("limit",), "gross_shares": ("limit", "count"),
    "gross_value": ("limit", "count"), "net_shares": ("limit", "count"), "rate": ("limit", "window", "count"),
    "repeat": ("limit", "span", "count"),
}

Table = dict[str, Any]


@dataclass
class PolicyFault(Exception):
    """The first fault of a file: its number and its name."""

    number: int
    name: str


def not_toml() -> PolicyFault:
    """The bytes are no TOML."""
    return PolicyFault(1, "NotToml")


def missing_key() -> PolicyFault:
    """A required key is absent."""
    return PolicyFault(2, "MissingKey")


def unknown_key() -> PolicyFault:
    """A key stands where it is none of the keys."""
    return PolicyFault(3, "UnknownKey")


def bad_value() -> PolicyFault:
    """A value is of another type, out of its range, or not spelled as it may be."""
    return PolicyFault(4, "BadValue")


def unknown_name() -> PolicyFault:
    """A name of an account or stock that the file has not."""
    return PolicyFault(5, "UnknownName")


def duplicate_name() -> PolicyFault:
    """An entry has the name of an earlier one."""
    return PolicyFault(6, "DuplicateName")


def too_many() -> PolicyFault:
    """A place has more entries than it may have."""
    return PolicyFault(7, "TooMany")


def read_policy(content: bytes) -> tuple[int, Policy]:
    """The version of the file, and the policy that it means."""
    try:
        top = read_toml(content)
    except NotToml as error:
        raise not_toml() from error
    version, session, lifters = read_top(top)
    accounts = read_accounts(entries_of(top, "account"))
    known_accounts = [account.name for account in accounts]
    stocks = read_stocks(entries_of(top, "stock"))
    users = read_users(entries_of(top, "user"), known_accounts)
    rules = read_rules(entries_of(top, "rule"), version, known_accounts, [stock.name for stock in stocks])
    return version, Policy(session, lifters, accounts, stocks, users, rules)


def read_top(top: Table) -> tuple[int, bytes, int]:
    """The version, the session and the lifters; that the places are arrays of tables."""
    is_old = is_integer(top.get("version"), range(1, 2))
    check_keys(top, TOP_KEYS if is_old else (*TOP_KEYS, "lifters"))
    version = integer(top, "version", range(1, 3))
    session = name(top, "session", VISIBLE, 10)
    lifters = 1 if is_old else integer(top, "lifters", range(1, 3))
    for place in MOST:
        entries = top.get(place, [])
        if not isinstance(entries, list) or not all(isinstance(entry, dict) for entry in entries):
            raise bad_value()
    return version, session, lifters


def entries_of(top: Table, place: str) -> list[Table]:
    """The entries of a place, which are not too many."""
    entries = top.get(place, [])
    if len(entries) > MOST[place]:
        raise too_many()
    return entries


def read_accounts(entries: list[Table]) -> tuple[Account, ...]:
    """The accounts."""
    accounts: list[Account] = []
    for entry in entries:
        check_keys(entry, ("name", "firm"))
        account = Account(name(entry, "name", CAPITALS, 8), name(entry, "firm", CAPITALS, 4))
        accounts.append(new_in(accounts, account))
    return tuple(accounts)


def read_stocks(entries: list[Table]) -> tuple[Stock, ...]:
    """The stocks."""
    stocks: list[Stock] = []
    for entry in entries:
        check_keys(entry, ("name", "reference"))
        stock = Stock(name(entry, "name", VISIBLE, 8), integer(entry, "reference", range(1, 1_999_999_901)))
        stocks.append(new_in(stocks, stock))
    return tuple(stocks)


def read_users(entries: list[Table], accounts: list[bytes]) -> tuple[User, ...]:
    """The users. One of no known role is asked for the keys of all roles."""
    users: list[User] = []
    for entry in entries:
        keys = ROLE_KEYS.get(known(entry.get("role")), all_of(ROLE_KEYS))
        check_keys(entry, ("name", "password", "role", *keys))
        user_name = name(entry, "name", VISIBLE, 6).upper()
        password = name(entry, "password", VISIBLE, 10).upper()
        users.append(new_in(users, User(user_name, password, read_role(entry, accounts))))
    return tuple(users)


def read_role(entry: Table, accounts: list[bytes]) -> Trader | Officer | Reader:
    """What a user is."""
    match choice(entry, "role", tuple(ROLE_KEYS)):
        case "trader":
            account = name(entry, "account", CAPITALS, 8)
            if account not in accounts:
                raise unknown_name()
            return Trader(account)
        case "officer":
            powers = words(entry, "powers", "|".join(power.decode() for power in POWERS))
            return Officer(powers, read_scope(entry, accounts))
        case _:
            return Reader(read_scope(entry, accounts) or ())


def read_scope(entry: Table, accounts: list[bytes]) -> Scope:
    """The accounts that an entry names; None where it has no such key."""
    return listed(entry, "accounts", CAPITALS, accounts) if "accounts" in entry else None


def read_rules(entries: list[Table], version: int, accounts: list[bytes], stocks: list[bytes]) -> tuple[Rule, ...]:
    """The rules. One of no kind that the version knows is asked for the keys of all kinds."""
    kinds = {kind: keys for kind, keys in KIND_KEYS.items() if version > 1 or kind != "net_shares"}
    rules: list[Rule] = []
    for entry in entries:
        keys = kinds.get(known(entry.get("kind")), all_of(kinds))
        check_keys(entry, ("name", "kind", *keys, "accounts"))
        rule_name = name(entry, "name", CAPITALS, 8)
        if BUILT_IN.fullmatch(rule_name.decode()):
            raise bad_value()
        kind = choice(entry, "kind", tuple(kinds))
        rule = read_kind(entry, rule_name, kind, stocks)
        rules.append(new_in(rules, replace(rule, accounts=read_scope(entry, accounts))))
    return tuple(rules)


def read_kind(entry: Table, rule_name: bytes, kind: str, stocks: list[bytes]) -> Rule:
    """A rule with the keys that its kind has, for all accounts."""
    rule = Rule(rule_name, kind, None)
    many = range(1, 4_097) if kind in ("rate", "repeat") else range(2**63)
    for key in KIND_KEYS[kind]:
        match key:
            case "stocks":
                rule = replace(rule, stocks=listed(entry, key, VISIBLE, stocks))
            case "limit":
                rule = replace(rule, limit=integer(entry, key, many))
            case "window":
                rule = replace(rule, back=integer(entry, key, range(1, 2**63)))
            case "span":
                rule = replace(rule, back=integer(entry, key, range(rule.limit, 4_097)))
            case "count":
                rule = replace(rule, together=choice(entry, key, ("each", "together")) == "together")
    return rule


# The value of a key: each function raises MissingKey, then BadValue, then UnknownName.


def check_keys(table: Table, keys: tuple[str, ...]) -> None:
    """That a table has no other keys than these."""
    if not set(table) <= set(keys):
        raise unknown_key()


def value_of(table: Table, key: str) -> Any:
    """The value of a required key."""
    if key not in table:
        raise missing_key()
    return table[key]


def is_integer(value: Any, allowed: range) -> bool:
    """Whether a value is an integer, which in Python a bool is too, and in the range."""
    return isinstance(value, int) and not isinstance(value, bool) and value in allowed


def integer(table: Table, key: str, allowed: range) -> int:
    """An integer in a range."""
    value = value_of(table, key)
    if not is_integer(value, allowed):
        raise bad_value()
    return value


def is_text(value: Any, pattern: str) -> bool:
    """Whether a value is a string that is spelled so."""
    return isinstance(value, str) and re.fullmatch(pattern, value) is not None


def name(table: Table, key: str, letter: str, most: int) -> bytes:
    """A name of one to so many letters."""
    value = value_of(table, key)
    if not is_text(value, f"{letter}{{1,{most}}}"):
        raise bad_value()
    return value.encode()


def choice(table: Table, key: str, allowed: tuple[str, ...]) -> str:
    """One of some words."""
    value = value_of(table, key)
    if not isinstance(value, str) or value not in allowed:
        raise bad_value()
    return value


def words(table: Table, key: str, pattern: str) -> tuple[bytes, ...]:
    """An array of strings that are spelled so, each once."""
    value = value_of(table, key)
    if not isinstance(value, list) or not all(is_text(item, pattern) for item in value):
        raise bad_value()
    return tuple(dict.fromkeys(item.encode() for item in value))


def listed(table: Table, key: str, letter: str, known_names: list[bytes]) -> tuple[bytes, ...]:
    """An array of names that the file has, each once."""
    names = words(table, key, f"{letter}{{1,8}}")
    if not set(names) <= set(known_names):
        raise unknown_name()
    return names


def known(value: Any) -> str:
    """A value as a word that may be known; the empty word where it is no string."""
    return value if isinstance(value, str) else ""


def all_of(keys: dict[str, tuple[str, ...]]) -> tuple[str, ...]:
    """All keys of all roles or kinds."""
    return tuple(dict.fromkeys(key for own in keys.values() for key in own))


def new_in(entries: list[Any], entry: Any) -> Any:
    """An entry whose name no earlier one of its place has."""
    if any(earlier.name == entry.name for earlier in entries):
        raise duplicate_name()
    return entry
