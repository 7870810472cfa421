"""A policy at random, as the table of its file, and the text of such a table."""

from random import Random
from typing import Any

from policyfile import KIND_KEYS, Table

VISIBLE = [chr(code) for code in range(33, 127)]
CAPITALS = "ABCDEFGHIJKLMNOPQRSTUVWXYZ0123456789_"
USERS = ("ALICE", "bob", "Carl", "OLGA", "OTTO", "ray", "RITA", "match", "settle", "stream", "#A", "X")
ACCOUNTS = ("ALFA", "BETA", "GAMMA", "D", "EIGHT_88")
STOCKS = ("TEST", "BRK.A", "ACME", "lower", "EIGHT_88", "#")
RULES = ("SIZE", "GROSS", "HALT", "P13", "L4", "G", "LONGNAME", "_", "0", "NET", "PACE", "TWIN", "BAND", "LIST")
REFERENCES = (1, 7, 100, 3_333, 9_999, 10_000, 10_000, 100_000, 100_000, 100_000, 250_000, 1_999_999_900)
POWERS = ("kill", "lift", "limits", "symbols", "people", "close")
GREATEST = 2**63 - 1


def chance(random: Random, percent: float) -> bool:
    """Whether so many of a hundred come out."""
    return random.random() * 100 < percent


def visible(random: Random, most: int) -> str:
    """Visible characters, one to so many."""
    return "".join(random.choices(VISIBLE, k=random.randint(1, most)))


def capitals(random: Random, most: int) -> str:
    """Characters of an account's name, one to so many."""
    return "".join(random.choices(CAPITALS, k=random.randint(1, most)))


def some(random: Random, items: list[Any]) -> list[Any]:
    """Some of the items, in any order."""
    return random.sample(items, random.randint(0, len(items)))


def random_policy(random: Random) -> Table:
    """A policy without a fault."""
    version = random.choice((1, 2, 2))
    accounts = random.sample(ACCOUNTS, random.randint(1, 4))
    stocks = random.sample(STOCKS, random.randint(1, 3))
    top: Table = {"version": version, "session": random.choice(("DAY01", "day~1", "0123456789", "x"))}
    if version == 2:
        top["lifters"] = random.choice((1, 2, 2))
    top["account"] = [{"name": name, "firm": capitals(random, 4)} for name in accounts]
    top["stock"] = [{"name": name, "reference": random.choice(REFERENCES)} for name in stocks]
    top["user"] = random_users(random, accounts)
    kinds = [kind for kind in KIND_KEYS if version == 2 or kind != "net_shares"]
    weights = [3 if "count" in KIND_KEYS[kind] else 1 for kind in kinds]
    names = random.sample(RULES, random.choice((0, 1, 2, 2, 3, 4, 6)))
    chosen = random.choices(kinds, weights, k=len(names))
    top["rule"] = [random_rule(random, name, kind, accounts, top["stock"]) for name, kind in zip(names, chosen)]
    return top


def random_users(random: Random, accounts: list[str]) -> list[Table]:
    """Traders, officers and readers."""
    roles = ["trader"] * random.randint(1, 4) + ["officer"] * random.randint(1, 3) + ["reader"] * random.randint(0, 2)
    random.shuffle(roles)
    names = random.sample(USERS, len(roles))
    return [random_user(random, name, role, accounts) for name, role in zip(names, roles)]


def random_user(random: Random, name: str, role: str, accounts: list[str]) -> Table:
    """A user of a role."""
    if chance(random, 15):
        name = name[:1] + visible(random, 5)
    user: Table = {"name": name, "password": visible(random, 10), "role": role}
    if role == "trader":
        user["account"] = random.choice(accounts)
    if role == "officer":
        user["powers"] = list(POWERS) if chance(random, 65) else some(random, list(POWERS))
    if role != "trader" and chance(random, 70 if role == "reader" else 30):
        user["accounts"] = some(random, accounts)
    return user


def random_rule(random: Random, name: str, kind: str, accounts: list[str], stocks: list[Table]) -> Table:
    """A rule of a kind, whose limits are met by some orders and passed by others."""
    rule: Table = {"name": name, "kind": kind}
    for key in KIND_KEYS[kind]:
        match key:
            case "stocks":
                rule[key] = some(random, [stock["name"] for stock in stocks[1:]])
            case "limit":
                rule[key] = random_limit(random, kind, random.choice(stocks)["reference"])
            case "window":
                rule[key] = random.choice((1, 2, 30, 100, 1_000, GREATEST))
            case "span":
                rule[key] = min(4_096, rule["limit"] + random.choice((0, 1, 5, 4_096)))
            case "count":
                rule[key] = random.choice(("each", "together"))
    if chance(random, 40):
        rule["accounts"] = some(random, accounts)
    return rule


def random_limit(random: Random, kind: str, reference: int) -> int:
    """A limit of a rule of a kind, in a stock of this reference price."""
    if chance(random, 6):
        return {"rate": 4_096, "repeat": 4_096}.get(kind, random.choice((0, 1, GREATEST)))
    shares = random.choice((50, 100, 200, 250, 300, 500, 1_000, 3_000))
    match kind:
        case "collar":
            return random.choice((1, 50, 100, 500, 9_999, 10_000, 20_000))
        case "rate" | "repeat":
            return random.randint(1, 4)
        case "order_value" | "gross_value":
            return shares * reference
    return shares


# The text of a file.


def toml_text(random: Random, top: Table) -> str:
    """A file that means a table, in one of the many spellings."""
    lines = [toml_line(random, key, value) for key, value in top.items() if not is_place(value)]
    random.shuffle(lines)
    blocks = [
        "\n".join([f"[[{key}]]"] + toml_lines(random, entry))
        for key, value in top.items() if is_place(value) for entry in value
    ]
    if chance(random, 30):
        blocks = shuffled_places(random, blocks)
    comment = ["# A policy at random."] if chance(random, 30) else []
    return "\n".join(comment + lines) + "\n\n" + "\n\n".join(blocks) + "\n"


def is_place(value: Any) -> bool:
    """Whether a value is an array of tables."""
    return isinstance(value, list) and bool(value) and all(isinstance(item, dict) for item in value)


def shuffled_places(random: Random, blocks: list[str]) -> list[str]:
    """Blocks in another order, those of one place in the same: their order means something."""
    order = [block.partition("\n")[0] for block in blocks]
    random.shuffle(order)
    rest = list(blocks)
    shuffled = []
    for head in order:
        block = next(block for block in rest if block.partition("\n")[0] == head)
        rest.remove(block)
        shuffled.append(block)
    return shuffled


def toml_lines(random: Random, entry: Table) -> list[str]:
    """The lines of an entry."""
    lines = [toml_line(random, key, value) for key, value in entry.items()]
    if chance(random, 20):
        random.shuffle(lines)
    return lines


def toml_line(random: Random, key: str, value: Any) -> str:
    """A key and its value."""
    word = f'"{key}"' if chance(random, 4) else key
    return f"{word} = {toml_value(random, value)}" + ("  # a comment" if chance(random, 4) else "")


def toml_value(random: Random, value: Any) -> str:
    """The text of a value."""
    match value:
        case bool():
            return "true" if value else "false"
        case int():
            return toml_integer(random, value)
        case str():
            return toml_string(random, value)
        case list():
            return "[" + ", ".join(toml_value(random, item) for item in value) + "]"
        case dict():
            return "{ " + ", ".join(f"{key} = {toml_value(random, item)}" for key, item in value.items()) + " }"
    return str(value)


def toml_integer(random: Random, value: int) -> str:
    """An integer, in one of its forms."""
    if value < 0 or chance(random, 90):
        return str(value)
    return random.choice((f"{value:_}", f"+{value}", f"0x{value:X}", f"0o{value:o}", f"0b{value:b}"))


def toml_string(random: Random, value: str) -> str:
    """A string, in one of its forms."""
    if "'" not in value and chance(random, 15) and value.isprintable():
        return f"'{value}'"
    escaped = value.replace("\\", "\\\\").replace('"', '\\"').replace("\n", "\\n").replace("\t", "\\t")
    if value and chance(random, 4):
        escaped = "".join(f"\\u{ord(letter):04X}" for letter in value)
    return f'"{escaped}"'
