"""A policy file at random: one without a fault, in which seldom nothing and mostly something is changed."""

import copy
from random import Random
from typing import Any

from policyfile import KIND_KEYS, MOST, Table
from random_policy import chance, random_policy, toml_text, visible

KEYS = (
    "version", "session", "lifters", "account", "stock", "user", "rule", "name", "firm", "reference", "password",
    "role", "powers", "accounts", "kind", "stocks", "limit", "window", "span", "count", "limt", "Name", "",
)
VALUES: tuple[Any, ...] = (
    0, 1, 2, 3, -1, 4_096, 4_097, 1_999_999_900, 1_999_999_901, 2**63 - 1, 2**63, -(2**63), -(2**63) - 1, 1.0, 2.5,
    True, False, "", " ", "1", "ALFA", "alfa", "BETA", "NOSUCH", "TEST", "test", "trader", "officer", "reader",
    "Trader", "kill", "halt", "net_shares", "gross_shares", "rate", "each", "together", "both", "P12", "P13", "P0",
    "G3", "G4", "Q4", "L0", "EIGHT_88", "NINE_CHAR", "a b", "\u00e4", "\x7f", "~", "!", "eleven_byte", [], ["ALFA"],
    ["ALFA", "ALFA"], ["ALFA", "alfa"], ["NOSUCH"], ["NOSUCH", 1], ["TEST"], ["kill", "kill"], ["fly"], [1], [[]], {},
    {"name": "ALFA"}, [{"name": "X"}], [{}, 1],
)
NEAR: dict[str, tuple[Any, ...]] = {
    "version": (0, 1, 2, 3, True, 1.0, "1"),
    "session": ("", "a b", "0123456789", "0123456789X", "\x7f", 1),
    "lifters": (0, 1, 2, 3, True, 1.0),
    "firm": ("", "a", "ABCD", "ABCDE", "A-", 1),
    "reference": (0, 1, 1_999_999_900, 1_999_999_901, True, -1, 1.0),
    "password": ("", "a b", "0123456789", "0123456789X", "\u00e4", 1),
    "role": ("trader", "officer", "reader", "Trader", "", 1, ["trader"]),
    "account": ("ALFA", "BETA", "alfa", "NOSUCH", "NINE_CHAR", 1),
    "powers": (["kill", "kill"], ["kill", "fly"], [1], [], "kill", ["Kill"]),
    "accounts": ([], ["ALFA"], ["ALFA", "ALFA"], ["NOSUCH"], ["NOSUCH", "alfa"], ["NOSUCH", 1], "ALFA", [["ALFA"]]),
    "kind": (*KIND_KEYS, "net_shares", "Halt", "", 1),
    "stocks": ([], ["TEST"], ["TEST", "TEST"], ["NOSUCH"], ["NOSUCH", "a b"], ["lower", "NINE_CHAR"], "TEST"),
    "limit": (0, 1, 4_096, 4_097, 2**63 - 1, 2**63, -1, True, 1.0),
    "window": (0, 1, 2**63 - 1, 2**63, -1, True),
    "span": (0, 1, 2, 3, 4, 5, 4_096, 4_097, True),
    "count": ("each", "together", "both", "", True),
    "name": ("G1", "G3", "G4", "I3", "P9", "P12", "P13", "P0", "P01", "L3", "Q4", "Q5", "a", "A B", "NINE_CHAR", ""),
}
LINES = (
    "= 1", "x", "x =", "[table]", "[[rule]]", "[[account]]", "[rule]", "version = 1", "# \u00e4", "# \x01", "# \t",
    "\t", "\r", 'session = "A"', "a.b = 1", 'rule.name = "X"', "[user.x]", "x = 'y", 'x = """y', 'x = """\ny"""',
    "x = 1979-05-27", "x = 1979-13-27", "x = 1979-02-29", "x = 07:32:00", "x = 24:00:00", "x = 1979-05-27T07:32:00Z",
    "x = 1979-05-27 07:32:00.5-07:00", "x = 1979-05-27 07:32", "x = 07:32", "x = inf", "x = nan", "x = -nan",
    "x = 1e5", "x = 1e999", "x = 1.", "x = .5", "x = 01", "x = 1__0", "x = 0xg", "x = +0x1", "x = -0", "x = +0.0",
    "x = { a = 1, a = 2 }", "x = { a = 1, }", "x = {\na = 1\n}", "x = { a = 1", "x = [1, 2,]", "x = [1 2]", "x = [,]",
    "x = [\n1,\n# c\n2\n]", "'x y' = 1", '"" = 1', '"a\\qb" = 1', 'x = "\\U0001F600"', 'x = "\\uD800"',
    'x = "\\U00110000"', 'x = "\\e"', 'x = "\\x41"', 'x = "\\/"', "\u00e4 = 1", "x.y = 1\nx.z = 2", "x = 1\nx.y = 2",
    "[x]\n[x]", "[x]\n[x.y]\n[x]", "[[x]]\n[x]", "[x.y]\n[x]", "x = 9223372036854775808", "x = -9223372036854775809",
    "x = 0x8000000000000000", "x = " + "[" * 79 + "]" * 79, "x = " + "[" * 81 + "]" * 81,
    "x = " + "{a=" * 82 + "1" + "}" * 82,
    "[" + ".".join("x" * 79) + "]", "[" + ".".join("x" * 82) + "]", ".".join("x" * 82) + " = 1", "lifters = 1",
    "lifters = 2", "x = true false", "x = True", "x = 1 # \x7f", "x = '\t'", "x = '\x01'", 'x = """a\\\n  b"""',
    "x = '''\na'''''", 'x = """"""""', "x = 1979-05-27t07:32:00z", "x = 1979-05-27 ", "x=1", "x\t=\t1\t", " [ y ] ",
)
PIECES = (
    b'"', b"'", b"[", b"]", b"=", b"\n", b"#", b" ", b"\\", b"{", b"}", b",", b".", b"\xff", b"\0", b"\xc3\xa4", b"\r",
    b"\r\n", b"0", b"_", b"\xef\xbb\xbf", b"\xe2\x80\xa8", b"-", b"x", b"\t", b'"""', b"1", b"\x0c", b"\xc2\xa0",
    b"\xed\xa0\x80", b"\x7f", b"e", b":",
)


def random_policyfile(random: Random) -> bytes:
    """A policy file."""
    top = random_policy(random)
    for _ in range(random.choice((0, 0, 1, 1, 2, 3))):
        change_table(random, top)
    text = toml_text(random, top)
    if chance(random, 15):
        lines = text.split("\n")
        for _ in range(random.choice((1, 1, 2))):
            lines.insert(random.randint(0, len(lines)), random.choice(LINES))
        text = "\n".join(lines)
    if chance(random, 4):
        text = text.replace("\n", "\r\n")
    content = text.encode()
    for _ in range(random.choice((1, 1, 2)) if chance(random, 20) else 0):
        content = change_bytes(random, content)
    return content


def change_table(random: Random, top: Table) -> None:
    """One change of what the file says."""
    if chance(random, 5):
        top["version"] = 3 - top["version"] if top.get("version") in (1, 2) else 1
        top.pop("lifters", None)
        return
    places = [place for place in MOST if isinstance(top.get(place), list)]
    place = random.choice(places) if places and chance(random, 85) else ""
    entries = top[place] if place else []
    if entries and chance(random, 12):
        change_entries(random, top, place)
        return
    tables = [entry for entry in entries if isinstance(entry, dict)]
    table = random.choice(tables) if tables else top
    if table and chance(random, 55):
        key = random.choice([key for key in table if key not in MOST] or list(table))
        table[key] = near_value(random, tables, key, table[key])
    else:
        change_key(random, table)


def change_entries(random: Random, top: Table, place: str) -> None:
    """As many entries as a place may have, or one more or less; or an entry that stands there twice."""
    entries = top[place]
    if chance(random, 30):
        most = MOST[place] + random.choice((-1, 0, 1))
        top[place] = [renamed(random.choice(entries), index) for index in range(most)]
    else:
        entries.insert(random.randint(0, len(entries)), copy.deepcopy(random.choice(entries)))


def renamed(entry: Any, index: int) -> Any:
    """An entry under a name of its own."""
    return {**entry, "name": f"N{index}"} if isinstance(entry, dict) else entry


def near_value(random: Random, tables: list[Table], key: str, old: Any) -> Any:
    """A value at the edge of what a key may have, or the name of another entry in either case of letters."""
    if key == "name" and chance(random, 50):
        name = str(random.choice(tables).get("name", "")) if tables else "X"
        return name.swapcase() if chance(random, 40) else name
    if isinstance(old, list) and chance(random, 40):
        return old + [random.choice(VALUES)]
    return copy.deepcopy(random.choice(NEAR.get(key, VALUES)))


def change_key(random: Random, table: Table) -> None:
    """A key taken out, or put in with any value."""
    key = random.choice(list(table)) if table and chance(random, 75) else random.choice(KEYS)
    if chance(random, 50):
        table.pop(key, None)
    else:
        table[key] = copy.deepcopy(random.choice(VALUES))


def change_bytes(random: Random, content: bytes) -> bytes:
    """A piece put in, taken out or put in the place of another, or the end cut off."""
    place = random.randint(0, len(content))
    drawn = random.random()
    if drawn < 0.45:
        return content[:place] + random.choice(PIECES) + content[place:]
    if drawn < 0.65:
        return content[:place] + content[place + random.choice((1, 1, 2, 10)):]
    if drawn < 0.9:
        return content[:place] + random.choice(PIECES) + content[place + 1:]
    return content[:place] if chance(random, 60) else random.choice(PIECES) + content
