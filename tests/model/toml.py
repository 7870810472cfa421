"""Reads TOML (https://toml.io), with the forms of version 1.1: what a policy file is written in.

The standard library's `tomllib` is not used, since which version it reads depends on that of Python. Floats and moments
are no values of a policy, so `Other` stands for each of them.
"""

import re
from calendar import monthrange
from dataclasses import dataclass, field
from math import isinf
from typing import Any

INTEGERS = range(-(2**63), 2**63)
NESTING = 80
"""So many arrays and inline tables may stand in each other, and so many parts may a key have."""
BARE = r"[A-Za-z0-9_-]+"
COMMENT = r"#[^\x00-\x08\x0a-\x1f\x7f]*"
BLANK = rf"(?:[ \t]|\r?\n|{COMMENT}(?=\r?\n|\Z))*"
"""What may stand between the items of an array or an inline table."""
DIGITS = r"[0-9](?:_?[0-9])*"
DECIMAL = r"(?:0|[1-9](?:_?[0-9])*)"
FLOAT = rf"[+-]?(?:inf|nan|{DECIMAL}(?:\.{DIGITS}(?:[eE][+-]?{DIGITS})?|[eE][+-]?{DIGITS}))"
PREFIXED = r"0x[0-9A-Fa-f](?:_?[0-9A-Fa-f])*|0o[0-7](?:_?[0-7])*|0b[01](?:_?[01])*"
DATE = r"(?P<year>\d{4})-(?P<month>\d\d)-(?P<day>\d\d)"
TIME = r"(?P<hour>\d\d):(?P<minute>\d\d)(?::(?P<second>\d\d)(?:\.\d+)?)?"
OFFSET = r"(?:[Zz]|[+-](?P<hours>\d\d):(?P<minutes>\d\d))?"
MOMENTS = (rf"{DATE}[Tt ]{TIME}{OFFSET}", DATE, TIME)
ESCAPES = {"b": "\b", "t": "\t", "n": "\n", "f": "\f", "r": "\r", "e": "\x1b", '"': '"', "\\": "\\"}
CODES = {"x": 2, "u": 4, "U": 8}


class NotToml(Exception):
    """The text is no TOML."""


class Other:
    """A value that no key of a policy has: a float, a date or a time."""


class Table(dict[str, Any]):
    """A table, and what made it: a header that names it, one that names a table in it, a dotted key, or braces."""

    made_by = ""


class Tables(list[Table]):
    """An array of tables that headers made."""


def read_toml(content: bytes) -> Table:
    """The table of a whole text."""
    try:
        text = content.decode()
    except UnicodeDecodeError as error:
        raise NotToml from error
    return Reader(text).document()


@dataclass
class Reader:
    """A text, and how far it is read."""

    text: str
    place: int = 0
    top: Table = field(default_factory=Table)

    def take(self, pattern: str) -> str | None:
        """What stands here and matches, which is then behind; None where nothing does."""
        found = re.compile(pattern, re.ASCII).match(self.text, self.place)
        if found is None:
            return None
        self.place = found.end()
        return found[0]

    def want(self, pattern: str) -> str:
        """What has to stand here."""
        found = self.take(pattern)
        if found is None:
            raise NotToml
        return found

    def document(self) -> Table:
        """Lines, each a header, a key with its value, or neither."""
        here = self.top
        while self.place < len(self.text):
            self.take(r"[ \t]*")
            if self.take(r"\[\["):
                here = self.entry(self.header("]]"))
            elif self.take(r"\["):
                here = self.table(self.header("]"))
            elif self.take(rf"(?={BARE}|[\"'])") is not None:
                self.key_and_value(here, 0)
            self.take(rf"[ \t]*(?:{COMMENT})?")
            self.want(r"\r?\n|\Z")
        return self.top

    # Keys and headers.

    def header(self, end: str) -> list[str]:
        """The path in a header, whose brackets are open."""
        path = self.path()
        self.want(re.escape(end))
        return path

    def path(self) -> list[str]:
        """The parts of a key."""
        parts = []
        while not parts or self.take(r"\."):
            self.take(r"[ \t]*")
            parts.append(self.key())
            self.take(r"[ \t]*")
        if len(parts) > NESTING:
            raise NotToml
        return parts

    def key(self) -> str:
        """A part of a key: bare or a string of one line."""
        if self.take('"'):
            return self.basic_string()
        if self.take("'"):
            return self.want(r"[^'\x00-\x08\x0a-\x1f\x7f]*'")[:-1]
        return self.want(BARE)

    def parent(self, path: list[str]) -> Table:
        """The table that the last part of a header's path stands in: of an array of tables its last one."""
        here = self.top
        for part in path[:-1]:
            if part not in here:
                here[part] = Table()
                here[part].made_by = "path"
            here = here[part][-1] if isinstance(here[part], Tables) else here[part]
            if not isinstance(here, Table) or here.made_by == "braces":
                raise NotToml
        return here

    def table(self, path: list[str]) -> Table:
        """The table that a header names: a new one, or one that was only named on the way to another."""
        here = self.parent(path)
        table = here.setdefault(path[-1], Table())
        if not isinstance(table, Table) or table.made_by not in ("", "path"):
            raise NotToml
        table.made_by = "header"
        return table

    def entry(self, path: list[str]) -> Table:
        """A new entry of an array of tables."""
        here = self.parent(path)
        tables = here.setdefault(path[-1], Tables())
        if not isinstance(tables, Tables):
            raise NotToml
        tables.append(Table())
        tables[-1].made_by = "header"
        return tables[-1]

    def key_and_value(self, here: Table, depth: int) -> None:
        """A key that is new in a table, and its value."""
        *path, last = self.path()
        for part in path:
            if part not in here:
                here[part] = Table()
                here[part].made_by = "key"
            here = here[part]
            if not isinstance(here, Table) or here.made_by != "key":
                raise NotToml
        self.want(r"=[ \t]*")
        value = self.value(depth)
        if last in here:
            raise NotToml
        here[last] = value

    # Values.

    def value(self, depth: int) -> Any:
        """A value, inside so many arrays and inline tables."""
        if depth >= NESTING and self.take(r"(?=[\[{])") is not None:
            raise NotToml
        if self.take('"""'):
            return self.basic_text()
        if self.take("'''"):
            self.take(r"\r?\n")
            return self.want(r"(?:(?!''')(?:[^\x00-\x08\x0b-\x1f\x7f]|\r\n))*''''{0,2}")[:-3]
        if self.take(r"(?=[\"'])") is not None:
            return self.key()
        if self.take(r"\["):
            return self.array(depth)
        if self.take(r"\{"):
            return self.inline_table(depth)
        word = self.take(r"true\b|false\b")
        return self.number_or_moment() if word is None else word == "true"

    def number_or_moment(self) -> int | Other:
        """An integer of 64 bits, a float, a date or a time."""
        if any(self.take_moment(pattern) for pattern in MOMENTS):
            return Other()
        number = self.take(FLOAT)
        if number is not None:
            if isinf(float(number.replace("_", ""))) and "inf" not in number:
                raise NotToml
            return Other()
        prefixed = self.take(PREFIXED)
        value = int(prefixed, 0) if prefixed is not None else int(self.want(rf"[+-]?{DECIMAL}"))
        if value not in INTEGERS:
            raise NotToml
        return value

    def take_moment(self, pattern: str) -> bool:
        """Whether a date or a time of this form stands here, which is then behind; it has to be on the calendar."""
        found = re.compile(pattern, re.ASCII).match(self.text, self.place)
        if found is None:
            return False
        self.place = found.end()
        part = {name: int(digits) for name, digits in found.groupdict(default="0").items()}
        if "year" in part:
            is_month = 1 <= part["month"] <= 12
            if not is_month or not 1 <= part["day"] <= monthrange(part["year"] or 4, part["month"])[1]:
                raise NotToml
        limits = {"hour": 23, "minute": 59, "second": 60, "hours": 23, "minutes": 59}
        if any(part.get(name, 0) > limit for name, limit in limits.items()):
            raise NotToml
        return True

    def array(self, depth: int) -> list[Any]:
        """An array, whose bracket is open. A comma may stand behind its last item."""
        items = []
        self.take(BLANK)
        while not self.take(r"\]"):
            items.append(self.value(depth + 1))
            self.take(BLANK)
            self.want(r",|(?=\])")
            self.take(BLANK)
        return items

    def inline_table(self, depth: int) -> Table:
        """A table in braces, of which one is open. A comma may stand behind its last value."""
        table = Table()
        self.take(BLANK)
        while not self.take(r"\}"):
            self.key_and_value(table, depth + 1)
            self.take(BLANK)
            self.want(r",|(?=\})")
            self.take(BLANK)
        freeze(table)
        return table

    # Strings.

    def basic_string(self) -> str:
        """A string whose quote is open, to the next one."""
        parts = []
        while not self.take('"'):
            parts.append(self.take(r'[^"\\\x00-\x08\x0a-\x1f\x7f]+') or self.escape())
        return "".join(parts)

    def basic_text(self) -> str:
        """A string of more lines, whose quotes are open."""
        self.take(r"\r?\n")
        parts = []
        while (end := self.take(r'""""{0,2}')) is None:
            if self.take(r"\\[ \t]*\r?\n(?:[ \t]|\r?\n)*") is None:
                parts.append(self.take(r'(?:[^"\\\x00-\x08\x0b-\x1f\x7f]|\r\n)+|"') or self.escape())
        return "".join(parts) + end[3:]

    def escape(self) -> str:
        """What an escape stands for."""
        letter = self.want(r'\\[btnfre"\\xuU]')[1]
        if letter in ESCAPES:
            return ESCAPES[letter]
        code = int(self.want(f"[0-9A-Fa-f]{{{CODES[letter]}}}"), 16)
        if code > 0x10FFFF or 0xD800 <= code <= 0xDFFF:
            raise NotToml
        return chr(code)


def freeze(table: Table) -> None:
    """Nothing is put into a table in braces any more, nor into one that a dotted key made there."""
    table.made_by = "braces"
    for value in table.values():
        if isinstance(value, Table):
            freeze(value)
