#!/usr/bin/env python3
"""What `gate report` tells of ten days at random, against what is worked out here from the records of `gate show`.

The days are those of tests/state.py: orders, replaces, cancels, fills, kills, lifts, limits, halts. Each table of the
report is compared row by row with figures that a few lines of Python work out from `gate show --format json`: what accounts
were granted and denied, what they executed, the most that was used of each limit behind any record, the first record behind
which more than the limit was used, commands with what stood before them and what they ended, denials, and counts over the
day. The text, CSV and HTML forms have the same figures. An audit of another policy, or one that is not legal, is refused with
status 4. Run as

  tests/report.py [GATE [DAYS]]

GATE: the built program; where none is named, crates/gate/out/gate of this repository.
"""

import csv
import hashlib
import html.parser
import io
import json
import random
import re
import shutil
import subprocess
import sys
import tempfile
import zlib
from collections import Counter
from pathlib import Path

sys.dont_write_bytecode = True
sys.path.insert(0, str(Path(__file__).resolve().parent))

import state  # noqa: E402  (beside this file)

SPANS = 48
PATIENCE_SECONDS = 60
INSTALL_SECONDS = 240
COUNTED = ("enter", "replace", "cancel")
GROSS = [("SHARES", "ALFA"), ("SHARES", "BETA"), ("GROSS", "ALFA"), ("GROSS", "BETA"), ("GROSS", "GAMMA")]
NET = [("NET", name, stock, buys) for name in state.ACCOUNTS for stock in state.STOCKS for buys in (True, False)]


def clock(moment: int) -> str:
    """A moment as the report shows it."""
    return state.clock(moment)[:-3]


def words_of(record: dict) -> list:
    """What a record asks for, in the words of a script's line behind the moment."""
    kind, user = record["kind"], record["user"]
    number = lambda name: str(record[name])
    if kind == "login":
        return [user, "login"]
    if kind == "enter":
        fields = [record["token"], record["side"], number("shares"), record["stock"], number("price"), number("time_in_force")]
        return [user, "enter", *fields]
    if kind == "replace":
        return [user, "replace", record["token"], record["new_token"], number("shares"), number("price"), ""]
    if kind == "cancel":
        return [user, "cancel", record["token"], number("shares")]
    if kind in ("kill", "lift"):
        return [user, kind, record["tag"], record["named_account"]]
    if kind == "limit":
        return [user, "limit", record["tag"], record["named_rule"], number("limit")]
    if kind in ("restrict", "unrestrict"):
        return [user, kind, record["tag"], record["named_rule"], record["stock"]]
    return [user, kind]


class Peaks:
    """The most that was used of each limit so far."""

    def __init__(self) -> None:
        self.rows = {}
        for key in [*GROSS, *NET]:
            limit = state.LIMITS[key[0]]
            self.rows[key] = {"used": 0, "number": 0, "moment": 0, "limit": limit, "past": None}

    def used(self, day, key: tuple) -> int:
        rule, name, *side = key
        if rule == "NET":
            return state.used(day, [name], *side)
        return state.used(day, state.ACCOUNTS if rule == "GROSS" else [name], value=rule == "GROSS")

    def note(self, day) -> None:
        for key, row in self.rows.items():
            used = self.used(day, key)
            limit = day.limits.get(key[0], (state.LIMITS[key[0]], None))[0]
            if used > row["used"]:
                row.update(used=used, number=day.number, moment=day.moment, limit=limit)
            if used > limit and row["past"] is None:
                row["past"] = day.number


class Report:
    """The tables of a report, worked out from the records of a day."""

    def __init__(self, records: list) -> None:
        self.day, self.peaks = state.Day(), Peaks()
        self.asked = {name: Counter() for name in state.ACCOUNTS}
        self.fills, self.denials, self.commands = Counter(), Counter(), []
        self.moments = {"orders": [], "fills": [], "denied": []}
        self.records = records
        for record in records:
            self.take(record)
            self.peaks.note(self.day)

    def take(self, record: dict) -> None:
        day = self.day
        day.number, day.moment = record["number"], record["moment"]
        kind, verdict, user = record["kind"], record["verdict"], record.get("user")
        account = state.ACCOUNT.get(user)
        row = self.command(record) if kind in ("kill", "lift", "limit", "restrict", "unrestrict") else None
        live = day.live()
        if verdict == "granted":
            day.take(words_of(record), record["line"])
            if kind in COUNTED:
                self.asked[account][kind] += 1
            if kind in ("enter", "replace"):
                self.moments["orders"].append(day.moment)
        elif verdict == "denied":
            self.denials[record["rule"], account] += 1
            self.moments["denied"].append(day.moment)
            if kind in COUNTED and account:
                self.asked[account]["denied"] += 1
        elif verdict == "filled":
            self.moments["fills"].append(day.moment)
            for number in (record["taker"], record["maker"]):
                self.fills[day.orders[number].account] += 1
            day.match(verdict, [record["taker"], record["maker"], record["fill_shares"], record["fill_price"]])
        else:
            day.match(verdict, [record["order"]])
        if row:
            if kind == "kill" and verdict == "granted":
                ended = [order for order in live if order.account == record["named_account"]]
                row["ended_orders"] = len(ended)
                row["ended_shares"] = sum(order.total - order.done for order in ended)
            self.commands.append(row)

    def command(self, record: dict) -> dict:
        """The row of a command, with what stands before it."""
        kind, day = record["kind"], self.day
        row = {
            "record": record["number"], "at": clock(record["moment"]), "officer": record["user"], "command": kind,
            "of": record.get("named_account") or record["named_rule"], "about": record.get("stock"), "before": None, "after": None,
            "verdict": record["rule"] if record["verdict"] == "denied" else "granted", "ended_orders": None, "ended_shares": None,
        }
        if kind == "limit":
            name = record["named_rule"]
            row.update(before=day.limits.get(name, (state.LIMITS[name], None))[0], after=record["limit"])
        if kind in ("kill", "lift"):
            row["before"] = "killed" if record["named_account"] in day.kills else "live"
        return row

    def peak_row(self, key: tuple) -> dict:
        rule, name, *side = key
        peak = self.peaks.rows[key]
        row = {"rule": rule, "account": "together" if rule == "GROSS" else name}
        if side:
            row.update(stock=side[0], side="B" if side[1] else "S")
        stood = peak["number"] > 0
        share = peak["used"] * 1000 // peak["limit"]
        row.update(
            peak=peak["used"], at=clock(peak["moment"]) if stood else None, record=peak["number"] if stood else None,
            limit=peak["limit"], share=share / 10, past_since=peak["past"],
        )
        return row

    def account_row(self, name: str) -> dict:
        asked, bought, sold = self.asked[name], state.executed(self.day, name, True), state.executed(self.day, name, False)
        return {
            "account": name, "orders": asked["enter"], "replaces": asked["replace"], "cancels": asked["cancel"],
            "denied": asked["denied"], "fills": self.fills[name], "bought": bought["shares"], "bought_value": bought["value"],
            "sold": sold["shares"], "sold_value": sold["value"],
            "live": sum(order.account == name for order in self.day.live()), "killed": "KILLED" if name in self.day.kills else None,
        }

    def position_rows(self) -> dict:
        rows = {}
        for order, shares, price in self.day.fills:
            row = rows.setdefault((order.account, order.stock), [0, 0, 0, 0])
            place = 0 if order.buys else 2
            row[place] += shares
            row[place + 1] += shares * price
        return {
            key: {
                "account": key[0], "stock": key[1], "bought": row[0], "bought_value": row[1],
                "sold": row[2], "sold_value": row[3], "net": row[0] - row[2],
            }
            for key, row in rows.items()
        }

    def span_rows(self) -> list:
        first, last = self.records[0]["moment"], self.records[-1]["moment"]
        width = (last - first) // SPANS + 1
        rows = []
        for place in range(SPANS):
            begin = first + place * width
            counts = {name: sum(begin <= moment < begin + width for moment in found) for name, found in self.moments.items()}
            rows.append({"from": clock(begin), **counts})
        return rows

    def heights(self) -> list:
        """How high the line of each chart of a limit ends: of a net rule, by the side of a stock where most is used."""
        seats = [[key] for key in GROSS[:3]] + [[key for key in NET if key[1] == name] for name in state.ACCOUNTS]
        heights = []
        for keys in seats:
            used = max(0, *(self.peaks.used(self.day, key) for key in keys))
            limit = self.day.limits.get(keys[0][0], (state.LIMITS[keys[0][0]], None))[0]
            heights.append(120 - min(used * 1000 // limit, 1200) * 120 // 1200)
        return heights

    def tables(self) -> dict:
        day, positions = self.day, self.position_rows()
        net = [key for key in NET if self.peaks.rows[key]["used"] > 0]
        return {
            "day": [{
                "session": "GATE01", "records": day.number, "first": clock(self.records[0]["moment"]),
                "last": clock(day.moment), "closed": "open",
            }],
            "accounts": [self.account_row(name) for name in state.ACCOUNTS],
            "gross": [self.peak_row(key) for key in GROSS[:3]],
            "net": [self.peak_row(key) for key in net],
            "positions": list(positions.values()),
            "commands": self.commands,
            "denials": [{"rule": rule, "account": name, "denied": count} for (rule, name), count in self.denials.items()],
            "spans": self.span_rows(),
        }


def same(what: str, told: list, expected: list) -> None:
    """Two tables have the same rows, in the same order."""
    if told == expected:
        return
    for place in range(max(len(told), len(expected))):
        one, other = told[place : place + 1], expected[place : place + 1]
        if one != other:
            sys.exit(f"{what}, row {place}:\n  told     {one}\n  expected {other}")


def shown(name: str, value: object) -> str:
    """A value as the CSV form shows it."""
    if value is None:
        return ""
    return str(value)


class Cells(html.parser.HTMLParser):
    """The rows of a page's tables, each as the texts of its cells; no script, and nothing from elsewhere."""

    def __init__(self) -> None:
        super().__init__()
        self.tables, self.charts, self.heights, self.is_body = [], 0, [], False

    def handle_starttag(self, tag: str, attributes: list) -> None:
        if tag in ("script", "link", "img", "iframe", "object", "embed", "base", "form"):
            sys.exit(f"the page has <{tag}>")
        for name, value in attributes:
            if name in ("src", "href", "action") or name.startswith("on") or re.search(r"url\(|//", value or ""):
                sys.exit(f"the page has {name}={value}")
        if tag in ("thead", "tbody"):
            self.is_body = tag == "tbody"
        if tag == "tbody":
            self.tables.append([])
        if tag == "tr" and self.is_body:
            self.tables[-1].append([])
        if tag == "td":
            self.tables[-1][-1].append("")
        self.charts += tag == "svg"
        if tag == "polyline":
            self.heights.append(int(dict(attributes)["points"].split()[-1].split(",")[1]))

    def handle_endtag(self, tag: str) -> None:
        self.is_body = self.is_body and tag != "tbody"

    def handle_data(self, data: str) -> None:
        if self.is_body and self.tables[-1] and self.tables[-1][-1]:
            self.tables[-1][-1][-1] += data.rstrip("\n")


def rows_of_csv(text: str) -> dict:
    """The rows of each table, by its name."""
    tables, names = {}, []
    for line in csv.reader(io.StringIO(text)):
        if line[0] == "table":
            names = line[1:]
        else:
            tables.setdefault(line[0], []).append(dict(zip(names, line[1:], strict=True)))
    return tables


def compare(gate, seed: int) -> None:
    """One day at random."""
    status, told = gate.run("script", "--audit", gate.audit, given=state.script(random.Random(seed)))
    if status != 0:
        sys.exit(f"script: status {status}: {told[-300:]}")
    records = [json.loads(line) for line in gate.run("show", gate.audit, "--format", "json")[1].splitlines()]
    report = Report(records)
    expected = report.tables()
    status, text = gate.run("report", gate.audit, "--format", "json")
    if status != 0:
        sys.exit(f"report: status {status}: {text}")
    told = json.loads(text)
    if told.pop("audit_sha256") != hashlib.sha256(gate.audit.read_bytes()).hexdigest():
        sys.exit("another digest of the audit")
    if not re.fullmatch("[0-9a-f]{64}", told.pop("policy_sha256")):
        sys.exit("no digest of the policy")
    if list(told) != list(expected):
        sys.exit(f"tables {list(told)}")
    for name, rows in expected.items():
        same(f"day {seed}, {name}", told[name], rows)
    for record in records:
        ended = next((row for row in expected["commands"] if row["record"] == record["number"]), {})
        for name in ("ended_orders", "ended_shares"):
            if record.get(name) != ended.get(name):
                sys.exit(f"show, record {record['number']}: {name} {record.get(name)}, expected {ended.get(name)}")
    compare_forms(gate, expected, report.heights())


def compare_forms(gate, expected: dict, heights: list) -> None:
    """The other forms have as many rows, names and counts as they are, and values in dollars: in CSV with four digits behind
    the point and nothing else, for a person as `$30,000.00`; lines of charts end as high as they have to."""
    table = rows_of_csv(gate.run("report", gate.audit, "--format", "csv")[1])
    page = Cells()
    page.feed(gate.run("report", gate.audit, "--format", "html")[1])
    text = gate.run("report", gate.audit)[1]
    for place, (name, rows) in enumerate(expected.items()):
        if len(table.get(name, [])) != len(rows) or len(page.tables[place]) != len(rows):
            sys.exit(f"{name}: {len(rows)} rows, {len(table.get(name, []))} of CSV, {len(page.tables[place])} of HTML")
        for row, line, cells in zip(rows, table.get(name, []), page.tables[place]):
            seen = dict(zip(line, cells, strict=True))
            for key, value in row.items():
                is_value = "value" in key or row.get("rule") == "GROSS" and key in ("peak", "limit")
                is_value = is_value or row.get("of") == "GROSS" and key in ("before", "after")
                wanted = f"{value // 10000}.{value % 10000:04}" if is_value else shown(key, value)
                read = state.dollars(value) if is_value else wanted
                if line[key] != wanted or seen[key] != read or (read and read not in text):
                    sys.exit(f"{name}: {key} {line[key]} in CSV, {seen[key]} in HTML, expected {wanted} and {read}")
    if page.charts != 3 + len(heights) or page.heights != heights:
        sys.exit(f"{page.charts} charts, whose lines end at {page.heights}, expected {heights}")


def browser() -> str | None:
    """Chromium, by its Debian package where it is not there yet; None where it can't be had."""
    if not shutil.which("chromium"):
        for words in (["update"], ["install", "-y", "--no-install-recommends", "chromium"]):
            try:
                subprocess.run(["apt-get", "-q", *words], capture_output=True, timeout=INSTALL_SECONDS, check=True)
            except (OSError, subprocess.SubprocessError):
                return None
    return shutil.which("chromium")


def looked_at(gate, folder: Path) -> str:
    """The page in a browser: its picture at a desk's width and a telephone's, whose ground, ink and bars are there."""
    chromium = browser()
    if not chromium:
        return "no browser to be had, so the page was not looked at"
    page = folder / "day.html"
    page.write_text(gate.run("report", gate.audit, "--format", "html")[1])
    for width, height in ((1280, 1600), (390, 2400)):
        picture = folder / f"{width}.png"
        words = [
            "--headless", "--no-sandbox", "--disable-gpu", "--hide-scrollbars", f"--user-data-dir={folder / 'profile'}",
            f"--window-size={width},{height}", f"--screenshot={picture}", page.as_uri(),
        ]
        try:
            subprocess.run([chromium, *words], capture_output=True, timeout=PATIENCE_SECONDS, check=True)
        except subprocess.TimeoutExpired:
            return "the browser did not answer, so the page was not looked at"
        colors = colors_of(picture.read_bytes())
        if sum(colors.values()) < width * height or not any(is_blue(color) for color, count in colors.items() if count > 500):
            sys.exit(f"the page at {width}: {colors.most_common(5)}")
    return "the page was looked at, at 1280 and at 390 wide"


def is_blue(color: tuple) -> bool:
    """The color of bars and lines."""
    red, green, blue = color
    return blue > red + 60 and blue > green + 30


def colors_of(picture: bytes) -> Counter:
    """How often each color is in a PNG of 8 bits a sample, without interlacing."""
    place, data = 8, b""
    while place < len(picture):
        size, kind = int.from_bytes(picture[place : place + 4], "big"), picture[place + 4 : place + 8]
        body = picture[place + 8 : place + 8 + size]
        if kind == b"IHDR":
            width, height = int.from_bytes(body[:4], "big"), int.from_bytes(body[4:8], "big")
            samples = {2: 3, 6: 4}[body[9]]
        data += body if kind == b"IDAT" else b""
        place += size + 12
    raw, row, found = zlib.decompress(data), bytes(width * samples), Counter()
    for line in range(height):
        begin = line * (width * samples + 1)
        row = unfiltered(raw[begin], raw[begin + 1 : begin + 1 + width * samples], row, samples)
        found.update(zip(row[0::samples], row[1::samples], row[2::samples]))
    return found


def unfiltered(kind: int, line: bytes, above: bytes, samples: int) -> bytes:
    """A line of a PNG, by its filter and the line above."""
    if kind == 0:
        return line
    if kind == 2:
        return bytes((byte + up) & 255 for byte, up in zip(line, above))
    told = bytearray(line)
    for place in range(len(line)):
        left = told[place - samples] if place >= samples else 0
        up = above[place]
        corner = above[place - samples] if place >= samples else 0
        if kind == 1:
            guess = left
        elif kind == 3:
            guess = (left + up) // 2
        else:
            base = left + up - corner
            guess = min((left, up, corner), key=lambda value: abs(base - value))
        told[place] = (told[place] + guess) & 255
    return bytes(told)


def refused(gate) -> None:
    """No report of an audit that is no legal day's, and one of a journal that is cut in its last record."""
    whole = gate.audit.read_bytes()
    gate.audit.write_bytes(whole[:-50])
    if gate.run("report", gate.audit)[0] != 0:
        sys.exit("an audit that is cut in its last record was not taken")
    wrong = bytearray(whole)
    wrong[-1 - 128 * 5] ^= 0xFF
    gate.audit.write_bytes(bytes(wrong))
    if gate.run("report", gate.audit)[0] != 4:
        sys.exit("an audit with a wrong record was taken")
    gate.audit.write_bytes(whole)
    gate.policy.write_text(state.POLICY.replace("GATE01", "GATE02"))
    if gate.run("report", gate.audit) != (4, "other policy\n"):
        sys.exit("an audit of another policy was taken")
    gate.policy.write_text(state.POLICY)


def collar(gate) -> None:
    """A collar's limit is no money: a part of the reference price, in each form."""
    gate.policy.write_text(state.POLICY + '[[rule]]\nname = "BAND"\nkind = "collar"\nlimit = 12345\n')
    gate.run("script", "--audit", gate.audit, given="1 OLGA login RIGHT 1\n2 OLGA limit C1 BAND 500\n")
    for form in ("text", "csv", "html"):
        told = gate.run("report", gate.audit, "--format", form)[1]
        if not re.search(r"\b1\.2345\b.*\b0\.0500\b", told) or "$1.2345" in told:
            sys.exit(f"a collar's limit as {form}: {told}")
    (row,) = json.loads(gate.run("report", gate.audit, "--format", "json")[1])["commands"]
    if (row["before"], row["after"]) != (12345, 500):
        sys.exit(f"a collar's limit as JSON: {row}")
    if "limit BAND 0.0500 file 1.2345 set by OLGA" not in " ".join(gate.run("state", gate.audit)[1].split()):
        sys.exit("a collar's limit in gate state")
    gate.policy.write_text(state.POLICY)


def main() -> None:
    count = int(sys.argv[2]) if len(sys.argv) > 2 else 10
    with tempfile.TemporaryDirectory() as folder:
        gate = state.Gate(sys.argv[1] if len(sys.argv) > 1 else str(state.GATE), Path(folder))
        for seed in range(1, count + 1):
            compare(gate, seed)
        looked = looked_at(gate, Path(folder))
        refused(gate)
        collar(gate)
    print(f"reports of {count} days: as worked out from their records; {looked}")


main()
