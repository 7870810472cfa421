#!/usr/bin/env python3
"""What a header of version 3 tells of a policy and of a day.

Each of four days is run twice by `gate script`, with an audit in version 2 and in version 3. Their records are the same but
for the mark. The header of version 3 is read here by itself: its digest is the SHA-256 of the policy's text, which is worked
out from the policy file by the tables of docs/AUDIT.md, and its date is today's in UTC. Both audits are legal under their
policy. Then the policy is changed, one field at a time, and version 3 says `other policy` each time; a password, a comment
and the file's version change nothing. Version 2 passes over some of these changes, as its document says.

Then `gate serve --midnight -05:00` keeps a journal in version 3: its header has the date and the offset of that zone, a day
that goes on keeps the header with which it began, whatever is asked for and whatever the date is by then, and its audit has
the day of the journal. A journal of another policy is not gone on with. A header that is cut, or has a sign that is none, is
told. Run as

  tests/audit/versions.py [GATE]

GATE: the built program; where none is named, crates/gate/out/gate of this repository.
"""

import hashlib
import socket
import subprocess
import sys
import tempfile
import time
import tomllib
from dataclasses import dataclass
from pathlib import Path

TOP = Path(__file__).resolve().parents[2]
GATE = TOP / "crates" / "gate" / "out" / "gate"
EXAMPLES = TOP / "examples"
RECORD = 128
DAY_SECONDS = 86_400
POWERS = ("kill", "lift", "limits", "symbols", "people", "close")
LETTERS = {
    "halt": b"H", "restricted": b"R", "no_short": b"N", "no_iso": b"I", "odd_lot": b"L", "order_shares": b"S",
    "order_value": b"V", "collar": b"C", "gross_shares": b"G", "gross_value": b"W", "net_shares": b"T", "rate": b"Q",
    "repeat": b"P",
}


# The policy's text, by docs/AUDIT.md.


def name(text: str, size: int) -> bytes:
    """A name in its field."""
    return text.encode().ljust(size)


def number(value: int) -> bytes:
    """A number."""
    return value.to_bytes(8, "big")


def listed(items: list[bytes]) -> bytes:
    """A list: each item behind a comma, and a semicolon."""
    return b"".join(b"," + item for item in items) + b";"


def names(given: list[str]) -> bytes:
    """A list of names of accounts or stocks, each once."""
    return listed([name(text, 8) for text in dict.fromkeys(given)])


def scope(entry: dict) -> bytes:
    """All accounts, or these."""
    return b"A" if "accounts" not in entry else b"O" + names(entry["accounts"])


def role(user: dict) -> bytes:
    """What a user is."""
    match user["role"]:
        case "trader":
            return b"T" + name(user["account"], 8)
        case "officer":
            return b"O" + b"".join(b"Y" if power in user["powers"] else b"N" for power in POWERS) + scope(user)
        case _:
            return b"R" + names(user.get("accounts", []))


def rule(entry: dict) -> bytes:
    """A rule of the file."""
    back = entry.get("window", entry.get("span", 0))
    count = b"T" if entry.get("count") == "together" else b"E"
    return (
        name(entry["name"], 8) + LETTERS[entry["kind"]] + names(entry.get("stocks", [])) + number(entry.get("limit", 0))
        + number(back) + count + scope(entry)
    )


def text_of(policy: dict) -> bytes:
    """The policy's text."""
    return (
        b"GXP1" + name(policy["session"], 10) + str(policy.get("lifters", 1)).encode()
        + listed([name(account["name"], 8) + name(account["firm"], 4) for account in policy.get("account", [])])
        + listed([name(stock["name"], 8) + number(stock["reference"]) for stock in policy.get("stock", [])])
        + listed([name(user["name"].upper(), 6) + role(user) for user in policy.get("user", [])])
        + listed([rule(entry) for entry in policy.get("rule", [])])
    )


def digest_of(policy: str) -> bytes:
    """The digest of the policy in a file of this content."""
    return hashlib.sha256(text_of(tomllib.loads(policy))).digest()


@dataclass(frozen=True)
class Header:
    """A header of version 3."""

    mark: bytes
    session: bytes
    lifters: int
    counts: tuple[int, ...]
    digest: bytes
    date: int
    minutes: int  # ahead of UTC

    @classmethod
    def read(cls, audit: bytes) -> "Header":
        """The header in front of an audit."""
        assert audit[62:RECORD] == bytes(66), "zero bytes at the end"
        sign = {b"+": 1, b"-": -1}[audit[59:60]]
        return cls(
            audit[:4], audit[4:14], audit[14], tuple(int.from_bytes(audit[at:at + 2], "big") for at in (15, 17, 19, 21)),
            audit[23:55], int.from_bytes(audit[55:59], "big"), sign * int.from_bytes(audit[60:62], "big"),
        )


@dataclass(frozen=True)
class Run:
    """The program, and a folder for what it writes."""

    gate: str
    folder: Path

    def call(self, *words: str, given: bytes = b"") -> tuple[int, bytes, bytes]:
        """A call: its status, and what stands on standard output and standard error."""
        done = subprocess.run([self.gate, *words], input=given, capture_output=True, timeout=60, check=False)
        return done.returncode, done.stdout, done.stderr

    def file(self, called: str, content: bytes) -> str:
        """A file of this content."""
        path = self.folder / called
        path.write_bytes(content)
        return str(path)

    def day(self, policy: str, script: bytes, version: str) -> bytes:
        """The audit of a day in this version."""
        audit = self.folder / f"day-{version}"
        file = self.file("day.toml", policy.encode())
        status, _, told = self.call("script", "--policy", file, "--audit", str(audit), "--audit-version", version, given=script)
        assert status == 0, told
        return audit.read_bytes()

    def check(self, audit: bytes, policy: str) -> bytes:
        """What the check says of an audit under a policy."""
        status, said, told = self.call(
            "check", self.file("audit", audit), "--policy", self.file("policy.toml", policy.encode()),
        )
        assert status == (0 if said.startswith(b"legal ") else 4), (status, said, told)
        return said

    def shown(self, audit: bytes, policy: str) -> bytes:
        """How the records of an audit are shown."""
        status, said, told = self.call(
            "show", self.file("audit", audit), "--policy", self.file("policy.toml", policy.encode()),
        )
        assert (status, told) == (0, b""), told
        return said


def today(minutes: int) -> int:
    """The date, so many minutes ahead of UTC."""
    return int(time.time() + 60 * minutes) // DAY_SECONDS


def changed(policy: str, old: str, new: str) -> str:
    """The policy with its first such text changed."""
    assert old in policy, old
    return policy.replace(old, new, 1)


def is_header_of(audit: bytes, policy: str, dates: range, minutes: int) -> bool:
    """Whether an audit's header is that of the policy, on one of these dates."""
    header = Header.read(audit)
    read = tomllib.loads(policy)
    counts = tuple(len(read.get(place, [])) for place in ("account", "stock", "user", "rule"))
    return (
        header.mark == b"GXH3" and header.session == name(read["session"], 10) and header.lifters == read.get("lifters", 1)
        and header.counts == counts and header.digest == digest_of(policy) and header.date in dates and header.minutes == minutes
    )


def same_records(second: bytes, third: bytes) -> bool:
    """Whether the records of two audits differ in their marks alone."""
    places = range(RECORD, max(len(second), len(third)), RECORD)
    return all(
        second[at:at + 4] == b"GXA2" and third[at:at + 4] == b"GXA3" and second[at + 4:at + RECORD] == third[at + 4:at + RECORD]
        for at in places
    )


def try_day(run: Run, policy: str, script: bytes) -> tuple[bytes, bytes]:
    """The audits of one day in both versions."""
    begun = today(0)
    second, third = run.day(policy, script, "2"), run.day(policy, script, "3")
    assert second[:4] == b"GXH2" and same_records(second, third), "the records are the same"
    assert is_header_of(third, policy, range(begun, today(0) + 1), 0), Header.read(third)
    legal = b"legal %d\n" % (len(second) // RECORD - 1)
    assert run.check(second, policy) == run.check(third, policy) == legal
    assert run.shown(second, policy) == run.shown(third, policy) != b""
    return second, third


def each_kind() -> list[tuple[str, str, str]]:
    """Changes of `every-kind.toml`, each of one field: what it is, the old text, and the new."""
    return [
        ("a limit", "limit = 5000\n", "limit = 5001\n"),
        ("a limit of value", "limit = 500000000\n", "limit = 500000001\n"),
        ("a collar", "limit = 500\n", "limit = 501\n"),
        ("a limit of shares", "limit = 6000\n", "limit = 6001\n"),
        ("a limit of a rate", "limit = 5\n", "limit = 6\n"),
        ("a window", "window = 1000000000", "window = 1000000001"),
        ("a limit of alike orders", "limit = 2\n", "limit = 3\n"),
        ("a span", "span = 10", "span = 11"),
        ("a reference price", "reference = 250000", "reference = 250100"),
        ("the name of a rule", '"TWIN"', '"TWINS"'),
        ("the kind of a rule", '"no_short"', '"no_iso"'),
        ("the stocks of a rule", 'stocks = ["HALTED"]', "stocks = []"),
        ("the scope of a rule", 'stocks = ["BLACK"]\naccounts = ["ALFA"]', 'stocks = ["BLACK"]\naccounts = ["ALFA", "BETA"]'),
        ("a scope of all", '"BLACK"]\naccounts = ["ALFA"]', '"BLACK"]'),
        ("how a limit is counted", 'count = "together"', 'count = "each"'),
        ("a power", ', "close"]', "]"),
        ("the scope of an officer", ', "close"]', ', "close"]\naccounts = ["ALFA"]'),
        ("a reader's accounts", 'role = "reader"\naccounts = ["ALFA"]', 'role = "reader"\naccounts = ["BETA"]'),
        ("a trader's account", 'account = "BETA"', 'account = "ALFA"'),
        ("the name of a user", '"RITA"', '"RUTH"'),
        ("a firm", '"BET"', '"BEST"'),
        ("the session", '"GATE01"', '"GATE02"'),
    ]


def try_changes(run: Run, policy: str, second: bytes, third: bytes, changes: list[tuple[str, str, str]]) -> int:
    """Each change is another policy in version 3; how many of them version 2 passes over."""
    legal = run.check(third, policy)
    passed = 0
    for what, old, new in changes:
        other = changed(policy, old, new)
        assert digest_of(other) != digest_of(policy), what
        assert run.check(third, other) == b"other policy\n", what
        passed += run.check(second, other) == legal
    return passed


def try_same(run: Run, policy: str, third: bytes) -> None:
    """What is no part of a policy's text changes nothing: passwords, comments, small letters of users, the file's version."""
    legal = run.check(third, policy)
    _, migrated, _ = run.call("migrate", run.file("policy.toml", policy.encode()))
    alike = [
        changed(policy, '"apple"', '"pear"'), changed(policy, '"orange"', '"lemon"'), "# a comment\n" + policy,
        changed(policy, '"ALICE"', '"alice"'), migrated.decode(),
    ]
    for other in alike:
        assert other != policy and digest_of(other) == digest_of(policy), other
        assert run.check(third, other) == legal, other


def try_broken(run: Run, policy: str, third: bytes) -> None:
    """A header that is cut is told, and one whose sign is none; any date and any minutes are taken."""
    assert run.check(third[:100], policy) == b"truncated\n"
    assert run.check(third[:59] + b"*" + third[60:], policy) == b"other policy\n"
    assert run.check(third[:127] + b"\1" + third[128:], policy) == b"other policy\n"
    assert run.check(third[:RECORD] + third[RECORD:].replace(b"GXA3", b"GXA2"), policy) == b"bad record 1\n"
    assert run.check(third[:55] + b"\0\0\1\0-\2\3" + third[62:], policy) == run.check(third, policy)


@dataclass(frozen=True)
class Serving:
    """A server at whose end its standard input ended at once."""

    run: Run
    policy: str
    journal: Path

    def serve(self, *words: str) -> tuple[int, bytes]:
        """Its status, and what it told."""
        policy = self.run.file("served.toml", self.policy.encode())
        status, _, told = self.run.call(
            "serve", "--port", str(free_port()), "--until-input-ends", "--policy", policy,
            "--journal", str(self.journal), *words,
        )
        return status, told


def free_port() -> int:
    """A port that nobody listens on."""
    with socket.create_server(("127.0.0.1", 0)) as line:
        return line.getsockname()[1]


def try_journal(run: Run, policy: str) -> None:
    """A journal in version 3 goes on with its own header."""
    journal, audit = run.folder / "journal", run.folder / "served"
    serving = Serving(run, policy, journal)
    begun = today(-300)
    status, told = serving.serve("--audit-version", "3", "--midnight", "-05:00", "--audit", str(audit))
    assert status == 0, told
    header = journal.read_bytes()[:RECORD]
    assert is_header_of(header, policy, range(begun, today(-300) + 1), -300), Header.read(header)
    assert audit.read_bytes() == journal.read_bytes()
    # the journal of an earlier day
    earlier = header[:55] + (Header.read(header).date - 1).to_bytes(4, "big") + header[59:]
    journal.write_bytes(earlier)
    status, told = serving.serve("--audit-version", "2")
    assert status == 0 and journal.read_bytes()[:RECORD] == earlier, told
    status, told = serving.serve("--audit-version", "3", "--audit", str(audit))
    assert status == 0 and journal.read_bytes()[:RECORD] == earlier == audit.read_bytes()[:RECORD], told
    # of another policy, by a field that version 2 passes over
    status, told = Serving(run, changed(policy, "reference = 100000", "reference = 100100"), journal).serve()
    assert status != 0 and journal.read_bytes()[:RECORD] == earlier, told
    # cut in its header: a new day is begun, in the version that is asked for
    for length in (0, 3, 30, 57, 61, 127):
        journal.write_bytes(earlier[:length])
        status, told = serving.serve("--audit-version", "3")
        assert status == 0 and is_header_of(journal.read_bytes(), policy, range(begun, today(0) + 1), 0), (length, told)
    # a journal of version 2 stays one
    journal.unlink()
    assert serving.serve()[0] == 0 and journal.read_bytes()[:4] == b"GXH2"
    assert serving.serve("--audit-version", "3")[0] == 0 and journal.read_bytes()[:4] == b"GXH2"


def main() -> int:
    """All of it."""
    days = {
        "every-kind": "every-kind", "risk-desk": "risk-desk-day", "two-officers": "two-officers", "no-figures": "every-rule",
    }
    with tempfile.TemporaryDirectory() as folder:
        run = Run(sys.argv[1] if len(sys.argv) > 1 else str(GATE), Path(folder))
        digests = set()
        for policy_name, script in days.items():
            policy = (EXAMPLES / "policies" / f"{policy_name}.toml").read_text()
            second, third = try_day(run, policy, (EXAMPLES / f"{script}.txt").read_bytes())
            digests.add(Header.read(third).digest)
            try_same(run, policy, third)
            try_broken(run, policy, third)
            if policy_name == "every-kind":
                changes = each_kind()
                passed = try_changes(run, policy, second, third, changes)
                print(f"{len(changes)} changes of a field: other policy, each of them, in version 3; version 2 passes over {passed}")
            if policy_name == "two-officers":
                try_changes(run, policy, second, third, [("the lifters", "lifters = 2", "lifters = 1")])
        assert len(digests) == len(days)
        try_journal(run, (EXAMPLES / "policies" / "sample.toml").read_text())
    print("the header of version 3 tells the policy and the day")
    return 0


if __name__ == "__main__":
    sys.exit(main())
