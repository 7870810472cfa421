#!/usr/bin/env python3
"""What `gate whatif` tells of days at random under other policies, against the model.

Each day is made by `gate script`. Its records are read, and its steps made again, by the model of tests/model, under the day's
policy and under another one; which verdicts differ, the first of them, and how many by rule and by account are worked out here.
Under its own policy nothing may differ. An audit that is none of a legal day is refused with status 4. Run as

  tests/whatif.py [GATE [DAYS]]

GATE: the built program; where none is named, crates/gate/out/gate of this repository. DAYS: for each other policy, 3 without it.
"""

import json
import random
import subprocess
import sys
import tempfile
from dataclasses import dataclass, field, replace
from pathlib import Path

from scripts import script as script_of

TOP = Path(__file__).resolve().parents[1]
sys.path.insert(0, str(TOP / "tests" / "model"))

import audit  # noqa: E402  (of tests/model)
from day import Day, Denied, Expired, Filled, Record, Rested, Verdict  # noqa: E402
from policy import Policy, Trader  # noqa: E402
from policyfile import read_policy  # noqa: E402
from script import verdict_text  # noqa: E402

GATE = TOP / "crates" / "gate" / "out" / "gate"
DAYS = 3
PATIENCE_SECONDS = 60

STATE = script_of("state")
POLICY = STATE.POLICY

# Other policies: what is put in the place of what.
OTHERS = {
    "the same": [],
    "smaller orders": [("limit = 500\n", "limit = 200\n")],
    "larger orders": [("limit = 500\n", "limit = 5000\n")],
    "no halt": [('stocks = ["ACME"]', "stocks = []")],
    "both stocks halted": [('stocks = ["ACME"]', 'stocks = ["ACME", "TEST"]')],
    "less net": [("limit = 3000\n", "limit = 700\n")],
    "less gross": [("limit = 9000000000\n", "limit = 40000000\n")],
    "one lifter": [("lifters = 2", "lifters = 1")],
    "no BOB": [('name = "BOB"', 'name = "ROB"')],
    "ANN trades for BETA": [('name = "ANN"\npassword = "RIGHT"\nrole = "trader"\naccount = "ALFA"',
                             'name = "ANN"\npassword = "RIGHT"\nrole = "trader"\naccount = "BETA"')],
    "short sales are not taken": [('[[rule]]\nname = "SIZE"', '[[rule]]\nname = "SHORT"\nkind = "no_short"\n\n[[rule]]\nname = "SIZE"')],
}


def policy_read(text: str) -> Policy:
    """A policy file, as the model reads it."""
    return read_policy(text.encode())[1]


def records_of(content: bytes) -> list[Record]:
    """The records of an audit of version 2, as the model reads them."""
    content, size = content[128:], 128
    return [audit.read_record(content[size * (n - 1):size * n], n, audit.mark_of(2)) for n in range(1, len(content) // size + 1)]


@dataclass
class OtherDay:
    """The day that another policy makes of a day's steps."""

    day: Day
    sources: list[int] = field(default_factory=lambda: [0])

    def told(self, verdict: Verdict) -> Verdict:
        """The verdict, with each order by its number in the first day."""
        match verdict:
            case Filled(taker, maker):
                return replace(verdict, taker=self.sources[taker], maker=self.sources[maker])
            case Rested(order) | Expired(order):
                return replace(verdict, order=self.sources[order])
        return verdict

    def redo(self, record: Record, is_at_rest: bool) -> Verdict | None:
        """Makes the step of a record again; what is told of it, if it leaves a record."""
        made = audit.remade(self.day, record)
        told = self.told(made.verdict) if made else None
        while is_at_rest and self.day.match_one(record.moment):
            pass
        self.sources += [record.number] * (len(self.day.records) + 1 - len(self.sources))
        return told


@dataclass(frozen=True)
class Change:
    """A record whose verdict changes."""

    record: Record
    told: Verdict | None

    def told_text(self) -> str:
        """What is told of it, in words."""
        return verdict_text(replace(self.record, verdict=self.told)) if self.told else "no record"

    def headings(self, policy: Policy) -> list[tuple[str, str | None]]:
        """What it is counted under."""
        found = []
        if isinstance(self.told, Denied):
            found.append(("denied_now_by", self.told.rule.decode()))
        if isinstance(self.record.verdict, Denied):
            found.append(("denied_no_more_by", self.record.verdict.rule.decode()))
        user = policy.user(self.record.user.rstrip()) if self.record.request is not None else None
        account = user.role.account.decode() if user and isinstance(user.role, Trader) else None
        return [*found, ("account", account)]


def changes(policy: Policy, records: list[Record], other: Policy) -> list[Change]:
    """Each record whose verdict changes, by the model."""
    day, redone, found = Day.opened(policy), OtherDay(Day.opened(other)), []
    for record in records:
        if audit.remade(day, record) != record:
            raise ValueError(f"record {record.number} is not legal")
        told = redone.redo(record, not day.state.book.waiting)
        if told != record.verdict:
            found.append(Change(record, told))
    return found


def object_of(policy: Policy, records: list[Record], found: list[Change]) -> dict:
    """What is told as JSON."""
    counts: dict[tuple[str, str | None], int] = {}
    for change in found:
        for heading in change.headings(policy):
            counts[heading] = counts.get(heading, 0) + 1
    first = found and {
        "record": found[0].record.number, "recorded": verdict_text(found[0].record),
        "told": found[0].told_text() if found[0].told else None,
    }
    return {
        "records": len(records), "changed": len(found), "first": first or None,
        "counts": [{kind: name, "count": count} for (kind, name), count in counts.items()],
    }


def text_of(told: dict) -> str:
    """The same in words."""
    lines = [f"changed {told['changed']} of {told['records']}"]
    if first := told["first"]:
        lines.append(f"first {first['record']}: {first['recorded']} -> {first['told'] or 'no record'}")
    words = {"denied_now_by": "denied now by {}", "denied_no_more_by": "denied no more by {}", "account": "account {}"}
    for row in told["counts"]:
        kind, name = next(iter(row.items()))
        lines.append(f"{words[kind].format(name) if name else 'no account'}: {row['count']}")
    return "\n".join(lines) + "\n"


def asked(gate: str, *words: str) -> tuple[int, str]:
    """What a call answers: its status, and what it prints."""
    done = subprocess.run([gate, *words], capture_output=True, text=True, timeout=PATIENCE_SECONDS, check=False)
    return done.returncode, done.stdout + done.stderr


def made_day(gate: str, folder: Path, chance: random.Random) -> tuple[Path, list[Record]]:
    """A day at random under the day's policy."""
    path = folder / "day.audit"
    words = [gate, "script", "--policy", str(folder / "day.toml"), "--audit", str(path)]
    subprocess.run(words, input=STATE.script(chance), text=True, capture_output=True, timeout=PATIENCE_SECONDS, check=True)
    return path, records_of(path.read_bytes())


def look(gate: str, folder: Path, name: str, edits: list, chance: random.Random) -> bool:
    """Whether a day is told of as the model has it."""
    text = POLICY
    for old, new in edits:
        if old not in text:
            raise ValueError(f"{name}: {old!r} is not in the policy")
        text = text.replace(old, new)
    (folder / "other.toml").write_text(text)
    path, records = made_day(gate, folder, chance)
    policy = policy_read(POLICY)
    wanted = object_of(policy, records, changes(policy, records, policy_read(text)))
    files = [str(path), "--policy", str(folder / "day.toml"), "--under", str(folder / "other.toml")]
    status, told = asked(gate, "whatif", *files)
    json_status, json_told = asked(gate, "whatif", *files, "--json")
    is_right = (status, told, json_status) == (0, text_of(wanted), 0) and json_told.endswith("}\n") and json.loads(json_told) == wanted
    print(f"{name}: {wanted['changed']} of {wanted['records']} change: {'as the model has it' if is_right else 'NOT AS WANTED'}")
    if not is_right:
        print(f"    the model: {wanted}\n    told: {status} {told!r}\n    as JSON: {json_status} {json_told!r}")
    return is_right and (wanted["changed"] == 0) == (not edits)


def look_at_refusal(gate: str, folder: Path, chance: random.Random) -> bool:
    """Nothing is told of what is no legal day: its fault is, as by a check."""
    path, _records = made_day(gate, folder, chance)
    content = bytearray(path.read_bytes())
    content[128 * 20 + 95] ^= 1
    path.write_bytes(content)
    files = [str(path), "--policy", str(folder / "day.toml")]
    is_right = asked(gate, "whatif", *files, "--under", str(folder / "day.toml")) == (4, "bad record 20\n")
    is_right &= asked(gate, "check", *files)[1].startswith("bad record 20\n")
    print(f"an audit of no legal day: {'refused as by a check' if is_right else 'NOT AS WANTED'}")
    return is_right


def main() -> int:
    """Runs all. Answers the status: 1 where something is not as wanted."""
    words = sys.argv[1:]
    gate, days = words[0] if words else str(GATE), int(words[1]) if len(words) > 1 else DAYS
    with tempfile.TemporaryDirectory() as name:
        folder = Path(name)
        (folder / "day.toml").write_text(POLICY)
        looked = [
            look(gate, folder, other, edits, random.Random(100 * place + turn))
            for place, (other, edits) in enumerate(OTHERS.items()) for turn in range(days)
        ]
        looked.append(look_at_refusal(gate, folder, random.Random(1)))
    return 0 if all(looked) else 1


if __name__ == "__main__":
    sys.exit(main())
