#!/usr/bin/env python3
"""What `gate follow` tells of days at random, and of a day while it runs, against what is worked out here.

Each day at random is made by `gate script`: orders, fills, kills, lifts and limits that go up and down. From the lines of
`gate show` it is worked out here behind which record each figure first used each share of its limit, and which commands there
were; `gate follow --once` has to tell exactly these, as text with what is used of a value and its limit in dollars. Then a
server keeps a journal that is followed before it is there: each warning, kill, lift and limit is told within a second of its
answer, as text those of a value in dollars, and at the day's close it ends with status 0. A journal in which a record is forged
ends it with status 4; one whose cut-off record is replaced does not; one that loses whole records, or its name, ends it with
status 1. Run as

  tests/follow.py [GATE [DAYS]]

GATE: the built program; where none is named, crates/gate/out/gate of this repository. DAYS: 4 without it.
"""

import json
import random
import re
import subprocess
import sys
import tempfile
import threading
import time
from pathlib import Path

from scripts import script

TOP = Path(__file__).resolve().parents[1]
GATE = TOP / "crates" / "gate" / "out" / "gate"
DAYS = 4
RECORD = 128
PATIENCE_SECONDS = 30
AT_ONCE_SECONDS = 1.0
# What is told as text of the limits that are set beside a server, and of their shares that are used, worked out by hand: GROSS
# counts a value, SHARES and NET do not.
LIMITS_TOLD = [
    "limit of SHARES set from 9000 to 600 by OLGA",
    "limit of GROSS set from $900,000.00 to $450,000.50 by OLGA",
    "Set Limit of GROSS to $450,000.50 by OLGA denied by Q4",
]
WARNINGS_TOLD = [
    "10 % of the limit of NET are used by ALFA for buys of TEST: 500 of 3000",
    "10 % of the limit of SHARES are used by ALFA: 500 of 600",
    "5 % of the limit of GROSS are used by all its accounts: $40,000.00 of $450,000.50",
    "5 % of the limit of NET are used by ALFA for buys of TEST: 500 of 3000",
    "5 % of the limit of SHARES are used by ALFA: 500 of 9000",
]
COMMANDS = ("kill", "lift", "limit", "restrict", "unrestrict", "grant", "revoke", "close")

STATE = script("state")
LOG = script("log")


def figures_of(day) -> dict:
    """What each figure comes to, by its rule, its account (None for all together), its stock and its side."""
    told = {("SHARES", name, None, None): STATE.used(day, [name]) for name in ("ALFA", "BETA")}
    told["GROSS", None, None, None] = STATE.used(day, STATE.ACCOUNTS, value=True)
    for name in STATE.ACCOUNTS:
        for stock in STATE.STOCKS:
            for side in (True, False):
                key = ("NET", name, stock, "buys" if side else "sells")
                told[key] = max(STATE.used(day, [name], stock, side), 0)
    return told


def warnings_of(shown: str, shares: list) -> dict:
    """Behind which record each figure first used each share of its limit, with the figure and the limit there."""
    day, told = STATE.Day(), {}
    for text in shown.splitlines():
        found = STATE.SHOWN.fullmatch(text)
        day.number, day.moment = int(found["number"]), int(found["moment"])
        if found["verdict"] == "granted":
            day.take(found["asked"].split()[1:], int(found["line"]))
        elif found["verdict"] != "denied":
            day.match(found["verdict"], found["more"].split())
        for key, amount in figures_of(day).items():
            limit = day.limits.get(key[0], (STATE.LIMITS[key[0]], None))[0]
            for share in shares:
                if amount > 0 and amount * 100 >= share * limit:
                    told.setdefault((share, *key), (day.number, amount, limit))
    return told


def commands_of(shown: str) -> list:
    """Each command, by its record and the word of its event."""
    told = []
    for text in shown.splitlines():
        found = STATE.SHOWN.fullmatch(text)
        words = (found["asked"] or "").split()
        if len(words) > 2 and words[2] in COMMANDS:
            denied = "_denied" if found["verdict"] == "denied" else ""
            told.append((int(found["number"]), words[2] + denied))
    return told


def warning_in(told: dict) -> tuple:
    """A warning that was told as JSON."""
    key = (told["percent"], told["rule"], told["account"], told.get("stock"), told.get("side"))
    return key, (told["record"], told["used"], told["limit"])


def sentence(key: tuple, told: tuple) -> str:
    """A warning as text, without its moment; GROSS alone counts a value."""
    share, rule, account, stock, side = key
    record, *counted = told
    where = f" for {side} of {stock}" if stock else ""
    used, limit = map(STATE.dollars if rule == "GROSS" else str, counted)
    return f"{share} % of the limit of {rule} are used by {account or 'all its accounts'}{where}: {used} of {limit}, record {record}"


def script(chance: random.Random) -> str:
    """A day at random in which limits go up and down."""
    def moved(found: re.Match) -> str:
        return f"{found[1]}{int(int(found[2]) * chance.choice([0, 0.05, 0.2, 0.5, 1, 2]))}"

    return re.sub(r"( limit \w+ \w+ )(\d+)", moved, STATE.script(chance))


def follow(gate: str, audit: Path, policy: Path, *more: str) -> tuple:
    """What `gate follow` answers: its status, and its lines."""
    words = [gate, "follow", str(audit), "--policy", str(policy), *more]
    done = subprocess.run(words, capture_output=True, text=True, timeout=PATIENCE_SECONDS, check=False)
    return done.returncode, done.stdout.splitlines(), done.stderr


def look_at_day(gate, folder: Path, seed: int) -> bool:
    """Whether a day at random is told as it is worked out here, as JSON and as text."""
    chance = random.Random(seed)
    shares = sorted(chance.sample(range(1, 101), 4))
    status, told = gate.run("script", "--audit", gate.audit, given=script(chance))
    if status != 0:
        sys.exit(f"script: status {status}: {told[-300:]}")
    shown = gate.run("show", gate.audit)[1]
    wanted, commands = warnings_of(shown, shares), commands_of(shown)
    warn = ("--warn", ",".join(map(str, shares)), "--once")
    status, lines, _ = follow(gate.program, gate.audit, gate.policy, *warn, "--json")
    events = [json.loads(line) for line in lines]
    found = [warning_in(event) for event in events if event["event"] == "limit_used"]
    told_commands = [(event["record"], event["event"]) for event in events if event["event"].removesuffix("_denied") in COMMANDS]
    records = [event["record"] for event in events if "record" in event]
    text_status, text, _ = follow(gate.program, gate.audit, gate.policy, *warn)
    sentences = sorted(line.split(" ", 1)[1] for line in text if "% of the limit of" in line)
    is_right = (
        (status, text_status) == (0, 0)
        and dict(found) == wanted and len(found) == len(wanted)
        and told_commands == commands and records == sorted(records)
        and sentences == sorted(sentence(key, told) for key, told in wanted.items())
    )
    print(f"day {seed}: {len(wanted)} warnings, {len(commands)} commands: {'as worked out' if is_right else 'NOT AS WANTED'}")
    if not is_right:
        print(f"  missing {set(wanted.items()) - set(found)}\n  not wanted {set(found) - set(wanted.items())}")
    return is_right


class Follower:
    """`gate follow` while it runs, and what it has told so far."""

    def __init__(self, gate: str, journal: Path, policy: Path, *more: str) -> None:
        words = [gate, "follow", str(journal), "--policy", str(policy), "--every", "100ms", "--json", *more]
        self.process = subprocess.Popen(words, stdin=subprocess.DEVNULL, stdout=subprocess.PIPE, stderr=subprocess.PIPE, text=True)
        self.told: list = []
        self.reader = threading.Thread(target=self.read, daemon=True)
        self.reader.start()

    def read(self) -> None:
        """Reads what it tells."""
        for line in self.process.stdout:
            self.told.append(json.loads(line))

    def has_told(self, wanted: dict, slack: float = AT_ONCE_SECONDS) -> bool:
        """Whether an event with these members is told within a second."""
        end = time.monotonic() + slack
        while time.monotonic() < end:
            if any(wanted.items() <= told.items() for told in self.told):
                return True
            time.sleep(0.01)
        print(f"not told: {wanted}\n  told: {self.told[-5:]}")
        return False

    def ends(self, status: int) -> bool:
        """Whether it ends by itself with this status."""
        try:
            ended = self.process.wait(PATIENCE_SECONDS)
        except subprocess.TimeoutExpired:
            self.process.kill()
            ended = None
        self.reader.join(PATIENCE_SECONDS)
        if ended != status:
            print(f"ended with {ended} in place of {status}: {self.process.stderr.read()}")
        return ended == status


def desk(gate, port: int, user: str, words: str) -> None:
    """Has a user ask for this."""
    asked = [gate.program, "desk", "--port", str(port), "--user", user, "--password-file", str(gate.policy.parent / "password"), *words.split()]
    subprocess.run(asked, capture_output=True, timeout=PATIENCE_SECONDS, check=False)


def limits_told(gate, journal: Path) -> tuple:
    """What is told as text of limits that are set, and, sorted, of those that are used, without moments and records."""
    _, lines, _ = follow(gate.program, journal, gate.policy, "--warn", "5,10", "--once")
    said = [line.split(" ", 1)[1].rpartition(", record ")[0] for line in lines]
    are_set = [words for words in said if words.startswith(("limit of", "Set Limit of"))]
    return are_set, sorted(words for words in said if "% of the limit of" in words)


def look_at_server(gate, folder: Path) -> bool:
    """Whether each warning and command of a running server's day is told within a second."""
    journal = folder / "journal.gxh"
    (folder / "password").write_text("RIGHT\n")
    follower = Follower(gate.program, journal, gate.policy, "--warn", "5,10")
    time.sleep(0.3)
    server = LOG.Server(gate.program, "text", folder, "--journal", str(journal), "--policy", str(gate.policy))
    net = {"event": "limit_used", "rule": "NET", "account": "ALFA", "stock": "TEST", "side": "buys", "used": 500, "limit": 3000}
    steps = [
        ("ALICE", "buy 500 TEST 80.00", [
            {"event": "limit_used", "rule": "SHARES", "percent": 5, "account": "ALFA", "used": 500, "limit": 9000},
            {**net, "percent": 5}, {**net, "percent": 10},
        ]),
        ("OLGA", "limit SHARES 600", [
            {"event": "limit", "rule": "SHARES", "from": 9000, "to": 600},
            {"event": "limit_used", "rule": "SHARES", "percent": 10, "account": "ALFA", "used": 500, "limit": 600},
        ]),
        ("OLGA", "limit GROSS $450,000.50", [
            {"event": "limit", "rule": "GROSS", "from": 9_000_000_000, "to": 4_500_005_000},
            {"event": "limit_used", "rule": "GROSS", "percent": 5, "account": None, "used": 400_000_000, "limit": 4_500_005_000},
        ]),
        ("OLGA", "limit GROSS $450,000.50", [{"event": "limit_denied", "rule": "GROSS", "to": 4_500_005_000, "denied_by": "Q4"}]),
        ("OLGA", "kill BETA", [{"event": "kill", "account": "BETA", "user": "OLGA"}]),
        ("OLGA", "lift BETA", [{"event": "lift", "account": "BETA", "user": "OLGA"}]),
        ("OLGA", "lift BETA", [{"event": "lift_denied", "account": "BETA", "user": "OLGA"}]),
    ]
    is_right = True
    for user, words, wanted in steps:
        desk(gate, server.port, user, words)
        is_right &= all([follower.has_told(each) for each in wanted])
    shown = gate.run("show", journal)[1]
    told = [(event["record"], event["event"]) for event in follower.told if event["event"].removesuffix("_denied") in COMMANDS]
    is_right &= told == commands_of(shown)
    found = dict(warning_in(event) for event in follower.told if event["event"] == "limit_used")
    is_right &= found == warnings_of(shown, [5, 10])
    is_right &= limits_told(gate, journal) == (LIMITS_TOLD, WARNINGS_TOLD)
    desk(gate, server.port, "OLGA", "close --yes")
    is_right &= follower.has_told({"event": "close"}) and follower.ends(0)
    server.end()
    print(f"beside a server: {'told within a second' if is_right else 'NOT AS WANTED'}")
    return is_right


def look_at_faults(gate, folder: Path) -> bool:
    """Whether a forged record, a cut-off one and lost ones are told apart."""
    whole = gate.audit.read_bytes()
    count, place = len(whole) // RECORD - 1, folder / "grows.gxh"
    forged = bytearray(whole)
    forged[RECORD * 20 + 95] ^= 1
    place.write_bytes(whole[:RECORD * 10])
    follower = Follower(gate.program, place, gate.policy)
    time.sleep(0.3)
    with place.open("ab") as end:
        end.write(forged[RECORD * 10:])
    reason = gate.run("check", write(folder / "forged.gxh", bytes(forged)))[1].strip()
    is_right = follower.ends(4) and follower.told[-1] == {"event": "not_legal", "reason": reason}
    # a part of a record is replaced, as a server does that is started anew
    place.write_bytes(whole[:RECORD * 12] + b"\xff" * 50)
    follower = Follower(gate.program, place, gate.policy)
    time.sleep(0.3)
    with place.open("r+b") as end:
        end.truncate(RECORD * 12)
    with place.open("ab") as end:
        end.write(whole[RECORD * 12:])
    last = next(number for number, word in reversed(commands_of(gate.run("show", gate.audit)[1])))
    is_right &= follower.has_told({"record": last})
    # whole records are lost
    with place.open("r+b") as end:
        end.truncate(RECORD * (count - 5))
    is_right &= follower.ends(1)
    # another file has its name, or none
    place.write_bytes(whole)
    follower = Follower(gate.program, place, gate.policy)
    is_right &= follower.has_told({"record": last})
    place.rename(folder / "moved.gxh")
    is_right &= follower.ends(1)
    status, _, said = follow(gate.program, folder / "none.gxh", gate.policy, "--once")
    is_right &= status == 1 and "none.gxh" in said
    is_right &= [follow(gate.program, gate.audit, gate.policy, *words)[0] for words in (("--every", "0s"), ("--warn", "75,101"))] == [2, 2]
    print(f"forged, cut off and lost records, and a lost name: {'told apart' if is_right else 'NOT AS WANTED'}")
    return is_right


def write(path: Path, content: bytes) -> Path:
    """A file with this content."""
    path.write_bytes(content)
    return path


def main() -> None:
    program = sys.argv[1] if len(sys.argv) > 1 else str(GATE)
    days = int(sys.argv[2]) if len(sys.argv) > 2 else DAYS
    with tempfile.TemporaryDirectory() as name:
        folder = Path(name)
        gate = STATE.Gate(program, folder)
        are_right = [look_at_day(gate, folder, seed) for seed in range(1, days + 1)]
        are_right += [look_at_faults(gate, folder), look_at_server(gate, folder)]
    sys.exit(0 if all(are_right) else 1)


if __name__ == "__main__":
    main()
