#!/usr/bin/env python3
"""What `gate desk` does, seen from its users' side, against servers on the policies of examples/policies:
statuses, JSON, `--reconnect`, Wireshark's dissectors; and a kill in a flood of 64 traders, eleven times.

An officer kills an account from the shell while 64 traders flood the server: how long that takes, and that the audit has no
order and no fill of the account behind the kill. Each refusal of a command, of a login and of a line has its text and its
status. Each command prints what it has done; commands come as arguments or on standard input, and the password in the
variable, in a file or in front of them. Kills of several accounts say of each what became of it: killed before, denied, not
answered, and behind a line that is cut, with and without `--reconnect` (beside a page: pages.py; money: limits.py; how long
a run takes: waits.py). Two traders trade, and a reader watches. A report that is told again at a login answers nothing, and
whatever bytes are in it, only visible characters are shown. What `--json` prints is JSON. A run that is silent for longer
than a server waits stays logged in. With `--reconnect` it goes on behind a server that was killed. tshark, where it is
there, reads no malformed packet. A line is printed for each point, and behind one that is not as wanted what was told. The
status is 1 where there is such a one. Run as

  tests/desk/try.py [GATE]
  tests/desk/try.py [GATE] --slack 5            a kill may take five times as long
  tests/desk/try.py [GATE] --leave-out reconnect,tshark     or --only orders

GATE: the built program; where none is named, crates/gate/out/gate of this repository.
"""

import argparse
import json
import re
import signal
import socket
import struct
import subprocess
import sys
import tempfile
import threading
import time
from collections.abc import Callable
from pathlib import Path

sys.dont_write_bytecode = True
TOP = Path(__file__).resolve().parents[2]
sys.path[:0] = [str(Path(__file__).resolve().parent), str(TOP / "examples")]

from client import Packets, packet  # noqa: E402  (in the folder above)
from desks import HOST, PASSWORDS, POLICIES, Server, Session, Told, flooding, serving  # noqa: E402  (beside this file)
from limits import limits_of_money, questions  # noqa: E402  (beside this file)
from pages import kills_of_the_page  # noqa: E402  (beside this file)
from waits import lines_that_ask_nothing, peer_that_hangs_up  # noqa: E402  (beside this file)

TRADERS = 64
TURNS = 10
KILL_SECONDS = 0.1
SILENT_SECONDS = 17
POINT_SECONDS = 120
KILLED, LIFTED = "ALFA killed: record {n} at {t}", "ALFA lifted: record {n} at {t}"
IS_KILLED = "gate: denied Q4: ALFA is killed already"
BROKEN = "gate: the line broke"
BROKEN_AGAIN = "gate: the line broke; the gate is called again each second"
FORMS = "kill, lift, limit, restrict, unrestrict, grant, revoke, close, buy, sell, replace, cancel, watch, help or quit"
# What a step of the audit became: the number of its record, and its verdict.
RECORD = re.compile(r"\d+ (\S+)(?: (\S+))?.* # (?:line \d+ )?at \d+: (\d+) (\w+)")


class Points:
    """The points that were looked at, and how many times as long a kill may take."""

    def __init__(self) -> None:
        self.are_right = True
        self.slack = 1.0

    def look(self, what: str, is_right: bool, *told: object) -> None:
        """Prints a point, and what was told where it is not as wanted."""
        self.are_right &= is_right
        print(f"{what}: {'as wanted' if is_right else 'NOT AS WANTED'}", flush=True)
        if not is_right:
            print(*(f"    {one}" for one in told), sep="\n", flush=True)

    def told(self, what: str, told: Told, status: int, out: list[str], err: list[str] | None = None) -> None:
        """Looks whether a run ended so, and told these lines."""
        self.look(what, told.is_as(status, out, err), told, f"wanted: {status} {out} {err or []}")

    def hears(self, what: str, session: Session, wanted: str) -> list[str]:
        """Looks whether a run that goes on tells such a line; its numbers and tokens."""
        found = session.hears(wanted)
        self.look(what, found is not None, session.heard, f"wanted: {wanted}")
        return found or ["NONE"] * 2


# A kill in the middle of a flood.


def flood_policy(folder: Path) -> Path:
    """The sample policy with 64 traders more, half of each account, and without a rule."""
    front = (POLICIES / "sample.toml").read_text().partition("[[rule]]")[0]
    traders = (
        f'[[user]]\nname = "T{i:02d}"\npassword = "P{i:02d}"\nrole = "trader"\naccount = "{["ALFA", "BETA"][i % 2]}"\n'
        for i in range(TRADERS)
    )
    path = folder / "flood.toml"
    path.write_text(front + "".join(traders))
    return path


def orders_between(lines: list[str], first: int, last: float) -> tuple[int, int]:
    """How many orders and fills of an account stand between two records of its audit, and how many orders denied by P2."""
    taken = denied = 0
    for found in filter(None, map(RECORD.match, lines)):
        user, step, number, verdict = found.groups()
        if first < int(number) < last and (user == "match" or step in ("enter", "replace", "cancel")):
            taken += verdict != "denied"
            denied += verdict == "denied"
    return taken, denied


def kills_in_a_flood(gate: str, folder: Path, points: Points) -> None:
    """An officer kills ALFA from the shell, time and again, and leaves it killed in the end."""
    kills, lifts = [], []
    with serving(gate, folder, flood_policy(folder)) as server:
        with flooding(server.port, TRADERS):
            for _ in range(TURNS):
                kills.append(server.desk("OLGA", "kill", "ALFA"))
                lifts.append(server.desk("OLGA", "lift", "ALFA"))
                time.sleep(0.05)
            kills.append(server.desk("OLGA", "kill", "ALFA"))
            time.sleep(0.5)
        server.end()
        checked, shown = server.read_audit("check"), server.read_audit("show", "--account", "ALFA")
    took = " ".join(f"{kill.seconds * 1e3:.0f}" for kill in kills)
    are_told = all(kill.is_as(0, [KILLED]) for kill in kills) and all(lift.is_as(0, [LIFTED]) for lift in lifts)
    points.look(f"`kill ALFA` prints its record, beside {TRADERS} traders", are_told, *kills, *lifts)
    limit = KILL_SECONDS * points.slack
    points.look(f"it ends within {limit * 1e3:.0f} ms: {took}", all(kill.seconds < limit for kill in kills))
    begins = [kill.number(KILLED) for kill in kills]
    ends = [*(lift.number(LIFTED) for lift in lifts), float("inf")]
    between = [orders_between(shown, *span) for span in zip(begins, ends)]
    is_none = all(taken == 0 for taken, _ in between) and between[-1][1] > 0
    points.look("the audit has no order and no fill of ALFA behind a kill", is_none, between)
    points.look("the audit is legal", len(checked) == 1 and checked[0].startswith("legal "), checked)


# What is refused.


def denials(gate: str, folder: Path, points: Points) -> None:
    """Commands that the gate denies, with the text of each."""
    with serving(gate, folder) as server:
        points.told("Q1 tells a name in small letters", server.desk("OLGA", "kill", "alfa"), 5,
                    ["gate: denied Q1: the policy has no account alfa; names are in capitals"])
        points.told("Q1 tells a name that is not there", server.desk("OLGA", "lift", "GAMMA"), 5,
                    ["gate: denied Q1: the policy has no account GAMMA"])
        points.told("Q1 tells a rule without a limit", server.desk("OLGA", "limit", "HALT", "1"), 5,
                    ["gate: denied Q1: the policy has no rule HALT with a limit to set"])
        points.told("Q1 tells a rule without a list", server.desk("OLGA", "restrict", "SIZE", "TEST"), 5,
                    ["gate: denied Q1: the policy has no rule SIZE with a list, or no stock TEST"])
        points.told("Q1 tells who is no reader", server.desk("OLGA", "grant", "BOB", "ALFA"), 5,
                    ["gate: denied Q1: the policy has no reader BOB, or no account ALFA"])
        points.told("Q2 tells the power", server.desk("OTTO", "lift", "ALFA"), 5,
                    ["gate: denied Q2: you have not the power `lift`"])
        server.desk("OTTO", "kill", "ALFA")
        points.told("who is no officer is not answered", server.desk("ALICE", "kill", "ALFA"), 1, [],
                    ["gate: no answer within 5 seconds"])
        points.told("Q4 of a kill", server.desk("OLGA", "kill", "ALFA"), 5, [IS_KILLED])
        points.told("Q4 of a lift", server.desk("OLGA", "lift", "BETA"), 5,
                    ["gate: denied Q4: BETA is not killed, or you have lifted it already"])
    with serving(gate, folder, "risk-desk.toml") as server:
        points.told("Q3 of an account", server.desk("OTTO", "kill", "ALFA"), 5,
                    ["gate: denied Q3: ALFA is not an account of yours"])
        points.told("Q3 of a rule", server.desk("OTTO", "limit", "SIZE", "100"), 5,
                    ["gate: denied Q3: SIZE is for an account that is not yours"])


def failures(gate: str, folder: Path, points: Points) -> None:
    """Logins that are rejected, lines that fail, and words that are wrong."""
    login = "gate: login rejected: A: {any}"
    with serving(gate, folder) as server:
        points.told("a wrong password", server.desk("OLGA", "kill", "ALFA", password="pear"), 6, [], [login])
        with server.session("OLGA") as session:
            session.says("kill BETA")
            session.hears("BETA killed: record {n} at {t}")
            points.told("who is on already", server.desk("OLGA", "kill", "ALFA"), 6, [], [login])
            server.crash()
            points.hears("a line that breaks is told of", session, BROKEN)
            points.look("and ends with status 1", session.ends() == 1, session.run.returncode)
        nobody = server.desk("OLGA", "kill", "ALFA")
        is_told = nobody.status == 1 and not nobody.out and nobody.err[:1] != [] and nobody.err[0].startswith("gate: ")
        points.look("no server", is_told, nobody)


def wrong_words(gate: str, folder: Path, points: Points) -> None:
    """Words that are wrong: nothing is sent for them."""
    wrong = {
        "a price that is none": (
            "buy 100 TEST cheap",
            "word 4: wanted PRICE, dollars with at most four decimals, as 10, 10.5 or 10.0001, below 429496.7296",
        ),
        "a line that ends early": ("kill", "word 2: wanted ACCOUNT, 1 to 8 of the characters ! to ~, or --all"),
        "a word too many": ("lift ALFA BETA", "word 3: wanted the end of the line"),
        "a word behind --all": ("kill --all ALFA", "word 3: wanted the end of the line"),
        "a second account that is none": ("kill ALFA BETABETAB", "word 3: wanted ACCOUNT, 1 to 8 of the characters ! to ~"),
        "a form that is none": ("halt ALFA", f"word 1: wanted {FORMS}"),
        "close without --yes": (
            "close", "word 2: wanted --yes: closing ends the day for everybody, and nobody can undo it"
        ),
    }
    with serving(gate, folder) as server:
        for what, (line, why) in wrong.items():
            points.told(what, server.desk("OLGA", *line.split()), 2, [], [f"gate: {why}"])
        misspelt = server.desk("OLGA", "--jsn", "kill", "ALFA")
        is_told = misspelt.status == 2 and not misspelt.out and "--jsn" in " ".join(misspelt.err)
        points.look("a misspelt option is no word", is_told, misspelt)
        without = server.desk("OLGA", "kill", "--all")
        is_told = without.status == 2 and not without.out and "--policy" in " ".join(without.err)
        points.look("kill --all without --policy", is_told, without)
        listed = server.desk("OLGA", "kill", "--all", options=("--accounts", "ALFA,BETABETAB"))
        is_told = listed.status == 2 and not listed.out and "--accounts" in " ".join(listed.err)
        points.look("kill --all with a list that is none", is_told, listed)
        both = server.desk("OLGA", "kill", "--all", options=("--accounts", "ALFA", "--policy", str(server.policy)))
        points.look("--accounts beside --policy", both.status == 2 and not both.out, both)
        server.end()
        shown = server.read_audit("show", "--user", "OLGA")
        points.look("nothing was sent for any of them", not any("kill" in line or "close" in line for line in shown), shown)


# What is done.


def commands(gate: str, folder: Path, points: Points) -> None:
    """Each command of an officer, one and then the other."""
    with serving(gate, folder, "risk-desk.toml") as server:
        for line, told in {
            "kill ALFA": "ALFA killed",
            "lift ALFA": "ALFA lifted",
            "limit SIZE 1000": "SIZE limit is 1000",
            "restrict HALT TEST": "HALT lists TEST",
            "unrestrict HALT TEST": "HALT lists TEST no longer",
            "grant RITA ALFA": "RITA sees ALFA",
            "revoke rita ALFA": "rita sees ALFA no longer",
            "close --yes": "day closed",
        }.items():
            told_of = server.desk("OLGA", *line.split())
            points.told(f"`{line}`", told_of, 0, [told + ": record {n} at {t}"])
        late = server.desk("ALICE", "buy", "1", "TEST", "10")
        points.look("an order once the day is closed is not told as taken", late.status != 0 and not late.out, late)


def settings_that_are_so(gate: str, folder: Path, points: Points) -> None:
    """Q4 of each command that leaves a setting as it is."""
    first = ["limit SIZE 1000", "restrict HALT TEST", "grant RITA ALFA"]
    again = ["limit SIZE 1000", "restrict HALT TEST", "grant RITA ALFA", "unrestrict HALT TEST", "revoke RITA ALFA"]
    undone = ["unrestrict HALT TEST", "revoke RITA ALFA"]
    wanted = ["SIZE limit is 1000 already", "HALT lists TEST already", "RITA sees ALFA already"]
    with serving(gate, folder, "risk-desk.toml") as server:
        given = "\n".join([*first, *again, *undone]) + "\n"
        told = server.desk("OLGA", given=given)
        denied = [line for line in told.out if line.startswith("gate: denied ")]
        wanted += ["HALT does not list TEST", "RITA does not see ALFA"]
        is_right = told.status == 5 and denied == [f"gate: denied Q4: {line}" for line in wanted]
        points.look("Q4 of a setting that is so already", is_right, told, f"wanted: {wanted}")


def two_officers(gate: str, folder: Path, points: Points) -> None:
    """A kill that two officers have to lift."""
    with serving(gate, folder, "two-officers.toml") as server:
        server.desk("OTTO", "kill", "ALFA")
        points.told("the first of two lifts", server.desk("OLGA", "lift", "ALFA"), 0,
                    ["ALFA partly lifted: record {n} at {t}; another officer has to lift it too"])
        points.told("the first officer's second lift", server.desk("OLGA", "lift", "ALFA"), 5,
                    ["gate: denied Q4: ALFA is not killed, or you have lifted it already"])
        points.told("the second of two lifts", server.desk("OTTO", "lift", "ALFA"), 0, [LIFTED])


def killed(*accounts: str) -> list[str]:
    """The lines of accounts that are killed."""
    return [account + " killed: record {n} at {t}" for account in accounts]


def killed_before(*accounts: str) -> list[str]:
    """The lines of accounts that were killed already."""
    return [f"gate: denied Q4: {account} is killed already" for account in accounts]


def without_account(folder: Path, name: str) -> Path:
    """A copy of the sample policy that lacks an account, its users and its rules."""
    parts = (POLICIES / "sample.toml").read_text().split("\n[[")
    kept = [part for part in parts if f'"{name}"' not in part and not part.startswith("rule")]
    path = folder / f"without-{name}.toml"
    path.write_text("\n[[".join(kept))
    return path


def kills_all(gate: str, folder: Path, points: Points) -> None:
    """A kill of each account, with the line that sums it up."""
    with serving(gate, folder) as server:
        policy, listed = ("--policy", str(server.policy)), ("--accounts", "ALFA,BETA")
        source = f" (the accounts are those of {server.policy}; the server's policy may have others)"
        told = server.desk("OLGA", "kill", "--all", options=policy)
        points.told("`kill --all` with --policy", told, 0, [*killed("ALFA", "BETA"), "2 accounts: 2 killed" + source])
        told = server.desk("OLGA", "kill", "--all", options=policy)
        wanted = [*killed_before("ALFA", "BETA"), "2 accounts: 0 killed, 2 were killed already" + source]
        points.told("`kill --all` of what is killed", told, 0, wanted)
        server.desk("OLGA", "lift", "ALFA")
        told = server.desk("OLGA", "kill", "--all", options=listed)
        wanted = [*killed("ALFA"), *killed_before("BETA"), "2 accounts: 1 killed, 1 was killed already"]
        points.told("`kill --all` with --accounts, one of them killed before", told, 0, wanted)
        told = server.desk("OLGA", "kill", "--all", options=("--accounts", "ALFA,HOTEL"))
        wanted = [*killed_before("ALFA"), "gate: denied Q1: the policy has no account HOTEL",
                  "2 accounts: 0 killed, 1 was killed already, 1 denied: HOTEL"]
        points.told("`kill --all` with an account that is not there", told, 5, wanted)
        told = server.desk("ALICE", "kill", "--all", options=listed)
        points.told("`kill --all` of who is no officer", told, 7, ["2 accounts: 0 killed, 2 not answered: ALFA BETA"],
                    ["gate: no answer within 5 seconds"])
    with serving(gate, folder) as server:
        path, real = folder / "desk.toml", server.policy.read_text()
        printed = subprocess.run([gate, "policy", "--for-desk", str(server.policy)], capture_output=True, text=True, check=True)
        path.write_text(printed.stdout)
        secrets = [*PASSWORDS, *PASSWORDS.values(), "password"]
        points.look("`gate policy --for-desk` prints no user and no password",
                    all(word in real and word not in printed.stdout for word in secrets), printed.stdout)
        counted = subprocess.run([gate, "policy", str(path)], capture_output=True, text=True, check=False).stdout
        points.look("and all else of the policy", counted == "policy 2: 2 accounts, 1 stocks, 0 users, 2 rules\n", counted)
        told = server.desk("OLGA", "kill", "--all", options=("--policy", str(path)))
        source = f" (the accounts are those of {path}; the server's policy may have others)"
        points.told("`kill --all` with that file", told, 0, [*killed("ALFA", "BETA"), "2 accounts: 2 killed" + source])
    with serving(gate, folder) as server:
        copy = without_account(folder, "BETA")
        told = server.desk("OLGA", "kill", "--all", options=("--policy", str(copy)))
        source = f" (the accounts are those of {copy}; the server's policy may have others)"
        points.told("`kill --all` with a copy that lacks an account", told, 0, [*killed("ALFA"), "1 account: 1 killed" + source])
        told = server.desk("OLGA", "kill", "BETA")
        points.told("that account was not killed", told, 0, killed("BETA"))


def kills_several(gate: str, folder: Path, points: Points) -> None:
    """A kill of several accounts that are named, with the line that sums it up."""
    with serving(gate, folder, "risk-desk.toml") as server:
        server.desk("OLGA", "kill", "BETA")
        told = server.desk("OTTO", "kill", "ALFA", "BETA")
        wanted = ["gate: denied Q3: ALFA is not an account of yours", *killed_before("BETA"),
                  "2 accounts: 0 killed, 1 was killed already, 1 denied: ALFA"]
        points.told("several accounts, one of another officer", told, 5, wanted)
        told = server.desk("OLGA", "kill", "ALFA", "BETA")
        wanted = [*killed("ALFA"), *killed_before("BETA"), "2 accounts: 1 killed, 1 was killed already"]
        points.told("several accounts, one killed before", told, 0, wanted)
        told = server.desk("OLGA", given="lift ALFA\nkill ALFA BETA\nlift ALFA\nlift BETA\n")
        points.told("on standard input, between other commands", told, 0, [LIFTED, *wanted, LIFTED, "BETA lifted: {any}"])
        told = server.desk("OLGA", given="kill ALFA HOTEL\nkill ALFA\n")
        wanted = [*killed("ALFA"), "gate: denied Q1: the policy has no account HOTEL",
                  "2 accounts: 1 killed, 1 denied: HOTEL", IS_KILLED]
        points.told("an account that is not there, and the kill of one account as ever", told, 5, wanted)
        told = server.desk("OLGA", "kill", "ALFA", "HOTEL", "INDIA", options=("--json",))
        counts = {"event": "kills", "accounts": 3, "killed": 0, "killed_already": 1, "denied": 2, "not_answered": 0}
        summed = {**counts, "not_killed": ["HOTEL", "INDIA"]}
        points.look("--json", told.status == 5 and json.loads(told.out[-1]) == summed and len(told.out) == 4, told)
        policy = ("--json", "--policy", str(server.policy))
        told = server.desk("OLGA", "kill", "--all", options=policy)
        last = json.loads(told.out[-1])
        is_right = told.status == 0 and last["policy"] == str(server.policy) and last["not_killed"] == []
        points.look("--json of `kill --all` with --policy", is_right, told)
        told = server.desk("ALICE", "kill", "ALFA", "BETA", options=("--json",))
        last = json.loads(told.out[-1])
        is_right = told.status == 7 and (last["not_answered"], last["not_killed"]) == (2, ["ALFA", "BETA"])
        points.look("--json of kills without an answer", is_right, told)


# A line that is cut.


class Cutter:
    """A relay in front of a server, which cuts its first line in the middle of the fourth Kill, once the server has answered
    three; the client has heard these answers, or none. Later lines are relayed whole."""

    def __init__(self, port: int, are_heard: bool) -> None:
        self.behind, self.are_heard = port, are_heard
        self.answers = threading.Semaphore(0)
        self.listener = socket.create_server((HOST, 0))
        self.port = self.listener.getsockname()[1]
        threading.Thread(target=self.take, daemon=True).start()

    def take(self) -> None:
        """Takes connections."""
        is_first = True
        while True:
            client, _ = self.listener.accept()
            server = socket.create_connection((HOST, self.behind))
            for one, other, relay in ((client, server, self.ask), (server, client, self.answer)):
                threading.Thread(target=relay if is_first else relay_all, args=(one, other), daemon=True).start()
            is_first = False

    def ask(self, client: socket.socket, server: socket.socket) -> None:
        """Passes on what the client asks, up to the middle of his fourth Kill."""
        kills, rest = 0, b""
        while kills < 4 and (piece := client.recv(65536)):
            rest += piece
            while kills < 4 and len(rest) >= 2 and len(rest) >= (end := 2 + int.from_bytes(rest[:2], "big")):
                kills += rest[2:4] == b"UK"
                server.sendall(rest[: end // 2 if kills == 4 else end])
                rest = rest[end:]
        for _ in range(3):
            self.answers.acquire(timeout=10)
        client.shutdown(socket.SHUT_WR)
        server.close()
        while client.recv(65536):
            pass

    def answer(self, server: socket.socket, client: socket.socket) -> None:
        """Passes on what the server answers; of answers to Kills only where they are to be heard."""
        packets = Packets()
        try:
            while piece := server.recv(65536):
                for kind, payload in packets.take(piece):
                    is_answer = kind == b"S" and payload[:1] == b"Q"
                    if self.are_heard or not is_answer:
                        client.sendall(packet(kind, payload))
                    if is_answer:
                        self.answers.release()
        except OSError:
            pass


def relay_all(one: socket.socket, other: socket.socket) -> None:
    """Passes on all that one end says."""
    try:
        while piece := one.recv(65536):
            other.sendall(piece)
        other.shutdown(socket.SHUT_WR)
    except OSError:
        pass


def ten_accounts(folder: Path) -> tuple[Path, list[str]]:
    """The sample policy with ten accounts, and their names."""
    names = ["ALFA", "BETA", *(f"ACCT{i}" for i in range(8))]
    text = (POLICIES / "sample.toml").read_text()
    more = "".join(f'[[account]]\nname = "{name}"\nfirm = "F{name[-1]}"\n\n' for name in names[2:])
    path = folder / "ten.toml"
    path.write_text(text.replace("[[stock]]", more + "[[stock]]", 1))
    return path, names


def cut_kills(gate: str, folder: Path, points: Points) -> None:
    """A line that is cut in the middle of the fourth Kill of ten, with and without --reconnect."""
    path, names = ten_accounts(folder)
    listed = ("--accounts", ",".join(names))
    lost = " ".join(names[3:])
    for are_heard, what in ((True, "three answers were heard"), (False, "no answer was heard")):
        with serving(gate, folder, path) as server:
            own = server.port
            server.port = Cutter(own, are_heard).port
            told = server.desk("OLGA", "kill", "--all", options=listed)
            summed = f"10 accounts: 3 killed, 7 not answered: {lost}"
            wanted = [*killed(*names[:3]), summed]
            if not are_heard:
                wanted = [f"10 accounts: 0 killed, 10 not answered: {' '.join(names)}"]
            points.told(f"a line that is cut: {what}", told, 7, wanted, [BROKEN])
        with serving(gate, folder, path) as server:
            server.desk("OLGA", "kill", names[9])
            own = server.port
            server.port = Cutter(own, are_heard).port
            told = server.desk("OLGA", "kill", "--all", options=("--reconnect", *listed))
            wanted = [*killed(*names[:9]), *killed_before(names[9]), "10 accounts: 9 killed, 1 was killed already"]
            points.told(f"the same with --reconnect: {what}", told, 0, wanted, [BROKEN_AGAIN])
            server.port = own
            told = server.desk("OLGA", "kill", *names)
            wanted = [*killed_before(*names), "10 accounts: 0 killed, 10 were killed already"]
            points.told("and each is killed", told, 0, wanted)
    with serving(gate, folder, path) as server:
        server.port = Cutter(server.port, True).port
        told = server.desk("OLGA", "kill", *names, options=("--reconnect",))
        points.told("several that are named, with --reconnect", told, 0, [*killed(*names), "10 accounts: 10 killed"], [BROKEN_AGAIN])
    with serving(gate, folder, path) as server:
        server.port = Cutter(server.port, True).port
        given = "kill alfa\nkill --all\nlift BETA\n"
        told = server.desk("OLGA", options=("--reconnect", "--accounts", ",".join(names)), given=given)
        wanted = ["gate: denied Q1: the policy has no account alfa; names are in capitals", *killed(*names),
                  "10 accounts: 10 killed", "BETA lifted: record {n} at {t}"]
        points.told("on standard input, behind a kill that is denied", told, 5, wanted, [BROKEN_AGAIN])


def standard_input(gate: str, folder: Path, points: Points) -> None:
    """Commands on standard input, and the three places of a password."""
    file = folder / "password"
    file.write_text("orange\n")
    lines = "# a comment\n\nkill ALFA\nkill alfa\nhalt\nlift ALFA\nquit\nkill BETA\n"
    wanted = [KILLED, "gate: denied Q1: the policy has no account alfa; names are in capitals", LIFTED]
    wrong = [f"gate: word 1: wanted {FORMS}"]
    with serving(gate, folder) as server:
        told = server.desk("OLGA", password=None, given="orange\n" + lines)
        points.told("a password and commands on standard input", told, 5, wanted, wrong)
        told = server.desk("OLGA", given=lines)
        points.told("the password in GATE_PASSWORD", told, 5, wanted, wrong)
        told = server.desk("OLGA", password="pear", given=lines, options=("--password-file", str(file)))
        points.told("the password in a file, before the variable", told, 5, wanted, wrong)
        told = server.desk("OLGA", "kill", "ALFA", password=None, given="orange\n")
        points.told("a command behind the options, its password on standard input", told, 0, [KILLED])
        told = server.desk("OLGA", given="halt\nlift ALFA\n")
        points.told("a bad line lets the run go on", told, 2, [LIFTED], wrong)
        told = server.desk("OLGA", given="help\n")
        page = "\n".join([*told.out, *told.err])
        points.look("`help`", told.status == 0 and "kill ACCOUNT" in page and "PRICE is in dollars" in page, told)


def orders(gate: str, folder: Path, points: Points) -> None:
    """Two traders trade; one replaces and cancels what is left."""
    with serving(gate, folder) as server, server.session("ALICE") as alice, server.session("BOB") as bob:
        alice.says("buy 100 TEST 10.00")
        first, _ = points.hears("a buy", alice, "{token} accepted: buy 100 TEST at 10.00, order {n}, at {t}")
        bob.says("sell 60 TEST 10")
        points.hears("a sell", bob, "{token} accepted: sell 60 TEST at 10.00, order {n}, at {t}")
        points.hears("its fill", bob, "{token} executed: 60 at 10.00, match {n}, removed liquidity, at {t}")
        points.hears("the other side", alice, first + " executed: 60 at 10.00, match {n}, added liquidity, at {t}")
        alice.says(f"replace {first} 90 10.10")
        second, _ = points.hears("a replace", alice, "{token} replaces %s: buy 30 TEST at 10.10, order {n}, at {t}" % first)
        alice.says(f"cancel {second}")
        points.hears("a cancel", alice, second + " canceled: 30, requested, at {t}")
        alice.says("buy 1 TEST 10.0001 ioc")
        points.hears("an order that is rejected", alice, "{token} rejected: {any}")
        alice.says("buy 10 TEST 9.5 ioc")
        points.hears("an order that is to be filled at once or never", alice, "{token} accepted: buy 10 TEST at 9.50, {any}")
        points.hears("its end", alice, "{token} canceled: 10, immediate or cancel, at {t}")
        points.look("a rejected order makes it status 5", alice.ends() == 5, alice.run.returncode)
        points.look("none makes it status 0", bob.ends() == 0, bob.run.returncode)


def orders_from_the_shell(gate: str, folder: Path, points: Points) -> None:
    """An order in one run, and its cancel in another."""
    with serving(gate, folder) as server:
        told = server.desk("ALICE", "buy", "5", "TEST", "9.50")
        points.told("a buy from the shell", told, 0, ["{token} accepted: buy 5 TEST at 9.50, order {n}, at {t}"])
        token = told.out[0].split()[0] if told.out else "NONE"
        told = server.desk("ALICE", "cancel", token)
        points.told("a cancel in another run", told, 0, [token + " canceled: 5, requested, at {t}"])
        told = server.desk("ALICE", "cancel", token)
        wanted = f"gate: no order of yours is live under {token}"
        points.look("a cancel of no live order", told.status == 5 and told.out + told.err == [wanted], told)
        told = server.desk("ALICE", "buy", "0", "TEST", "10")
        points.told("an order of no shares", told, 5, ["{token} rejected: Z, no shares, or more than is safe, at {t}"])


def tell_late(listener: socket.socket, token: bytes) -> None:
    """Plays a server that is slow to tell again the last report of a stream, the end of an order of this token."""
    line, _ = listener.accept()
    packets = Packets()
    with line:
        line.sendall(packet(b"A", b"%10s%20d" % (b"GATE01", 2)))
        time.sleep(0.3)
        line.sendall(packet(b"S", struct.pack(">cQ14sIc", b"C", 1, token.ljust(14), 5, b"U")))
        while piece := line.recv(4096):
            if any(kind == b"O" for kind, _ in packets.take(piece)):
                return


def old_reports(gate: str, folder: Path, points: Points) -> None:
    """The last report of a stream, told again at a login, answers nothing, and no byte of it is shown raw."""
    with serving(gate, folder) as server, socket.create_server((HOST, 0)) as listener:
        server.port = listener.getsockname()[1]
        threading.Thread(target=tell_late, args=(listener, b"T1"), daemon=True).start()
        told = server.desk("ALICE", "cancel", "T1")
        is_right = told.status == 5 and told.out + told.err == ["gate: no order of yours is live under T1"]
        points.look("a report that is told again late answers nothing", is_right, told)
        threading.Thread(target=tell_late, args=(listener, b"\x1b[2J\n\"\\"), daemon=True).start()
        with server.session("ALICE", "watch") as alice:
            wanted = "\\x1b[2J\\x0a\"\\x5c canceled: 5, requested, at {t}"
            points.hears("a token that would speak to the terminal is shown in visible characters", alice, wanted)
        threading.Thread(target=tell_late, args=(listener, b"\x1b[2J\n\"\\"), daemon=True).start()
        with server.session("ALICE", "--json", "watch") as alice:
            alice.hears("{any}")
            token = json.loads((alice.heard or ["{}"])[0]).get("token")
            points.look("and in JSON it is the token's bytes", token == '\x1b[2J\n"\\', alice.heard)


def trade(server: Server, shares: int) -> None:
    """A fill between ALICE and BOB."""
    with server.session("ALICE") as alice:
        alice.says(f"buy {shares} TEST 10")
        alice.hears("{token} accepted: {any}")
        server.desk("BOB", "sell", str(shares), "TEST", "10")
        alice.hears("{token} executed: {any}")
        alice.ends()


def watching(gate: str, folder: Path, points: Points) -> None:
    """A reader sees the fills of an account once it was granted to him."""
    wanted = "ALFA: buy %d at 10.00, token {token}, match {n}, added liquidity, at {t}"
    with serving(gate, folder) as server:
        server.desk("OLGA", "grant", "RITA", "ALFA")
        with server.session("RITA") as rita:
            rita.says("watch")
            time.sleep(0.2)
            trade(server, 10)
            points.hears("a reader's `watch` shows a drop copy", rita, wanted % 10)
            points.look("and no other", rita.ends() == 0 and rita.hears("{any}", 0.3) is None, rita.heard)
        with server.session("RITA", "watch") as rita:
            time.sleep(0.2)
            trade(server, 20)
            points.hears("`watch` as an argument goes on while standard input does", rita, wanted % 20)
            points.look("and ends with it", rita.ends() == 0, rita.heard, rita.run.returncode)


def keys_of(line: str) -> list[str] | None:
    """The keys of a line of JSON, in order; None where it is none."""
    try:
        return list(json.loads(line))
    except ValueError:
        return None


def json_lines(gate: str, folder: Path, points: Points) -> None:
    """What `--json` prints is JSON, a value a line."""
    with serving(gate, folder) as server:
        given = "kill ALFA\nkill ALFA\nlift ALFA\nlimit SIZE 5\ngrant RITA ALFA\n"
        told = server.desk("OLGA", given=given, options=("--json",))
        events = [json.loads(line) if keys_of(line) else {} for line in told.out]
        wanted = [("kill", "OK"), ("kill", "Q4"), ("lift", "OK"), ("limit", "OK"), ("grant", "OK")]
        is_right = [(event.get("command"), event.get("code")) for event in events] == wanted
        is_right &= all(keys_of(line)[:3] == ["at", "event", "command"] for line in told.out if keys_of(line))
        points.look("--json of commands", is_right and told.status == 5 and events[0].get("account") == "ALFA", told)
        told = server.desk("ALICE", "buy", "5", "TEST", "9.505", options=("--json",))
        keys = ["at", "event", "token", "side", "shares", "stock", "price", "time_in_force", "order"]
        is_right = told.status == 5 and len(told.out) == 1 and json.loads(told.out[0]).get("event") == "rejected"
        points.look("--json of an order that is rejected", is_right, told)
        told = server.desk("ALICE", "buy", "5", "TEST", "9.50", options=("--json",))
        is_right = told.status == 0 and [keys_of(line) for line in told.out] == [keys]
        points.look("--json of an order", is_right and json.loads(told.out[0])["price"] == 9.5, told)


def silence(gate: str, folder: Path, points: Points) -> None:
    """A run that says nothing is not hung up on: an officer may leave it open all day."""
    with serving(gate, folder) as server, server.session("OLGA") as olga:
        time.sleep(SILENT_SECONDS)
        olga.says("kill ALFA")
        points.hears(f"a kill behind {SILENT_SECONDS} silent seconds", olga, KILLED)
        points.look("and its end", olga.ends() == 0, olga.heard, olga.run.returncode)


def reconnects(gate: str, folder: Path, points: Points) -> None:
    """A run goes on behind a server that was killed and started again on its journal."""
    with serving(gate, folder, "sample.toml", "--journal", str(folder / "journal")) as server:
        with server.session("OLGA", "--reconnect") as olga:
            olga.says("kill ALFA")
            points.hears("a kill before the server is killed", olga, KILLED)
            server.crash()
            points.hears("the line that breaks is told of", olga, BROKEN_AGAIN)
            server.start()
            time.sleep(3)
            olga.says("lift ALFA")
            points.hears("a lift once it is there again", olga, LIFTED)
            points.look("and the end of the run", olga.ends() == 0, olga.heard, olga.run.returncode)


# Its traffic.


class Tap:
    """A relay in front of a server, which keeps what goes over it: the client's port, whether it is his, and the bytes."""

    def __init__(self, port: int) -> None:
        self.pieces: list[tuple[int, bool, bytes]] = []
        self.behind = port
        self.listener = socket.create_server((HOST, 0))
        self.port = self.listener.getsockname()[1]
        threading.Thread(target=self.take, daemon=True).start()

    def take(self) -> None:
        """Takes connections."""
        while True:
            client, _ = self.listener.accept()
            server = socket.create_connection((HOST, self.behind))
            port = client.getpeername()[1]
            for ends in ((port, client, server, True), (port, server, client, False)):
                threading.Thread(target=self.pass_on, args=ends, daemon=True).start()

    def pass_on(self, port: int, one: socket.socket, other: socket.socket, is_client: bool) -> None:
        """Passes on what one end says."""
        while piece := one.recv(65536):
            self.pieces.append((port, is_client, piece))
            other.sendall(piece)
        other.shutdown(socket.SHUT_WR)

    def messages(self) -> list[str]:
        """The types of all messages that went over it, but for those of officers."""
        texts: dict[tuple[int, bool], bytes] = {}
        for port, is_client, piece in self.pieces:
            texts[port, is_client] = texts.get((port, is_client), b"") + piece
        packets = (one for text in texts.values() for one in Packets().take(text))
        types = (payload[:1].decode() for kind, payload in packets if kind in (b"U", b"S"))
        return sorted(kind for kind in types if kind not in "KLQ")

    def capture(self) -> bytes:
        """All of it as a capture file of IPv4 packets."""
        parts = [struct.pack("<IHHiIII", 0xA1B2C3D4, 2, 4, 0, 0, 65535, 101)]
        sent: dict[tuple[int, bool], int] = {}
        for number, (port, is_client, piece) in enumerate(self.pieces):
            ports = (port, self.port) if is_client else (self.port, port)
            counts = (sent.get((port, is_client), 1), sent.get((port, not is_client), 1))
            tcp = struct.pack(">HHIIBBHHH", *ports, *counts, 0x50, 0x18, 65535, 0, 0)
            ends = bytes([10, 0, 0, 1, 10, 0, 0, 2]) if is_client else bytes([10, 0, 0, 2, 10, 0, 0, 1])
            whole = struct.pack(">BBHHHBBH", 0x45, 0, 40 + len(piece), number, 0, 64, 6, 0) + ends + tcp + piece
            parts.append(struct.pack("<IIII", number, 0, len(whole), len(whole)) + whole)
            sent[port, is_client] = counts[0] + len(piece)
        return b"".join(parts)


def tapped(server: Server, tap: Tap, points: Points) -> None:
    """A day over the tap: an order, its fill, its replace, its cancel, one that is rejected, and a kill and its lift."""
    server.port = tap.port
    with server.session("ALICE") as alice:
        alice.says("buy 100 TEST 9.50")
        first = (alice.hears("{token} accepted: {any}") or ["NONE"])[0]
        server.desk("BOB", "sell", "10", "TEST", "9.50")
        alice.hears("{token} executed: {any}")
        alice.says(f"replace {first} 90 9.60")
        second = (alice.hears("{token} replaces {any}") or ["NONE"])[0]
        alice.says(f"cancel {second}")
        alice.hears("{token} canceled: {any}")
        alice.says("buy 0 TEST 9.50")
        alice.hears("{token} rejected: {any}")
        points.look("a day over a relay", alice.ends() == 5, alice.heard)
    told = server.desk("OLGA", given="kill ALFA\nlift ALFA\n")
    points.told("a kill and its lift over a relay", told, 0, [KILLED, LIFTED])


def shark(file: Path, port: int, field: str, *words: str) -> str:
    """What tshark prints of a field of each packet of a capture file."""
    call = ["tshark", "-r", str(file), "-d", f"tcp.port=={port},soupbintcp", "-T", "fields", "-e", field, *words]
    return subprocess.run(call, capture_output=True, text=True, check=True).stdout


def wireshark(gate: str, folder: Path, points: Points) -> None:
    """Wireshark's dissectors of SoupBinTCP and OUCH read what a run sends."""
    try:
        subprocess.run(["tshark", "--version"], capture_output=True, check=True)
    except OSError:
        print("tshark is not there: its traffic was not looked at", flush=True)
        return
    with serving(gate, folder) as server:
        tap, file = Tap(server.port), folder / "traffic.pcap"
        tapped(server, tap, points)
        file.write_bytes(tap.capture())
    malformed = shark(file, tap.port, "frame.number", "-Y", "_ws.malformed")
    points.look("tshark reads no malformed packet", malformed == "", malformed)
    packets = shark(file, tap.port, "soupbintcp.packet_type")
    points.look("and each packet of SoupBinTCP", set("LAUSO") <= set(packets), packets)
    messages = sorted(re.findall("[A-Z]", shark(file, tap.port, "ouch.packet_type")))
    is_each = messages == tap.messages() and set("OUXACEJ") <= set(messages)
    points.look("and each message of OUCH", is_each, messages, tap.messages())


# All of it.

PARTS: dict[str, Callable[[str, Path, Points], None]] = {
    "flood": kills_in_a_flood,
    "denials": denials, "failures": failures, "words": wrong_words,
    "commands": commands,
    "settings": settings_that_are_so,
    "two-officers": two_officers,
    "all": kills_all,
    "page": kills_of_the_page, "money": limits_of_money, "questions": questions,
    "several": kills_several,
    "cut": cut_kills,
    "input": standard_input, "nothing": lines_that_ask_nothing, "hanging-up": peer_that_hangs_up,
    "orders": orders,
    "shell": orders_from_the_shell,
    "old-reports": old_reports,
    "watch": watching,
    "json": json_lines,
    "silence": silence,
    "reconnect": reconnects,
    "tshark": wireshark,
}


def arguments() -> argparse.Namespace:
    """The words of the call."""
    parser = argparse.ArgumentParser(description="Shows what `gate desk` does.")
    parser.add_argument("gate", nargs="?", default=str(TOP / "crates" / "gate" / "out" / "gate"), help="the built program")
    parser.add_argument("--slack", type=float, default=1.0, help="how many times as long a kill may take (1)")
    parser.add_argument("--only", default=",".join(PARTS), help=f"parts to run: {', '.join(PARTS)} (all)")
    parser.add_argument("--leave-out", default="", help="parts to leave out (none)")
    return parser.parse_args()


def main() -> int:
    """Runs all parts. Answers the status: 1 where something is not as wanted."""
    asked, points = arguments(), Points()
    gate, points.slack = str(Path(asked.gate).resolve()), asked.slack
    left_out = set(asked.leave_out.split(",")) | set(PARTS) - set(asked.only.split(","))
    for name, part in PARTS.items():
        if name in left_out:
            print(f"{name}: left out", flush=True)
            continue
        signal.alarm(POINT_SECONDS)
        with tempfile.TemporaryDirectory() as folder:
            try:
                part(gate, Path(folder), points)
            except (OSError, ValueError, IndexError, subprocess.SubprocessError) as error:
                points.look(name, False, repr(error))
    return 0 if points.are_right else 1


if __name__ == "__main__":
    sys.exit(main())
