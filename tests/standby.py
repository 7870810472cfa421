#!/usr/bin/env python3
# Ends `gate serve --journal` at random moments while `gate serve --standby` follows it. Run as
#
#   tests/standby.py [GATE]              6 takeovers, and what else a standby does
#   tests/standby.py GATE 200            200 takeovers
#
# GATE: the built program; where none is named, crates/gate/out/gate of this repository.
"""A standby takes over: the server whose journal it follows is killed (SIGKILL) while six traders trade, six times, each
time the one that took over before. It listens within a second, no acknowledged report is lost or doubled, and each journal
is legal.

At a random moment the server is killed. The traders go to the port of the standby as soon as it listens, each logs in and
asks for his reports from the first on that he does not have. At the end of a day each is told all of his reports anew: they
have to be those that he was told over all connections. Every other standby waits for a file too. At the end of a day the
journal is the audit, byte for byte; one of at most 60,000 records the model finds legal too.

Then what else a standby does: it keeps off while the server runs and while there is no takeover file, ends for a stop file, leaves
a journal that is not legal as it is, goes on where a server that was started anew has cut the journal and written other bytes there,
and refuses options that do not go with it, another policy, and a journal that is not there or was moved away. And that
`packaging/feed-log.sh` gives a stand-in for `kcat -P` each record of the journal once.
"""

import argparse
import fcntl
import os
import random
import selectors
import signal
import subprocess
import sys
import tempfile
import time
from collections.abc import Iterator
from contextlib import contextmanager
from dataclasses import dataclass, field
from pathlib import Path

from scripts import script

TOP = Path(__file__).resolve().parents[1]
GATE = TOP / "crates" / "gate" / "out" / "gate"
PATIENCE_SECONDS = 20.0
LISTENS_WITHIN_SECONDS = 1.0
A_WHILE_SECONDS = 0.4
LONGEST_SECONDS = 0.08
MOST_OF_THE_MODEL = 60_000
MOST_TAKEOVERS_OF_A_DAY = 6
RECORD = 128

sys.path.insert(0, str(TOP / "tests" / "model"))
import audit  # noqa: E402
import policyfile  # noqa: E402

ends = script("end-at-random")


@dataclass
class Found(ends.Found):
    """What all takeovers came to."""

    waits: list[float] = field(default_factory=list)
    doubled: int = 0
    judged: int = 0

    def faults(self) -> int:
        """How much there is that must not be."""
        return super().faults() + self.doubled


class Trader(ends.Trader):
    """A trader who asks for the reports that he does not have."""

    def connect_again(self, port: int) -> None:
        """Logs in, for the first report that he does not have."""
        self.connect(port, ends.reports_in(self.known) + 1)

    def has_caught_up(self) -> bool:
        """Whether he is logged in."""
        return self.logged_in

    def leave_with(self, patience: float) -> None:
        """Puts what he was told on this connection behind what he was told before, once nothing more comes for so long."""
        self.line.settimeout(patience)
        while self.listen():
            pass
        self.line.close()
        self.known += self.reports


class Running:
    """A server or a standby."""

    def __init__(self, words: list[str], port: int) -> None:
        self.port = port
        self.said = tempfile.TemporaryFile()
        self.process = subprocess.Popen([*words, "--port", str(port)], stdin=subprocess.DEVNULL, stdout=subprocess.PIPE, stderr=self.said)

    def await_listening(self, patience: float = PATIENCE_SECONDS) -> bool:
        """Whether it says that it listens."""
        poll = selectors.DefaultSelector()
        poll.register(self.process.stdout, selectors.EVENT_READ)
        with poll:
            return bool(poll.select(patience)) and b"listening" in self.process.stdout.readline()

    def await_said(self, words: bytes, patience: float = PATIENCE_SECONDS) -> bool:
        """Whether it says this on standard error."""
        until = time.monotonic() + patience
        while time.monotonic() < until:
            if words in self.stderr():
                return True
            time.sleep(0.005)
        return words in self.stderr()

    def stderr(self) -> bytes:
        """What it has said on standard error."""
        self.said.seek(0)
        return self.said.read()

    def end(self) -> int:
        """Waits for its end: its status."""
        return self.process.wait(PATIENCE_SECONDS)

    def kill(self) -> None:
        """Kills it, where it has not ended."""
        self.process.kill()
        self.process.wait()
        self.process.stdout.close()


@contextmanager
def running(words: list[str]) -> Iterator[Running]:
    """A server or a standby, on a port of its own."""
    started = Running(words, ends.free_port())
    try:
        yield started
    finally:
        started.kill()


@contextmanager
def serving(words: list[str]) -> Iterator[Running]:
    """A server that listens, so that its journal is there."""
    with running(words) as server:
        server.await_listening()
        yield server


def all_reports(trader: Trader, port: int) -> bytes:
    """All of a trader's reports, as he is told them anew: at least as many as he has, as soon as he is logged out."""
    until = time.monotonic() + PATIENCE_SECONDS
    while True:
        anew = ends.Trader(trader.index)
        anew.known = trader.known
        anew.connect(port)
        while not anew.has_caught_up() and time.monotonic() < until and anew.listen():
            pass
        anew.line.close()
        if anew.logged_in or time.monotonic() > until:
            return bytes(anew.reports)
        time.sleep(0.01)


def compare(traders: list[Trader], port: int, found: Found) -> None:
    """Compares what the traders were told over all connections with what they are told anew."""
    for trader in traders:
        reports = all_reports(trader, port)
        told, anew = ends.reports_in(trader.known), ends.reports_in(reports)
        found.told += told
        if not reports.startswith(trader.known):
            found.lost += anew < told
            found.doubled += anew >= told
            found.other.append(f"{trader.name}: {told} reports over all connections are not the first of {anew} told anew")


def take_over(server: Running, standby: Running, traders: list[Trader], takeover: Path | None, found: Found) -> None:
    """Ends the server under load: the standby has to listen soon."""
    for trader in traders:
        trader.connect_again(server.port)
    ends.trade(traders, found.ends, time.monotonic() + random.uniform(0.0, LONGEST_SECONDS))
    if takeover:
        takeover.touch()
    server.process.kill()
    killed = time.monotonic()
    if not standby.await_listening():
        found.other.append(f"the standby does not listen: {standby.stderr()!r}")
    found.waits.append(time.monotonic() - killed)
    if found.waits[-1] > LISTENS_WITHIN_SECONDS:
        found.other.append(f"the standby listens {found.waits[-1]:.2f} s after the end")
    for trader in traders:
        trader.leave_with(PATIENCE_SECONDS)
    found.ends += 1


def standbys(common: list[str], folder: Path, takeovers: int) -> Iterator[tuple[Running, Path | None]]:
    """So many standbys, one after the other, and the files that every other one waits for; the last writes an audit."""
    for number in range(takeovers):
        words = [*common, "--standby", str(folder / "journal")]
        takeover = folder / f"take-over-{number}" if number % 2 else None
        words += ["--takeover-file", str(takeover)] if takeover else []
        words += ["--audit", str(folder / "audit")] if number + 1 == takeovers else []
        standby = Running(words, ends.free_port())
        if not standby.await_said(b"the server stands by"):
            raise RuntimeError(f"no standby: {standby.stderr()!r}")
        yield standby, takeover


def run_day(gate: str, folder: Path, takeovers: int, found: Found) -> None:
    """Runs a day over so many takeovers, to a clean end."""
    for file in folder.glob("*"):
        if file.name != "policy.toml":
            file.unlink()
    stop = folder / "stop"
    common = [gate, "serve", "--policy", str(folder / "policy.toml"), "--stop-file", str(stop)]
    traders = [Trader(index) for index in range(ends.TRADERS)]
    server = Running([*common, "--journal", str(folder / "journal")], ends.free_port())
    try:
        server.await_listening()
        for standby, takeover in standbys(common, folder, takeovers):
            take_over(server, standby, traders, takeover, found)
            ends.check(gate, folder, found)
            server.kill()
            server = standby
        for trader in traders:
            trader.connect_again(server.port)
        ends.trade(traders, found.ends, time.monotonic() + LONGEST_SECONDS)
        for trader in traders:
            trader.leave_with(0.2)
        compare(traders, server.port, found)
        stop.touch()
        if status := server.end():
            found.other.append(f"the last server ended with status {status}: {server.stderr()!r}")
    finally:
        server.kill()
    close_day(gate, folder, found)


def close_day(gate: str, folder: Path, found: Found) -> None:
    """Looks at the journal of a day that has ended."""
    journal = (folder / "journal").read_bytes()
    if journal != (folder / "audit").read_bytes():
        found.other.append("the journal of a clean end is not the audit")
    ends.check(gate, folder, found)
    found.records += (records := len(journal) // RECORD - 1)
    found.days += 1
    if records > MOST_OF_THE_MODEL:
        return
    _version, policy = policyfile.read_policy((folder / "policy.toml").read_bytes())
    legal, told = audit.check(policy, journal)
    found.judged += 1
    if not legal:
        found.illegal += 1
        found.other.append(f"the model finds the journal illegal: {told}")


class Cases:
    """What else a standby does, each in a folder of its own: a method a case, which answers what is as it should not be."""

    def __init__(self, gate: str, folder: Path) -> None:
        self.gate = gate
        self.folder = folder
        self.journal = folder / "journal"
        self.policy = folder / "policy.toml"
        self.policy.write_text(ends.policy_text())

    def serve(self, *words: object) -> list[str]:
        """The words of a server under the policy."""
        return [self.gate, "serve", "--policy", str(self.policy), *map(str, words)]

    def primary(self, *words: object) -> list[str]:
        """Those of one that keeps the journal."""
        return self.serve("--journal", self.journal, *words)

    def standby(self, *words: object) -> list[str]:
        """Those of one that follows it."""
        return self.serve("--standby", self.journal, *words)

    def refused(self, words: list[str]) -> tuple[int, str]:
        """The status of a call that is refused, and what it says."""
        answer = subprocess.run([*words, "--port", str(ends.free_port())], capture_output=True, timeout=PATIENCE_SECONDS, check=False)
        return answer.returncode, answer.stderr.decode()

    def records(self, count: int, seed: int) -> bytes:
        """A journal of so many records: log-ins, and log-ins that are denied."""
        chance = random.Random(seed)
        lines = []
        for number in range(count):
            name = chance.randrange(ends.TRADERS)
            lines.append(f"{number} T{name:02d} {chance.choice(('login P%02d 0' % name, 'logout'))}")
        words = [self.gate, "script", "--policy", str(self.policy), "--audit", str(self.folder / "made")]
        subprocess.run(words, input="\n".join(lines).encode() + b"\n", stdout=subprocess.DEVNULL, check=True)
        return (self.folder / "made").read_bytes()

    def keeps_off(self) -> str:
        """It keeps off while the server runs, and then while there is no takeover file."""
        asked = self.folder / "take-over"
        with serving(self.primary()) as server, running(self.standby("--takeover-file", asked)) as standby:
            asked.touch()
            early = standby.await_listening(A_WHILE_SECONDS)
            asked.unlink()
            time.sleep(0.15)
            server.kill()
            unasked = standby.await_listening(A_WHILE_SECONDS)
            asked.touch()
            late = not standby.await_listening(LISTENS_WITHIN_SECONDS)
        return f"{early=} {unasked=} {late=}" if early or unasked or late else ""

    def ends_for_a_stop_file(self) -> str:
        """It ends for a stop file before it takes over, with status 0, and the server goes on."""
        stop = self.folder / "stop"
        with serving(self.primary()) as server, running(self.standby("--stop-file", stop)) as standby:
            standby.await_said(b"stands by")
            stop.touch()
            status = standby.end()
            alive = server.process.poll() is None
        return "" if status == 0 and alive and b"stop" in standby.stderr() else f"{status=} {alive=} {standby.stderr()!r}"

    def takes_over_at_once(self) -> str:
        """Where no server keeps the journal it takes over at once: it cuts off a record that is not whole, and says so."""
        whole = self.records(40, 1)
        self.journal.write_bytes(whole[:-50])
        stop = self.folder / "stop"
        with running(self.standby("--stop-file", stop)) as standby:
            listening = standby.await_listening(LISTENS_WITHIN_SECONDS)
            stop.touch()
            status = standby.end()
            told = standby.await_said(b"39 records are kept") and standby.await_said(b"78 bytes of one that was cut off")
        begins = self.journal.read_bytes().startswith(whole[:-RECORD])
        return "" if listening and status == 0 and told and begins else f"{listening=} {status=} {told=} {begins=} {standby.stderr()!r}"

    def goes_on_where_it_was_cut(self) -> str:
        """A server that is started anew cuts off a record that is not whole, and writes another one there."""
        one, other = self.records(30, 2), self.records(60, 3)
        same = next(at for at in range(len(one)) if one[at] != other[at]) // RECORD * RECORD
        asked, stop = self.folder / "take-over", self.folder / "stop"
        with self.journal.open("wb", buffering=0) as file:
            fcntl.flock(file, fcntl.LOCK_EX)
            file.write(one[:same + RECORD - 1])
            with running(self.standby("--takeover-file", asked, "--stop-file", stop)) as standby:
                standby.await_said(b"stands by")
                time.sleep(0.2)
                file.truncate(same)
                file.seek(same)
                for at in range(same, len(other), 41):
                    file.write(other[at:at + 41])
                    time.sleep(0.002)
                asked.touch()
                file.close()
                listening = standby.await_listening(LISTENS_WITHIN_SECONDS)
                stop.touch()
                status = standby.end()
                said = standby.stderr()
        kept = self.journal.read_bytes().startswith(other)
        return "" if listening and status == 0 and kept else f"{listening=} {status=} {kept=} {said!r}"

    def same_faults(self) -> str:
        """It ends as a server does on the same file, and leaves it as it is: no journal, a record that is none, another policy."""
        whole = self.records(20, 4)
        faults = {
            "a record that is none": whole[:5 * RECORD] + b"?" * RECORD + whole[6 * RECORD:],
            "an illegal record": whole[:7 * RECORD] + whole[6 * RECORD:],
            "a few bytes that are no header": b"no journal",
            "records without a header": whole[RECORD:],
            "another policy": whole[:4] + b"OTHER     " + whole[14:],
        }
        wrong = []
        for name, content in faults.items():
            self.journal.write_bytes(content)
            of_server = self.refused(self.primary())
            status, said = self.refused(self.standby())
            words = said.split("\n", 1)[1] if "stands by" in said.split("\n", 1)[0] else said
            if (status, words) != of_server or self.journal.read_bytes() != content or status == 0:
                wrong.append(f"{name}: {status} {said!r}, and not {of_server}")
        return "; ".join(wrong)

    def finds_a_fault_while_it_follows(self) -> str:
        """A record that is not legal ends it while the server runs."""
        whole = self.records(20, 5)
        with self.journal.open("wb", buffering=0) as file:
            fcntl.flock(file, fcntl.LOCK_EX)
            file.write(whole)
            with running(self.standby()) as standby:
                standby.await_said(b"stands by")
                time.sleep(0.1)
                file.write(whole[-RECORD:])
                status = standby.end()
                said = standby.stderr()
        return "" if status == 4 and b"bad record 21" in said else f"{status=} {said!r}"

    def is_moved_away(self) -> str:
        """It does not go on with a journal that has lost its name to another file."""
        with self.journal.open("wb", buffering=0) as file:
            fcntl.flock(file, fcntl.LOCK_EX)
            file.write(self.records(5, 6))
            with running(self.standby()) as standby:
                standby.await_said(b"stands by")
                self.journal.rename(self.folder / "yesterday")
                self.journal.write_bytes(b"")
                file.close()
                status = standby.end()
                said = standby.stderr()
        return "" if status != 0 and b"has its name" in said else f"{status=} {said!r}"

    def is_not_there(self) -> str:
        """There has to be a journal."""
        status, said = self.refused(self.standby())
        return "" if status != 0 and "No such file" in said and not self.journal.exists() else f"{status=} {said!r}"

    def wrong_options(self) -> str:
        """What does not go together is refused, with status 2, in words that name both."""
        self.journal.write_bytes(b"")
        calls = {
            ("--journal <FILE>", "--standby <JOURNAL>"): self.standby("--journal", self.journal),
            ("--until-input-ends", "--standby <JOURNAL>"): self.standby("--until-input-ends"),
            ("--takeover-file <FILE>", "--journal <FILE>"): self.primary("--takeover-file", "F"),
            ("--standby <JOURNAL>", "required"): self.serve("--takeover-file", "F"),
            ("--journal <FILE>", "--standby <JOURNAL>", "required"): self.serve("--journal-sync"),
        }
        wrong = []
        for named, words in calls.items():
            status, said = self.refused(words)
            if status != 2 or not all(name in said for name in named):
                wrong.append(f"{words[4:]}: {status} {said!r}")
        return "; ".join(wrong)

    def syncs(self) -> str:
        """It takes `--journal-sync` and the risk desk's page."""
        self.journal.write_bytes(self.records(5, 7))
        with running(self.standby("--journal-sync", "--status-port", ends.free_port(), "--log", "json")) as standby:
            listening = standby.await_listening(LISTENS_WITHIN_SECONDS)
            said = standby.await_said(b'"event":"standby"') and standby.await_said(b"takes over: 5 records")
            told = standby.stderr()
        return "" if listening and said else f"{listening=} {told!r}"


    def feeds_a_log(self) -> str:
        """`packaging/feed-log.sh` gives a stand-in for `kcat -P` each record once, in order, over a takeover and an end of its own."""
        messages, stop = self.folder / "messages", self.folder / "stop"
        messages.touch()
        traders = [Trader(index) for index in range(ends.TRADERS)]
        with serving(self.primary()) as server, running(self.standby("--stop-file", stop)) as standby:
            standby.await_said(b"stands by")
            with feed(self.journal, messages):
                self.trade(traders, server.port)
                server.process.kill()
                standby.await_listening()
                self.trade(traders, standby.port)
            with feed(self.journal, messages):
                self.trade(traders, standby.port)
                stop.touch()
                standby.end()
                until = time.monotonic() + PATIENCE_SECONDS
                while (given := given_to(messages)) < (kept := self.journal.read_bytes()[RECORD:]) and time.monotonic() < until:
                    time.sleep(0.05)
        return "" if given == kept else f"{len(given) // RECORD} records of {len(kept) // RECORD} were given, or not these"

    def trade(self, traders: list[Trader], port: int) -> None:
        """Has traders trade for a moment."""
        for trader in traders:
            trader.connect_again(port)
        ends.trade(traders, port, time.monotonic() + 0.2)
        for trader in traders:
            trader.leave_with(0.1)


def given_to(messages: Path) -> bytes:
    """The records that the stand-in was given: its messages, but for one that is not whole."""
    lines = messages.read_bytes().split(b"\n")[:-1]
    return bytes.fromhex(b"".join(lines).decode())


@contextmanager
def feed(journal: Path, messages: Path) -> Iterator[None]:
    """Feeds the journal, from the first record on that was not given, to a stand-in for `kcat -P`, until it is ended."""
    given = given_to(messages)
    messages.write_text("".join(f"{given[at:at + RECORD].hex()}\n" for at in range(0, len(given), RECORD)))
    words = [str(TOP / "packaging" / "feed-log.sh"), str(journal), str(len(given) // RECORD), "sh", "-c", 'cat >> "$0"', str(messages)]
    with subprocess.Popen(words, start_new_session=True) as feeding:
        try:
            yield
        finally:
            os.killpg(feeding.pid, signal.SIGTERM)


def run_cases(gate: str) -> list[str]:
    """Runs all cases: what is wrong."""
    wrong = []
    for name, case in vars(Cases).items():
        if getattr(case, "__annotations__", None) != {"return": str}:
            continue
        with tempfile.TemporaryDirectory() as folder:
            if found := case(Cases(gate, Path(folder))):
                wrong.append(f"{case.__doc__} {found}")
    return wrong


def main() -> int:
    """Runs the takeovers, and then the cases. Status 1 where anything was lost, doubled or is not legal."""
    parser = argparse.ArgumentParser(description=__doc__)
    parser.add_argument("gate", nargs="?", default=str(GATE), help="the program")
    parser.add_argument("takeovers", nargs="?", type=int, default=6, help="how many takeovers (6)")
    parser.add_argument("--seed", type=int, default=None, help="of the random moments")
    asked = parser.parse_args()
    seed = asked.seed if asked.seed is not None else random.randrange(2**32)
    random.seed(seed)
    found = Found()
    begun = time.monotonic()
    with tempfile.TemporaryDirectory() as name:
        folder = Path(name)
        (folder / "policy.toml").write_text(ends.policy_text())
        while found.ends < asked.takeovers and not found.faults():
            run_day(asked.gate, folder, min(random.randint(1, MOST_TAKEOVERS_OF_A_DAY), asked.takeovers - found.ends), found)
    print(f"seed {seed}: {found.ends} takeovers in {found.days} days in {time.monotonic() - begun:.0f} s, {found.records} records;"
          f" the standby listened within {max(found.waits, default=0) * 1000:.0f} ms, half within"
          f" {sorted(found.waits)[len(found.waits) // 2] * 1000:.0f} ms")
    print(f"{found.told} reports, {found.lost} lost, {found.doubled} doubled, {found.illegal} illegal journals;"
          f" the model judged {found.judged} of {found.days}")
    wrong = run_cases(asked.gate)
    for line in [*found.other[:20], *wrong]:
        print(f"  {line}")
    print(f"{len(wrong)} of the other cases are wrong")
    return int(found.faults() + len(wrong) > 0)


if __name__ == "__main__":
    sys.exit(main())
