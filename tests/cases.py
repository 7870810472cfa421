#!/usr/bin/env python3
"""The cases of tests/cases: connections, scripts, policy files and audits, each with an answer worked out by hand or by a
model. Each runs on the built program, which is given its input whole, and then a byte at a time.

A case is a line `== TITLE`, which says what it shows, and parts up to the next case. A part is a line `-- KIND` and the lines
behind it; the last one, `-- answer`, is what comes of those before it:

- `-- policy`, first: a policy file, under which the case runs; `-- policy-in-hex`: its bytes in hex; `-- sample`: the sample
  policy's file, with the text behind `old:` replaced by the one behind `new:`. It answers what `gate policy` tells, and a line
  for each rule, as `gate migrate` prints it; the stocks of a list are those of `gate state` before the first record. A case
  without such a part runs under the sample policy.
- `-- migrate`, alone: a policy file, which `gate migrate` prints.
- `-- script`: lines for `gate script`; `-- script-in-hex`: their bytes in hex. It answers what is printed, and how that ends.
  A further script goes on with the day: it is run behind the lines before it that were no bad ones.
- `-- again`: a script, of which the verdicts of its records are told.
- `-- pipe`: the bytes of a connection, in hex, for `gate pipe`. It answers the verdicts of the records, the bytes that it was
  sent, in hex, and how that ends.
- `-- pipe-lengths`: so too with the first 0 bytes, the first one, until all of them: the answer to all, and then how many
  bytes of that answer each run was sent, its verdicts and how it ended. Runs in a row that end alike are told once.
- `-- pipe-in-turn`, `-- script-in-turn`: the packets of a connection, in hex, or lines. Whoever sends them waits for the whole
  answer to each before the next. It answers how that ends.
- `-- audit`, `-- audit-3`: the audit of the last script in version 2 or 3, in hex, a line for the header and one a record.
- `-- check`, `-- check-2`, `-- check-3`: what `gate check` tells of that audit in this version, once for each line: `byte AT
  HEX` sets a byte, `without COUNT` leaves the last ones out, `under SESSION` has it checked under the sample policy of this
  session, anything else leaves it as it is. One of version 1 is made of that of version 2: it has no header and another mark.
  The day of a header of version 3 is set to 27 November 2026, five hours behind UTC.
- `-- show`, `-- show-2`, also with `account NAME` or `user NAME` behind it: what `gate show` tells of it.

Behind the parts stands who is logged in and which accounts are killed, as `gate state` tells of the audit.

Cases that want more than the program shows have parts that run in `gate_cases`: tests/cases_inside.py says which. So does a
connection behind a script, at one gate. Run as

  tests/cases.py [GATE CASES]

GATE and CASES: the built programs; where none are named, crates/gate/out/gate and crates/gate_cases/out/gate_cases of this
repository.
"""

import json
import os
import re
import select
import socket
import subprocess
import sys
import tempfile
import threading
import tomllib
from collections.abc import Callable, Iterator, Sequence
from concurrent.futures import ThreadPoolExecutor
from dataclasses import dataclass
from pathlib import Path
from struct import Struct

sys.dont_write_bytecode = True

from cases_inside import Inside, Trial, told_of_trials, trial  # noqa: E402  (beside this file)

TOP = Path(__file__).resolve().parents[1]
CASES = TOP / "tests" / "cases"
SAMPLE = (TOP / "examples" / "policies" / "sample.toml").read_text()
PATIENCE_SECONDS = 60
RECORD_SIZE = 128
# The date, the sign and the minutes of a header of version 3, and what they are set to.
DAY_FIELDS = slice(55, 62)
DAY = Struct(">IcH").pack(20_784, b"-", 300)
# A record's verdict: its letter, a rule, an order, a maker, shares and a price.
VERDICT = Struct(">95xc8sQQII")
# The parts whose input the built program reads.
READ = {"script", "script-in-hex", "again", "pipe", "pipe-lengths", "pipe-in-turn", "script-in-turn"}


@dataclass(frozen=True)
class Programs:
    """The built programs."""

    gate: str
    cases: str


@dataclass(frozen=True)
class Part:
    """A part of a case: its kind, the words behind it, and its lines."""

    kind: str
    words: str
    text: str

    def content(self) -> bytes:
        """The bytes that its lines are, or stand for in hex."""
        is_hex = self.kind.startswith("pipe") or self.kind.endswith("-in-hex")
        return bytes.fromhex(self.text) if is_hex else self.text.encode()


@dataclass(frozen=True)
class Case:
    """A case: its title, its parts, and what is to come of them."""

    title: str
    parts: list[Part]
    wanted: str

    def is_read(self) -> bool:
        """Whether the built program reads an input in it, which may come in pieces."""
        return any(part.kind in READ for part in self.parts)


@dataclass(frozen=True)
class Run:
    """What a run of the program has come to."""

    status: int
    printed: bytes
    said: str

    def end(self, name: str) -> str:
        """How it ended, a line that begins with this name."""
        words = self.said.removeprefix("gate: ").splitlines() if self.status else ["done"]
        return f"{name}: {'; '.join(words)}\n"


def read_part(text: str) -> Part:
    """The part of these lines."""
    head, _, lines = text.partition("\n")
    kind, _, words = head.partition(" ")
    return Part(kind, words, lines)


def read_cases(text: str) -> Iterator[Case]:
    """The cases of a file."""
    for case in text.removeprefix("== ").removesuffix("\n").split("\n== "):
        title, *parts = case.split("\n-- ")
        *given, answer = [read_part(part) for part in parts]
        yield Case(title, given, answer.text)


def feed(ours: socket.socket, given: bytes) -> None:
    """Sends each byte as a packet, of which a read takes one, as long as the program reads."""
    with ours:
        try:
            for place in range(len(given)):
                ours.send(given[place:place + 1])
        except OSError:
            return


def verdicts(audit: bytes) -> list[str]:
    """The verdict of each record of an audit of version 2 or 3, a line each."""
    return [verdict(number, audit[place:place + RECORD_SIZE])
            for number, place in enumerate(range(RECORD_SIZE, len(audit), RECORD_SIZE), 1)]


def verdict(number: int, record: bytes) -> str:
    """The verdict of a record."""
    letter, rule, order, maker, shares, price = VERDICT.unpack_from(record)
    words = {
        b"G": "granted",
        b"D": f"denied {rule.decode().rstrip()}",
        b"F": f"filled {order} {maker} {shares} {price}",
        b"R": f"rested {order}",
        b"E": f"expired {order}",
    }
    return f"{number} {words[letter]}\n"


def rule_line(rule: dict, stands: dict) -> str:
    """A rule of a policy file, of which this stands at the day's begin: its name, its kind, the stocks that it lists, its
    settings, and the accounts that it is for."""
    stocks = [stock["stock"] for stock in stands.get("stocks", []) if stock["listed"]]
    settings = [str(rule[key]) for key in ("limit", "window", "span", "count") if key in rule]
    words = [rule["kind"], *stocks, *settings]
    words += ["for", *rule["accounts"]] if "accounts" in rule else []
    return f"{rule['name']}: {' '.join(words)}\n"


def hex_line(content: bytes) -> str:
    """Bytes in hex, on a line of their own where there are any."""
    return content.hex() + "\n" if content else ""


def first_packet(rest: bytes) -> bytes:
    """The first packet of these bytes."""
    return rest[:int.from_bytes(rest[:2]) + 2]


def first_line(rest: bytes) -> bytes:
    """The first line of these bytes."""
    return rest[:rest.find(b"\n") + 1] or rest


def fronts(given: bytes, first: Callable[[bytes], bytes]) -> Iterator[bytes]:
    """The first packet or line of an input, the first two, until all of them."""
    place = 0
    while place < len(given):
        place += len(first(given[place:]))
        yield given[:place]


def changed(audit: bytes, line: str) -> bytes:
    """An audit as a line changes it."""
    match line.split():
        case ["byte", place, digits]:
            return audit[:int(place)] + bytes.fromhex(digits) + audit[int(place) + 1:]
        case ["without", count]:
            return audit[:-int(count)]
    return audit


class Bench:
    """Where a case is run: the program, a folder of its own files, and the day so far."""

    def __init__(self, programs: Programs, folder: str, in_pieces: bool) -> None:
        self.gate = programs.gate
        self.inside = Inside(programs.cases, self.shown_of, self.checked)
        self.folder = Path(folder)
        self.in_pieces = in_pieces
        self.policy: list[str] = []
        self.audit = b""
        # The lines of the day's scripts but for bad ones, and what they print.
        self.lines = b""
        self.printed = b""

    def answer(self, case: Case) -> str:
        """What comes of a case. Where a connection stands behind a script, they run on one gate inside."""
        parts, told = case.parts, ""
        if [part.kind for part in parts[:2]] == ["script", "pipe"]:
            told, self.audit = self.inside.at_one_gate([f"{part.kind}\n{part.text}" for part in parts[:2]])
            parts = parts[2:]
        return told + "".join([self.do(part) for part in parts]) + (self.standing() if self.audit else "")

    def do(self, part: Part) -> str:
        """What comes of a part."""
        kind, _, number = part.kind.partition("-")
        match kind:
            case "policy":
                return self.under(part.content())
            case "sample":
                old, _, new = part.text.removeprefix("old:").partition("\nnew:")
                return self.under(SAMPLE.replace(old.strip(), new.strip(), 1).encode())
            case "migrate":
                run = self.run(["migrate", self.file("policy", part.content())])
                return run.printed.decode() + run.said.removeprefix("gate: ")
            case "script" | "pipe" if number == "in-turn":
                return self.in_turn(kind, part.content())
            case "script":
                return self.script(part.content())
            case "again":
                before = len(verdicts(self.audit))
                self.script(part.content())
                return "".join(verdicts(self.audit)[before:])
            case "pipe" if number == "lengths":
                return self.lengths(part.content())
            case "pipe" if not number:
                return "".join(self.pipe(part.content()))
            case "audit":
                return self.in_hex(number)
            case "check":
                return "".join(self.check(number, line) for line in part.text.splitlines())
            case "show":
                return self.show(number, part.words)
        return self.inside.answer(part.kind, part.words, part.text)

    def file(self, name: str, content: bytes) -> str:
        """A file that has these bytes."""
        path = self.folder / name
        path.write_bytes(content)
        return str(path)

    def run(self, words: list[str], given: bytes = b"") -> Run:
        """Runs the program on an input."""
        if not self.in_pieces or not given:
            done = subprocess.run([self.gate, *words], input=given, capture_output=True, timeout=PATIENCE_SECONDS)
            return Run(done.returncode, done.stdout, done.stderr.decode())
        ours, theirs = socket.socketpair(socket.AF_UNIX, socket.SOCK_SEQPACKET)
        with theirs:
            program = subprocess.Popen([self.gate, *words], stdin=theirs, stdout=subprocess.PIPE, stderr=subprocess.PIPE)
        threading.Thread(target=feed, args=(ours, given)).start()
        printed, said = program.communicate(timeout=PATIENCE_SECONDS)
        return Run(program.returncode, printed, said.decode())

    def run_audited(self, command: str, given: bytes, version: str = "2") -> Run:
        """Runs the program on an input, and keeps its audit."""
        path = self.folder / "audit"
        run = self.run([command, *self.policy, "--audit", str(path), "--audit-version", version], given)
        self.audit = path.read_bytes()
        return run

    def under(self, policy: bytes) -> str:
        """Tells what a policy file holds, and has the rest of the case run under it."""
        path = self.file("policy", policy)
        run = self.run(["policy", path])
        if run.status:
            return run.said.removeprefix("gate: ")
        self.policy = ["--policy", path]
        file = tomllib.loads(self.run(["migrate", path]).printed.decode())
        self.run_audited("script", b"")
        return run.printed.decode() + "".join(map(rule_line, file.get("rule", []), self.state()["rules"]))

    def script(self, given: bytes) -> str:
        """Runs a script behind those before it."""
        run = self.run_audited("script", self.lines + given)
        before = self.lines.count(b"\n")
        if not run.printed.startswith(self.printed):
            return "the day so far is another\n"
        printed = run.printed[len(self.printed):].decode()
        end = re.sub(r"(?<=^script: line )\d+", lambda number: str(int(number[0]) - before), run.end("script"))
        bad = re.match(r"script: line (\d+)", end)
        lines = given.splitlines(keepends=True)[:int(bad[1]) - 1 if bad else None]
        self.lines += b"".join(lines).rstrip(b"\n") + b"\n" if lines else b""
        self.printed = run.printed
        return printed + ("" if printed.endswith("\n") or not printed else "\n") + end

    def pipe(self, given: bytes) -> tuple[str, str, str]:
        """Runs a connection: its verdicts, the bytes that it was sent, in hex, and how it ended."""
        run = self.run_audited("pipe", given)
        return "".join(verdicts(self.audit)), hex_line(run.printed), run.end("pipe")

    def lengths(self, given: bytes) -> str:
        """Runs each front of a connection."""
        _, whole, _ = self.pipe(given)
        trials = [self.front(given, length, whole.strip()) for length in range(len(given) + 1)]
        self.audit = b""
        return whole + told_of_trials("lengths", iter(trials))

    def front(self, given: bytes, length: int, whole: str) -> Trial:
        """Runs a front of a connection, of whose bytes this is the whole answer in hex."""
        told, sent, end = self.pipe(given[:length])
        return trial(length, sent.strip(), told + end, whole)

    def in_turn(self, command: str, given: bytes) -> str:
        """Runs an input whose peer waits for each answer."""
        if command == "script":
            given += b"\n"
        turns = list(fronts(given, first_packet if command == "pipe" else first_line))
        answers = [self.run([command, *self.policy], turn).printed for turn in turns]
        program = subprocess.Popen(
            [self.gate, command, *self.policy], stdin=subprocess.PIPE, stdout=subprocess.PIPE, stderr=subprocess.PIPE
        )
        sent, heard = 0, b""
        for turn, answer in zip(turns, answers, strict=True):
            program.stdin.write(turn[sent:])
            program.stdin.flush()
            sent = len(turn)
            while len(heard) < len(answer):
                ready, _, _ = select.select([program.stdout], [], [], PATIENCE_SECONDS)
                more = os.read(program.stdout.fileno(), len(answer) - len(heard)) if ready else b""
                if not more:
                    program.kill()
                    break
                heard += more
        _, said = program.communicate(timeout=PATIENCE_SECONDS)
        run = Run(program.returncode, heard, said.decode())
        return run.end(command).rstrip("\n") + f"; {len(turns)} turns\n"

    def in_version(self, number: str) -> bytes:
        """The audit of the day in a version, 1 where none is named."""
        if number == "3":
            self.run_audited("script", self.lines, "3")
            audit = bytearray(self.audit)
            audit[DAY_FIELDS] = DAY
            return bytes(audit)
        if number == "2":
            return self.audit
        records = bytearray(self.audit[RECORD_SIZE:])
        for place in range(0, len(records), RECORD_SIZE):
            records[place:place + 4] = b"GXA1"
        return bytes(records)

    def in_hex(self, number: str) -> str:
        """The audit in hex, a line for the header and one a record."""
        audit = self.in_version(number or "2")
        lines = [hex_line(audit[place:place + RECORD_SIZE]) for place in range(0, len(audit), RECORD_SIZE)]
        return "".join(lines) + ("" if number else "audit: done\n")

    def check(self, number: str, line: str) -> str:
        """What is told of the audit as a line changes it."""
        audit, policy = self.in_version(number), self.policy
        kind, _, session = line.partition(" ")
        if kind == "under":
            policy = ["--policy", self.file("other", SAMPLE.replace("GATE01", session, 1).encode())]
        run = self.run(["check", *policy, self.file("checked", changed(audit, line))])
        more = [line for line in run.said.splitlines(keepends=True) if line.startswith(("field:", "record:"))]
        return run.printed.decode() + "".join(more)

    def show(self, number: str, words: str) -> str:
        """The records of the audit as a person reads them, all or those of an account or a user."""
        kind, _, name = words.partition(" ")
        asked = [f"--{kind}", name] if kind else []
        return self.shown_of(self.in_version(number), asked)

    def shown_of(self, audit: bytes, asked: Sequence[str] = ()) -> str:
        """What `gate show` tells of an audit."""
        run = self.run(["show", *self.policy, *asked, self.file("shown", audit)])
        return "no such name\n" if run.status == 2 else run.printed.decode() + run.end("audit")

    def checked(self, audit: bytes) -> str:
        """What `gate check` tells of an audit."""
        return self.run(["check", *self.policy, self.file("checked", audit)]).printed.decode()

    def state(self) -> dict:
        """What stands behind the audit's last record."""
        return json.loads(self.run(["state", "--json", *self.policy, self.file("standing", self.audit)]).printed)

    def standing(self) -> str:
        """Who is logged in, and which accounts are killed."""
        day = self.state()
        on = [f"on: {user['user']} {user['line']}\n" for user in day["users"] if user["line"] is not None]
        return "".join(on + [f"killed: {account['account']}\n" for account in day["accounts"] if account["killed"]])


def is_right(programs: Programs, case: Case, in_pieces: bool) -> bool:
    """Whether what comes of a case is what is wanted; what is otherwise is told."""
    with tempfile.TemporaryDirectory() as folder:
        found = Bench(programs, folder, in_pieces).answer(case)
    if found.removesuffix("\n") == case.wanted:
        return True
    how = "byte by byte" if in_pieces else "whole"
    print(f"NO  {case.title} ({how}): it is\n{found}and not\n{case.wanted}", flush=True)
    return False


def main() -> int:
    """Runs all cases. Answers the status: 1 where something else came of one than is wanted."""
    named = sys.argv[1:] or [TOP / "crates" / name / "out" / name for name in ("gate", "gate_cases")]
    programs = Programs(*(str(Path(name).resolve()) for name in named))
    are_all_right = True
    for file in sorted(CASES.glob("*.txt")):
        cases = list(read_cases(file.read_text()))
        with ThreadPoolExecutor(os.cpu_count()) as threads:
            runs = [(case, in_pieces) for case in cases for in_pieces in ((False, True) if case.is_read() else (False,))]
            right = list(threads.map(lambda run: is_right(programs, *run), runs))
        print(f"{file.name}: {len(cases)} cases, {sum(right)} of {len(runs)} runs are right", flush=True)
        are_all_right = are_all_right and all(right)
    return 0 if are_all_right else 1


if __name__ == "__main__":
    sys.exit(main())
