#!/usr/bin/env python3
"""When `gate script`, `gate pipe` and `gate show` write what they have to say.

Somebody who sends one line, or one packet, and waits is answered before he sends the next, also where a heartbeat stands
behind a packet, and where a piece ends in the middle of a line or of a packet. What was said before a bad line, before a
password that is wrong and before the end of the input is written. Where nobody reads what is written any more, the status
is 1 and standard error says why. Many lines that come at once are answered by few writes (shown where `strace` is there).
Run as

  tests/answers.py [GATE]

GATE: the built program; where none is named, crates/gate/out/gate of this repository.
"""

import os
import select
import shutil
import subprocess
import sys
import tempfile
from collections.abc import Callable
from pathlib import Path

TOP = Path(__file__).resolve().parents[1]
GATE = TOP / "crates" / "gate" / "out" / "gate"
PATIENCE_SECONDS = 10
LOGIN = b"\x00\x2fL" + b"ALICE apple     " + b" " * 10 + b"%20d" % 1
WRONG_LOGIN = LOGIN.replace(b"apple", b"pears")
LOGIN_ACCEPTED = b"\x00\x1fA" + b" " * 4 + b"GATE01" + b" " * 19 + b"1"
LOGIN_REJECTED = b"\x00\x02JA"
HEARTBEAT = b"\x00\x01R"
LOGOUT = b"\x00\x01O"
# So many bytes has the packet that tells of an accepted order.
ACCEPTED_SIZE = 69
MANY_LINES = 2_000
# A piece of 4,096 bytes has some fifty lines: each is answered by one write, and its last one that is whole.
MOST_WRITES = 100


def order(token: bytes) -> bytes:
    """An Enter Order packet: a buy of one share at a cent."""
    message = b"O" + token.ljust(14) + b"B" + (1).to_bytes(4, "big") + b"TEST".ljust(8) + (100).to_bytes(4, "big")
    message += (99_999).to_bytes(4, "big") + b"    " + b"YAN" + bytes(4) + b"NN"
    return (len(message) + 1).to_bytes(2, "big") + b"U" + message


class Run:
    """The program, to which somebody speaks who waits for its answers."""

    def __init__(self, words: list[str]) -> None:
        self.program = subprocess.Popen(words, stdin=subprocess.PIPE, stdout=subprocess.PIPE, stderr=subprocess.PIPE)

    def ask(self, given: bytes, size: int) -> bytes:
        """So many bytes of what is answered to this; fewer, where they do not come in time."""
        self.program.stdin.write(given)
        self.program.stdin.flush()
        answer = b""
        while len(answer) < size:
            ready, _, _ = select.select([self.program.stdout], [], [], PATIENCE_SECONDS)
            more = os.read(self.program.stdout.fileno(), size - len(answer)) if ready else b""
            if not more:
                return answer
            answer += more
        return answer

    def end(self) -> tuple[bytes, bytes, int]:
        """What is written once no more comes, on both streams, and the status."""
        said, told = self.program.communicate(timeout=PATIENCE_SECONDS)
        return said, told, self.program.returncode


def lines_are_answered(gate: str) -> bool:
    """Whether each line of a script is answered before the next is sent."""
    run = Run([gate, "script"])
    turns = [
        (b"1 ALICE login apple 1\n", b"1 granted\n"),
        (b"# nothing\n2 ALICE enter A1 B 1 TEST 100 99999\n3 ALICE ent", b"2 granted\n"),
        (b"er A2 B 1 TEST 100 99999\n", b"3 granted\n"),
        (b"4 settle\n", b"4 rested 2\n5 rested 3\nidle\n"),
    ]
    answers = [run.ask(given, len(wanted)) for given, wanted in turns]
    return answers == [wanted for _, wanted in turns] and run.end() == (b"", b"", 0)


def packets_are_answered(gate: str) -> bool:
    """Whether each packet is answered before the next is sent."""
    run = Run([gate, "pipe"])
    accepted = [
        run.ask(LOGIN, len(LOGIN_ACCEPTED)) == LOGIN_ACCEPTED,
        len(run.ask(order(b"A1"), ACCEPTED_SIZE)) == ACCEPTED_SIZE,
        len(run.ask(order(b"A2") + HEARTBEAT, ACCEPTED_SIZE)) == ACCEPTED_SIZE,
        len(run.ask(HEARTBEAT + order(b"A3") + order(b"A4")[:20], ACCEPTED_SIZE)) == ACCEPTED_SIZE,
        len(run.ask(order(b"A4")[20:], ACCEPTED_SIZE)) == ACCEPTED_SIZE,
    ]
    return all(accepted) and run.end() == (b"", b"", 0)


def all_is_said_before_a_bad_line(gate: str) -> bool:
    """Whether what stands before a bad line is written, though it came in one piece with it."""
    script = b"1 ALICE login apple 1\n2 ALICE enter A1 B 1 TEST 100 99999\nnonsense\n"
    run = subprocess.run([gate, "script"], input=script, capture_output=True, timeout=PATIENCE_SECONDS)
    return (run.stdout, run.returncode) == (b"1 granted\n2 granted\n", 4) and b"line 3: bad step" in run.stderr


def all_is_said_before_the_end(gate: str) -> bool:
    """Whether all is written that was answered before a logout, and to a wrong password, that came in one piece with the rest."""
    ends = [(LOGIN + order(b"A1") + LOGOUT, len(LOGIN_ACCEPTED) + ACCEPTED_SIZE), (WRONG_LOGIN, len(LOGIN_REJECTED))]
    runs = [subprocess.run([gate, "pipe"], input=given, capture_output=True, timeout=PATIENCE_SECONDS) for given, _ in ends]
    return all(len(run.stdout) == size and run.returncode == 0 for run, (_, size) in zip(runs, ends, strict=True))


def nobody_reads(words: list[str], given: bytes) -> bool:
    """Whether the program ends with status 1, and says why, where nobody reads what it writes."""
    reads, writes = os.pipe()
    os.close(reads)
    with os.fdopen(writes, "wb") as closed:
        run = subprocess.run(words, input=given, stdout=closed, stderr=subprocess.PIPE, timeout=PATIENCE_SECONDS)
    return run.returncode == 1 and b"write failed" in run.stderr


def fails_are_told(gate: str) -> bool:
    """Whether a writer that fails is told of, at the next piece, at the end of the input, and by `gate show`."""
    line = b"1 ALICE login apple 1\n"
    with tempfile.TemporaryDirectory() as folder:
        audit = str(Path(folder) / "audit")
        subprocess.run([gate, "script", "--audit", audit], input=line, capture_output=True, check=True)
        return (
            nobody_reads([gate, "script"], line)
            and nobody_reads([gate, "script"], line * MANY_LINES)
            and nobody_reads([gate, "pipe"], LOGIN + order(b"A1") + LOGOUT)
            and nobody_reads([gate, "show", audit], b"")
        )


def many_are_answered_at_once(gate: str) -> bool:
    """Whether many lines at once are answered by few writes."""
    if shutil.which("strace") is None:
        print("no strace here: how often is written was not looked at")
        return True
    script = b"1 ALICE login apple 1\n" * MANY_LINES
    with tempfile.TemporaryDirectory() as folder:
        log = Path(folder) / "calls"
        words = ["strace", "-f", "-e", "trace=write,writev", "-o", str(log), gate, "script"]
        run = subprocess.run(words, input=script, capture_output=True, timeout=PATIENCE_SECONDS)
        writes = sum("write" in line for line in log.read_text().splitlines())
    return run.stdout.count(b"\n") == MANY_LINES and writes <= MOST_WRITES


LOOKS: dict[str, Callable[[str], bool]] = {
    "lines are answered one by one": lines_are_answered,
    "packets are answered one by one": packets_are_answered,
    "all is said before a bad line": all_is_said_before_a_bad_line,
    "all is said before the end": all_is_said_before_the_end,
    "a writer that fails is told of": fails_are_told,
    "many lines are answered at once": many_are_answered_at_once,
}


def main() -> int:
    gate = str(Path(sys.argv[1] if len(sys.argv) > 1 else GATE).resolve())
    seen = {name: look(gate) for name, look in LOOKS.items()}
    for name, is_so in seen.items():
        print(f"{'yes' if is_so else 'NO '} {name}")
    return 0 if all(seen.values()) else 1


if __name__ == "__main__":
    sys.exit(main())
