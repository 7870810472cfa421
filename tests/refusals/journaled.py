#!/usr/bin/env python3
"""A server with a journal, to which the system refuses all memory for a while: what it does then is written, and it goes on.

ALICE enters an order, and OLGA logs in. From then on each allocation is refused, and both send more: there is no memory for it,
so that their sessions end, and they are logged out. The journal has both logouts at the latest after ten seconds, while memory is
refused still. Once there is memory again OLGA logs in anew and kills ALFA, and BOB's order is accepted; the server ends with
status 0, its journal is that of a legal day, has the granted kill, and is the audit. It wants Linux and gcc. Run as

  tests/refusals/journaled.py [GATE]

GATE: the built program; where none is named, crates/gate/out/gate of this repository.
"""

import subprocess
import sys
import tempfile
import time
from pathlib import Path

sys.dont_write_bytecode = True
TOP = Path(__file__).resolve().parents[2]
GATE = TOP / "crates" / "gate" / "out" / "gate"
sys.path[:0] = [str(TOP / "tests"), str(TOP / "examples")]

from client import kill, packet  # noqa: E402  (of examples/)
from hostile import free_port  # noqa: E402  (of tests/)
from peers import LOGIN_ACCEPTED, Peer, login, order  # noqa: E402  (of tests/)
from refusing import Shim, shim  # noqa: E402  (beside this file)

PATIENCE_SECONDS = 10.0
PAUSE_SECONDS = 0.01
RECORD, KIND_AT, VERDICT_AT = 128, 36, 95
GRANTED_KILL, GRANTED_LOGOUT = (b"K", b"G"), (b"2", b"G")
ACCEPTED = b"SA" + b"T1".ljust(14)


def kinds_in(journal: Path) -> list[tuple[bytes, bytes]]:
    """The kind and the verdict of each whole record of a journal, behind its header."""
    held = journal.read_bytes()
    records = [held[at : at + RECORD] for at in range(RECORD, len(held) - RECORD + 1, RECORD)]
    return [(record[KIND_AT : KIND_AT + 1], record[VERDICT_AT : VERDICT_AT + 1]) for record in records]


def are_kept(journal: Path, kind: tuple[bytes, bytes], count: int) -> bool:
    """Whether the journal has so many such records, once it had time."""
    end = time.monotonic() + PATIENCE_SECONDS
    while kinds_in(journal).count(kind) < count and time.monotonic() < end:
        time.sleep(PAUSE_SECONDS)
    return kinds_in(journal).count(kind) == count


def speak(port: int, user: bytes, password: bytes, more: bytes = b"") -> Peer:
    """A connection on which this user logs in and sends more."""
    peer = Peer(port)
    peer.line.sendall(login(user, password) + more)
    return peer


def is_served(peer: Peer, trades: bool) -> bool:
    """Whether a login is accepted, and of a trader his order."""
    is_on = peer.packet() == LOGIN_ACCEPTED
    return is_on and (not trades or peer.packet().startswith(ACCEPTED))


def goes_on(port: int, journal: Path, hunger: Path) -> list[str]:
    """What was not as wanted of a server to which memory is refused while the file `hunger` is there."""
    wrong = []
    alice = speak(port, b"ALICE", b"apple", order(b"T1", 1, 10_000))
    olga = speak(port, b"OLGA", b"orange")
    if not (is_served(alice, True) and is_served(olga, False)):
        wrong.append("somebody is not served at first")
    hunger.touch()
    olga.line.sendall(packet(b"U", kill("K1", "ALFA")))
    alice.line.sendall(order(b"T2", 1, 10_000))
    if not are_kept(journal, GRANTED_LOGOUT, 2):
        wrong.append("the logouts are in no journal")
    hunger.unlink()
    olga = speak(port, b"OLGA", b"orange", packet(b"U", kill("K2", "ALFA")))
    if not (is_served(olga, False) and are_kept(journal, GRANTED_KILL, 1)):
        wrong.append("the kill is in no journal")
    bob = speak(port, b"BOB", b"banana", order(b"T1", 1, 10_000))
    if not is_served(bob, True):
        wrong.append("nobody is served once there is memory again")
    return wrong


def run(refusing: Shim, gate: str, folder: Path) -> list[str]:
    """What was not as wanted."""
    port, journal, audit, stop, hunger = free_port(), *(folder / name for name in ("journal", "audit", "stop", "hunger"))
    call = [gate, "serve", "--port", str(port), "--journal", journal, "--audit", audit, "--stop-file", stop]
    with subprocess.Popen(call, stdout=subprocess.PIPE, env=refusing.told(hunger)) as server:
        server.stdout.readline()
        wrong = goes_on(port, journal, hunger)
        stop.touch()
        status = server.wait(PATIENCE_SECONDS)
    checked = subprocess.run([gate, "check", journal], capture_output=True, check=False)
    if status != 0 or checked.returncode != 0:
        wrong.append(f"the server ends with status {status}, the check of its journal with {checked.returncode}")
    if journal.read_bytes() != audit.read_bytes():
        wrong.append("the audit is another than the journal")
    return wrong


def main() -> int:
    """Serves. Answers the status: 1 where something was not as wanted."""
    gate = (sys.argv[1:] or [str(GATE)])[0]
    with shim() as refusing, tempfile.TemporaryDirectory() as folder:
        wrong = run(refusing, gate, Path(folder))
    print("a server whose memory has ended:", "; ".join(wrong) or "its journal has the kill, and it goes on")
    return 1 if wrong else 0


if __name__ == "__main__":
    sys.exit(main())
