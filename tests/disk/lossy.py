#!/usr/bin/env python3
# What a server does whose disk can't write. Run as
#
#   tests/disk/lossy.py [GATE]
#
# GATE: the built program; where none is named, crates/gate/out/gate of this repository.
"""A journal that is forced to its disk stands there: on a disk whose third, fourth or tenth sync fails, so that what was written
since the sync before is lost though it can be read (made so by a preloaded library), the server ends with its reason, and nobody
was told of what is lost. The next server, on the same journal, writes the end of it once more: once it listens the disk has all
that it goes on from. So has one whose own first sync fails, at its third start.
"""

import os
import socket
import subprocess
import sys
import tempfile
from collections.abc import Iterator
from contextlib import contextmanager
from importlib.machinery import SourceFileLoader
from importlib.util import module_from_spec, spec_from_loader
from pathlib import Path
from types import ModuleType

sys.dont_write_bytecode = True
TOP = Path(__file__).resolve().parents[2]
GATE = TOP / "crates" / "gate" / "out" / "gate"
FAILING = (3, 4, 10)
ORDERS = 12
LOST = b"J: Input/output error (os error 5)\n"


def safety() -> ModuleType:
    """The functions of tests/files/safety.py: a trader and his reports."""
    loader = SourceFileLoader("safety", str(TOP / "tests" / "files" / "safety.py"))
    module = module_from_spec(spec_from_loader("safety", loader))
    sys.modules["safety"] = module
    loader.exec_module(module)
    return module


SAFETY = safety()


class Disk:
    """A folder with a journal, and what of it is on the disk."""

    def __init__(self, gate: str, folder: Path) -> None:
        self.gate, self.folder = os.path.abspath(gate), folder
        self.journal, self.kept, self.library = folder / "J", folder / "disk", folder / "lossy.so"
        source = Path(__file__).resolve().parent / "lossy.c"
        subprocess.run(["cc", "-shared", "-fPIC", "-O2", "-o", self.library, source, "-ldl"], check=True)

    @contextmanager
    def server(self, fails: int) -> Iterator[tuple[subprocess.Popen, int]]:
        """A server whose sync of this number fails."""
        port = SAFETY.free_port()
        told = {
            "LD_PRELOAD": str(self.library), "LOSSY_FILE": str(self.journal), "LOSSY_DISK": str(self.kept), "LOSSY_FAILS": str(fails)
        }
        words = [self.gate, "serve", "--port", str(port), "--connections", "1", "--journal", "J", "--journal-sync"]
        with subprocess.Popen(
            words, cwd=self.folder, env={**os.environ, **told}, stdout=subprocess.PIPE, stderr=subprocess.PIPE
        ) as server:
            try:
                yield server, port
            finally:
                server.kill()

    def has_all(self) -> bool:
        """Whether all of the journal is on the disk."""
        return self.kept.read_bytes() == self.journal.read_bytes()

    def count(self) -> int:
        """How many records the journal has."""
        checked = subprocess.run([self.gate, "check", self.journal], capture_output=True, check=True)
        return int(checked.stdout.split()[1])


def trade_on(port: int) -> int:
    """How many orders of ALICE are accepted, one behind the other, before the server ends."""
    with SAFETY.connected(port) as line:
        line.sendall(SAFETY.LOGIN)
        for number in range(ORDERS):
            try:
                line.sendall(SAFETY.order(b"A%d" % number))
                if not SAFETY.heard(line, b"SA"):
                    return number
            except (ConnectionError, socket.timeout):
                return number
    return ORDERS


def loses_nothing(disk: Disk, fails: int) -> dict[str, bool]:
    """What is so of a server whose sync of this number fails, and of those that are started behind it."""
    with disk.server(fails) as (server, port):
        server.stdout.readline()
        accepted = trade_on(port)
        ended = server.wait(SAFETY.PATIENCE_SECONDS) == 1 and server.stderr.read().endswith(LOST)
    were_lost = not disk.has_all()
    told = len(disk.kept.read_bytes()) // SAFETY.RECORD
    read = disk.count()
    with disk.server(1) as (server, _):
        again = server.wait(SAFETY.PATIENCE_SECONDS) == 1 and server.stderr.read().endswith(LOST)
    still_lost = not disk.has_all()
    with disk.server(0) as (server, port):
        listens = server.stdout.readline().startswith(b"listening")
        whole, count = disk.has_all(), disk.count()
        goes_on = SAFETY.trade(port, b"B1") and server.wait(SAFETY.PATIENCE_SECONDS) == 0
    return {
        f"sync {fails} fails: the server ends with its reason, {accepted} of {ORDERS} orders were told": ended and accepted < ORDERS,
        "and what it wrote last is lost": were_lost and accepted < told <= read + 1,
        "the next one can't force it to the disk, and does not begin": again and still_lost,
        "once one listens, all that it goes on from is on the disk": listens and whole and count == read,
        "and it goes on": goes_on and disk.has_all(),
    }


def main() -> int:
    """Runs them all. Status 1 where one is not so."""
    gate, bad = sys.argv[1] if len(sys.argv) > 1 else str(GATE), 0
    for fails in FAILING:
        with tempfile.TemporaryDirectory() as name:
            for what, is_so in loses_nothing(Disk(gate, Path(name)), fails).items():
                bad += not is_so
                print(f"{what}: {'as wanted' if is_so else 'NOT AS WANTED'}", flush=True)
    return int(bad > 0)


if __name__ == "__main__":
    sys.exit(main())
