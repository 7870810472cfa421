"""Runs a program with some of what it asks of the allocator refused."""

import os
import subprocess
import tempfile
from collections.abc import Iterator
from contextlib import contextmanager
from dataclasses import dataclass
from pathlib import Path

NOTHING = "0"
PATIENCE_SECONDS = 60


@dataclass
class Run:
    """What a run has come to."""

    status: int
    printed: bytes
    said: bytes
    allocations: int

    def is_as(self, other: "Run") -> bool:
        """Whether it printed what another did, and ended so."""
        return (self.status, self.printed) == (other.status, other.printed)

    def is_front_of(self, other: "Run") -> bool:
        """Whether it ended for want of memory, having printed a front of what another did."""
        told = self.said.lower().replace(b" ", b"")
        return self.status == 1 and other.printed.startswith(self.printed) and b"outofmemory" in told


@dataclass
class Refusals:
    """What became of a program whose allocations were refused in turn."""

    allocations: int
    same: int
    ended: int
    others: list[str]


class Shim:
    """What refuses; built from refuse.c."""

    def __init__(self, folder: str) -> None:
        self.library = str(Path(folder) / "refuse.so")
        self.count = Path(folder) / "count"
        source = Path(__file__).resolve().parent / "refuse.c"
        subprocess.run(["gcc", "-shared", "-fPIC", "-O1", "-o", self.library, source, "-ldl"], check=True)

    def run(self, words: list[str], given: bytes, refused: str = NOTHING) -> Run:
        """Runs a program with these of its allocations refused, the first being 1."""
        told = {**os.environ, "LD_PRELOAD": self.library, "REFUSE": refused, "REFUSE_COUNT": str(self.count)}
        done = subprocess.run(
            words, input=given, capture_output=True, env=told, timeout=PATIENCE_SECONDS, check=False
        )
        return Run(done.returncode, done.stdout, done.stderr, int(self.count.read_text()))

    def told(self, signal_file: Path) -> dict[str, str]:
        """The environment of a program to which all is refused while there is such a file."""
        return {**os.environ, "LD_PRELOAD": self.library, "REFUSE_WHILE": str(signal_file)}

    def run_from(self, words: list[str], given: bytes, first: int) -> Run:
        """Runs a program with each allocation refused from this one on."""
        return self.run(words, given, f"{first}-{2**62}")

    def refuse_each(self, words: list[str], given: bytes, goes_on: bool = False) -> Refusals:
        """Runs a program again and again, each time with the next of its allocations refused, or with all from it on."""
        whole = self.run(words, given)
        found = Refusals(whole.allocations, 0, 0, [])
        for call in range(1, whole.allocations + 1):
            run = self.run_from(words, given, call) if goes_on else self.run(words, given, str(call))
            if run.is_as(whole):
                found.same += 1
            elif run.is_front_of(whole):
                found.ended += 1
            else:
                found.others.append(
                    f"refused {call}: status {run.status}, {len(run.printed)} bytes of {len(whole.printed)}, "
                    f"{run.said[:200]!r}"
                )
        return found


@contextmanager
def shim() -> Iterator[Shim]:
    """A shim in a folder of its own."""
    with tempfile.TemporaryDirectory() as folder:
        yield Shim(folder)
