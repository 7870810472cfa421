#!/usr/bin/env python3
# What a server does whose journal is forced to a slow disk. Run as
#
#   tests/disk/slow.py [GATE]                half a minute, and 20 ends
#   tests/disk/slow.py GATE --ends 300       with 300
#
# GATE: the built program; where none is named, crates/gate/out/gate of this repository.
"""A forced write is shared: on a disk that takes 5, 50 or 500 milliseconds a sync (made so by a preloaded library) 60 traders, or
8, are answered after two syncs, an officer's kill after three at most, and one trader alone after one. Beside each run a thread
that only sleeps says how far the machine itself is late, and things may take so much longer. Then a server on such a disk is
killed (SIGKILL) over and over, and nothing that it told is lost.
"""

import argparse
import os
import subprocess
import sys
import tempfile
import threading
import time
from collections.abc import Iterator
from contextlib import contextmanager
from dataclasses import dataclass
from importlib.machinery import SourceFileLoader
from importlib.util import module_from_spec, spec_from_loader
from pathlib import Path
from types import ModuleType

sys.dont_write_bytecode = True
TOP = Path(__file__).resolve().parents[2]
GATE = TOP / "crates" / "gate" / "out" / "gate"
# a sync's milliseconds, how many traders there are, and for how many seconds
RUNS = ((5, 1, 3.0), (5, 60, 3.0), (50, 1, 3.0), (50, 60, 4.0), (500, 8, 4.0))
PAUSE_SECONDS = 0.002


def under_load() -> ModuleType:
    """The functions of bench/under-load.py: servers, traders and an officer."""
    loader = SourceFileLoader("under_load", str(TOP / "bench" / "under-load.py"))
    module = module_from_spec(spec_from_loader("under_load", loader))
    sys.modules["under_load"] = module
    loader.exec_module(module)
    return module


LOAD = under_load()


@dataclass
class Disk:
    """A slow disk: the library that makes it so, and where its syncs are counted."""

    library: Path
    count: Path

    @classmethod
    def built(cls, folder: Path) -> "Disk":
        """The library, built in this folder."""
        disk = cls(folder / "slow.so", folder / "syncs")
        source = Path(__file__).resolve().parent / "slow.c"
        subprocess.run(["cc", "-shared", "-fPIC", "-O2", "-o", disk.library, source], check=True)
        return disk

    def settings(self, millis: int) -> dict[str, str]:
        """The environment of a program whose syncs take so many milliseconds."""
        told = {"LD_PRELOAD": str(self.library), "SLOW_SYNC_MICROS": str(millis * 1000), "SLOW_SYNC_COUNT": str(self.count)}
        return {**os.environ, **told}

    def syncs(self) -> int:
        """How many there were."""
        return int.from_bytes(self.count.read_bytes(), "little")


@contextmanager
def idle() -> Iterator[list[float]]:
    """A thread that only sleeps: by how many milliseconds each of its sleeps was too long."""
    late: list[float] = []
    over = threading.Event()

    def sleep_on() -> None:
        while not over.is_set():
            begun = time.monotonic()
            time.sleep(PAUSE_SECONDS)
            late.append((time.monotonic() - begun - PAUSE_SECONDS) * 1000)

    sleeper = threading.Thread(target=sleep_on)
    sleeper.start()
    try:
        yield late
    finally:
        over.set()
        sleeper.join()


def measure(gate: str, load: str, disk: Disk, millis: int, traders: int, seconds: float, judge: "LOAD.Judge") -> None:
    """Traders with one order in flight each, and an officer, on a disk that takes so long."""
    with tempfile.TemporaryDirectory() as name:
        folder = Path(name)
        words = ("--journal", str(folder / "journal"), "--journal-sync", "--connections-at-once", "100")
        with LOAD.server(gate, folder, *words, environment=disk.settings(millis)) as (port, _), idle() as late:
            before = disk.syncs()
            run = LOAD.Run(load, port, traders, 1, seconds, "rest")
            kills = LOAD.time_commands(port, run.over, 0.05) if traders > 1 else []
            orders, _, _, p50, _, _ = run.figures()
            syncs = disk.syncs() - before
    latest = max(late)
    share = orders / max(syncs, 1)
    print(f"{traders} traders, {millis} ms a sync: {orders:.0f} orders, {share:.2f} a sync; a sleep was {latest:.2f} ms late", flush=True)
    if traders == 1:
        judge.say("  an order of one alone, p50", p50 / 1000, 1.2 * millis + 3 + latest, "ms")
        return
    judge.say("  an order's answer, p50", p50 / 1000, 2.2 * millis + 10 + latest, "ms")
    judge.say("  a kill's answer, the longest", max(kills), 3.2 * millis + 20 + latest, "ms")


def end_at_random(gate: str, disk: Disk, ends: int) -> int:
    """Ends of a server on a disk that takes 5 milliseconds: the status of the script that looks for what was lost."""
    words = [sys.executable, TOP / "tests" / "end-at-random.py", gate, str(ends), "--sync"]
    return subprocess.run(words, env=disk.settings(5), check=False).returncode


def main() -> int:
    """Measures all runs, and ends servers. Status 1 where something takes too long, or was lost."""
    parser = argparse.ArgumentParser(description=__doc__)
    parser.add_argument("gate", nargs="?", default=str(GATE), help="the program")
    parser.add_argument("--ends", type=int, default=20, help="how many servers are killed (20)")
    parser.add_argument("--slack", type=float, default=1, help="how many times as long things may take (1)")
    asked = parser.parse_args()
    judge = LOAD.Judge(asked.slack)
    with tempfile.TemporaryDirectory() as name:
        disk = Disk.built(Path(name))
        load = LOAD.built(Path(name))
        for millis, traders, seconds in RUNS:
            measure(asked.gate, load, disk, millis, traders, seconds, judge)
        lost = end_at_random(asked.gate, disk, asked.ends)
    return int(judge.bad > 0 or lost != 0)


if __name__ == "__main__":
    sys.exit(main())
