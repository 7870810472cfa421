#!/usr/bin/env python3
# Feeds `GATE pipe` one packet a byte at a time: of 65,537 bytes, and of half that size. The next byte is written once the
# one before it was read. Prints the processor time of the program for each, and their ratio, which is near 2 where a
# packet costs in proportion to its length.
#
#   bench/drip.py [GATE]
#
# GATE: the built program; where none is named, crates/gate/out/gate of this repository.
import array
import fcntl
import os
import resource
import subprocess
import sys
import termios
from pathlib import Path

GATE = Path(__file__).resolve().parents[1] / "crates" / "gate" / "out" / "gate"


def left(pipe):
    """How many bytes of the pipe were not read."""
    count = array.array("i", [0])
    fcntl.ioctl(pipe, termios.FIONREAD, count)
    return count[0]


def spent():
    """The processor time of the programs that have ended, in microseconds."""
    used = resource.getrusage(resource.RUSAGE_CHILDREN)
    return round(1_000_000 * (used.ru_utime + used.ru_stime))


def feed(gate, length):
    """The processor time of a run that is fed a packet of so many bytes."""
    before = spent()
    reader, writer = os.pipe()
    program = subprocess.Popen([gate, "pipe"], stdin=reader, stdout=subprocess.DEVNULL)
    os.close(reader)
    packet = (length - 2).to_bytes(2, "big") + b"U" + (length - 3) * b"x"
    for byte in packet:
        os.write(writer, bytes([byte]))
        while left(writer) > 0:
            pass
    os.close(writer)
    if program.wait() != 0:
        sys.exit(f"{gate} ended with status {program.returncode}")
    return spent() - before


def main():
    gate = sys.argv[1] if len(sys.argv) > 1 else str(GATE)
    times = {length: feed(gate, length) for length in (65_537, 32_769)}
    for length, taken in times.items():
        print(f"{length} bytes: {taken} microseconds")
    longest, half = times.values()
    print(f"ratio {longest / half:.2f}")


main()
