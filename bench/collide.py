#!/usr/bin/env python3
"""Shows that a trader can't make steps dear by the tokens that he chooses: times `GATE pipe` on 100,000 orders, or on
as many as it is told, under usual tokens and under tokens that were chosen to have one hash, and prints the processor
time of each, the best of three runs. The status is 1 where chosen ones take more than 1.5 times as long as usual ones.

    bench/collide.py [GATE [ORDERS]]

GATE: the built program; where none is named, crates/gate/out/gate of this repository.

A hash is made of two factors, so tokens for which one of them is 0 have one hash. They are chosen by the kit's hasher,
which has no seed, and by the gate's, as it would be if another user's password were not what it is. Last come a few
that are chosen with all passwords in hand, which nobody has who is to be kept from it: that these are dear shows that
the gate's hasher is the one that is known here, and the status is 1 where they are not.
"""

import resource
import subprocess
import sys
import tempfile
from collections.abc import Callable, Iterator
from pathlib import Path

GATE = Path(__file__).resolve().parents[1] / "crates" / "gate" / "out" / "gate"
MOST = 1.5
LEAST_KNOWN = 3.0
KNOWN_ORDERS = 5_000
RUNS = 3
WORD = 2**64 - 1
NAME = b"ALICE "
POLICY = """version = 1
session = "GATE01"

[[account]]
name = "ALFA"
firm = "ALF"

[[stock]]
name = "TEST"
reference = 100000

[[user]]
name = "ALICE"
password = "apple"
role = "trader"
account = "ALFA"

[[user]]
name = "BOB"
password = "banana"
role = "trader"
account = "ALFA"

[[rule]]
name = "SIZE"
kind = "order_shares"
limit = 100
"""

Token = Callable[[int], bytes]


def folded(one: int, other: int) -> int:
    """The two halves of the product, joined."""
    product = one * other
    return product & WORD ^ product >> 64


def turned(value: int, by: int) -> int:
    """The word with its bits turned round to the left."""
    return (value << by | value >> 64 - by) & WORD


def sip_round(v: list[int]) -> list[int]:
    """A round of SipHash."""
    a, b, c, d = v[0] + v[1] & WORD, v[1], v[2] + v[3] & WORD, v[3]
    b, d = turned(b, 13) ^ a, turned(d, 16) ^ c
    a = turned(a, 32)
    c, a = c + b & WORD, a + d & WORD
    b, d = turned(b, 17) ^ c, turned(d, 21) ^ a
    return [a, b, turned(c, 32), d]


def sip(data: bytes) -> int:
    """What SipHash-1-3 makes of the bytes, under the key 0."""
    v = [0x736F6D6570736575, 0x646F72616E646F6D, 0x6C7967656E657261, 0x7465646279746573]
    whole = data + bytes(7 - len(data) % 8) + bytes([len(data) & 255])
    for at in range(0, len(whole), 8):
        word = int.from_bytes(whole[at : at + 8], "little")
        v = sip_round([v[0], v[1], v[2], v[3] ^ word])
        v[0] ^= word
    v[2] ^= 255
    for _ in range(3):
        v = sip_round(v)
    return v[0] ^ v[1] ^ v[2] ^ v[3]


def kit() -> tuple[int, int]:
    """What the kit's hasher joins to the first and to the last eight bytes of ALICE's tokens."""
    multiplier = 0x9E3779B97F4A7C15
    name = int.from_bytes(NAME[:4], "little") | int.from_bytes(NAME[2:], "little") << 32
    return folded(0x243F6A8885A308D3 ^ name, multiplier ^ 12) + 14 & WORD, multiplier


def seeded(*passwords: bytes) -> tuple[int, int]:
    """What the gate's hasher joins to them, if these are the passwords."""
    secret = b"".join(it.ljust(10) for it in passwords)
    start = sip(secret)
    factor = sip(secret + start.to_bytes(8, "little"))
    name = int.from_bytes(NAME[:4], "little") << 32 | int.from_bytes(NAME[2:], "little")
    return folded(name ^ start, factor), factor


def first(word: int) -> Token:
    """Tokens whose first eight bytes are these."""
    return lambda number: word.to_bytes(8, "little") + number.to_bytes(6, "big")


def last(word: int) -> Token:
    """Tokens whose last eight bytes are these."""
    return lambda number: number.to_bytes(6, "big") + word.to_bytes(8, "little")


def usual(number: int) -> bytes:
    """A token as traders choose them."""
    return b"%-14d" % number


def packets(count: int, token: Token) -> Iterator[bytes]:
    """ALICE's login, and her orders, of which every second is denied for its size."""
    yield b"\x00\x2fL" + NAME + b"apple".ljust(10) + bytes(10).replace(b"\0", b" ") + b"1".rjust(20)
    for number in range(count):
        shares = 100 + 100 * (number % 2)
        yield b"\x00\x32UO" + token(number) + b"B" + shares.to_bytes(4, "big") + b"TEST    " + (
            b"\x00\x01\x86\xa0\x00\x01\x86\x9f    YAN\x00\x00\x00\x00NN"
        )


def spent() -> float:
    """The processor time of the programs that have ended, in seconds."""
    used = resource.getrusage(resource.RUSAGE_CHILDREN)
    return used.ru_utime + used.ru_stime


def run(gate: str, folder: Path, most: float) -> float:
    """The processor time of a run, which is ended once it has taken the most."""
    before = spent()
    limit = round(most) + 1
    with (folder / "packets").open("rb") as given:
        ended = subprocess.run(
            [gate, "pipe", "--policy", str(folder / "policy.toml")],
            stdin=given,
            stdout=subprocess.DEVNULL,
            preexec_fn=lambda: resource.setrlimit(resource.RLIMIT_CPU, (limit, limit)),
        )
    taken = spent() - before
    if ended.returncode not in (0, -9, -24):
        sys.exit(f"{gate} ended with status {ended.returncode}")
    return taken


def best(gate: str, folder: Path, count: int, token: Token, most: float = 60.0) -> float:
    """The least processor time of some runs of so many orders under such tokens."""
    (folder / "packets").write_bytes(b"".join(packets(count, token)))
    return min(run(gate, folder, most) for _ in range(RUNS))


def times(gate: str, folder: Path, count: int, kinds: dict[str, Token]) -> Iterator[float]:
    """Prints the time of each kind, and yields how many times as long as usual tokens it takes."""
    least = best(gate, folder, count, usual)
    print(f"{count} orders under usual tokens: {least:.2f} seconds")
    for kind, token in kinds.items():
        taken = best(gate, folder, count, token, most=8 * least)
        print(f"chosen by {kind}: {taken:.2f} seconds, {taken / least:.2f} times as long")
        yield taken / least


def main() -> int:
    """Answers the status."""
    gate = sys.argv[1] if len(sys.argv) > 1 else str(GATE)
    count = int(sys.argv[2]) if len(sys.argv) > 2 else 100_000
    guessed, known = seeded(b"APPLE", b"CHERRY"), seeded(b"APPLE", b"BANANA")
    hidden = {
        "the kit's hasher, their first bytes": first(kit()[0]),
        "the kit's hasher, their last bytes": last(kit()[1]),
        "the gate's with another password, their first bytes": first(guessed[0]),
        "the gate's with another password, their last bytes": last(guessed[1]),
    }
    with tempfile.TemporaryDirectory() as name:
        folder = Path(name)
        (folder / "policy.toml").write_text(POLICY)
        dear = max(times(gate, folder, count, hidden)) > MOST
        in_hand = {"the gate's with all passwords in hand, their first bytes": first(known[0])}
        strange = min(times(gate, folder, KNOWN_ORDERS, in_hand)) < LEAST_KNOWN
    if dear:
        print(f"NOT AS WANTED: chosen tokens take more than {MOST} times as long")
    if strange:
        print(f"NOT AS WANTED: chosen with all passwords in hand they take less than {LEAST_KNOWN} times as long: is it this hasher?")
    return int(dear or strange)


sys.exit(main())
