#!/usr/bin/env python3
"""Each allocation of some runs refused in turn, of the built program and of the one that runs the cases: `gate: out
of memory` after a front of the answer, and a Kill and a Logout that are granted where all is refused.

A run of the program prints what the undisturbed one does, or ends for want of memory, having printed a front of that. In
two cases each step that was refused is made again: the records are those of a day in which nothing was refused, at a
gate, where an order meets a book, and at a gate that threads share. A granted Kill and a granted Logout ask for no
memory: they are made where all is refused from them on. It wants Linux and gcc. Run as

  tests/refusals/in-turn.py [GATE CASES]

GATE and CASES: the built programs; where none are named, crates/gate/out/gate and crates/gate_cases/out/gate_cases of this
repository.
"""

import sys
import tempfile
from pathlib import Path

sys.dont_write_bytecode = True

from refusing import Shim, shim  # noqa: E402  (beside this file)

TOP = Path(__file__).resolve().parents[2]
POLICIES = TOP / "examples" / "policies"

ORDER_AND_BOOK = """== an order that meets a book
-- again
1 ALICE login apple 1
1 BOB login banana 1
1 OLGA login orange 1
2 BOB enter S1 S 100 TEST 10000 99999
2 BOB enter S2 S 100 TEST 10000 99999
2 BOB enter S3 S 100 TEST 10000 99999
3 match
3 match
3 match
4 ALICE enter A1 B 300 TEST 10000 99999
"""
SHARED = """== orders at a shared gate
-- calls again
"""
# An order that has met one of three others, and would meet the next.
BEFORE_THE_END = """1 ALICE login apple 1
1 BOB login banana 1
1 OLGA login orange 1
2 BOB enter S1 S 100 TEST 10000 99999
2 BOB enter S2 S 100 TEST 10000 99999
2 BOB enter S3 S 100 TEST 10000 99999
3 settle
4 ALICE enter A1 B 300 TEST 10000 99999
5 match
"""
ENDS = {"a Kill": "6 OLGA kill K1 ALFA\n", "a Logout": "6 ALICE logout\n"}
GRANTED = b"12 granted\n"


def are_refused(refusing: Shim, title: str, words: list[str], given: bytes) -> bool:
    """Whether each allocation of a run is refused rightly, which is told."""
    found = refusing.refuse_each(words, given)
    for other in found.others:
        print(f"{title}: {other}")
    print(
        f"{title}: {found.allocations} allocations, {found.same} runs the same, {found.ended} ended, "
        f"{len(found.others)} otherwise",
        flush=True,
    )
    return found.allocations > 0 and not found.others


def asks_for_none(refusing: Shim, gate: str, title: str, end: str) -> bool:
    """Whether a step at the end of a script is granted where all is refused that it could ask for, which is told."""
    words = [gate, "script"]
    before = refusing.run(words, BEFORE_THE_END.encode())
    given = (BEFORE_THE_END + end).encode()
    whole, hindered = refusing.run(words, given), refusing.run_from(words, given, before.allocations + 1)
    is_right = hindered.is_as(whole) and whole.printed == before.printed + GRANTED
    print(f"{title}: {whole.allocations - before.allocations} allocations, {'granted' if is_right else 'NOT GRANTED'}")
    return is_right


def main() -> int:
    """Refuses each. Answers the status: 1 where something else was printed than is right."""
    gate, cases = sys.argv[1:] or (str(TOP / "crates" / name / "out" / name) for name in ("gate", "gate_cases"))
    script = (TOP / "examples" / "risk-officer.txt").read_bytes()
    with shim() as refusing, tempfile.TemporaryDirectory() as folder:
        audit = str(Path(folder) / "audit")
        refusing.run([gate, "script", "--audit", audit], script)
        runs = [
            ("a connection", [gate, "pipe"], (TOP / "examples" / "login-and-order.bin").read_bytes()),
            ("a script", [gate, "script"], script),
            ("a policy file", [gate, "policy", str(POLICIES / "every-kind.toml")], b""),
            ("the check of an audit", [gate, "check", audit], b""),
            ("an order that meets a book", [cases], ORDER_AND_BOOK.encode()),
            ("orders at a shared gate", [cases], SHARED.encode()),
        ]
        are_right = [are_refused(refusing, *run) for run in runs]
        are_right += [asks_for_none(refusing, gate, *end) for end in ENDS.items()]
    return 0 if all(are_right) else 1


if __name__ == "__main__":
    sys.exit(main())
