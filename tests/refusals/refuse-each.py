#!/usr/bin/env python3
"""Runs a program, and again with its first allocation refused, with its second, until each was refused once. By
hand, for any program.

usage: tests/refusals/refuse-each.py [--from-here-on] PROGRAM [ARGUMENT ...] < INPUT

It tells how many runs printed what the undisturbed one prints, with its status; how many ended with want of memory,
having printed a front of that or nothing; and each that did anything else, for which its own status is 1.
--from-here-on: all behind the first that is refused are refused too."""
import sys

sys.dont_write_bytecode = True

from refusing import shim  # noqa: E402  (beside this file)


def main() -> int:
    """Refuses each. Answers the status."""
    words = sys.argv[1:]
    goes_on = words[:1] == ["--from-here-on"]
    words = words[1:] if goes_on else words
    if not words:
        sys.exit(__doc__)
    with shim() as refusing:
        found = refusing.refuse_each(words, sys.stdin.buffer.read(), goes_on)
    for other in found.others:
        print(other)
    print(
        f"{found.allocations} allocations: {found.same} runs the same, {found.ended} ended with want of memory, "
        f"{len(found.others)} otherwise"
    )
    return 1 if found.others else 0


if __name__ == "__main__":
    sys.exit(main())
