"""Makes a run that differs smaller, as long as it differs: delta debugging by parts, then by smaller parts."""

import re
from collections.abc import Callable
from dataclasses import replace

from runs import Run

BYTES = 3_000
"""Of more bytes than these no single ones are taken out."""

Differs = Callable[[Run], bool]


def shrunk(run: Run, differs: Differs) -> Run:
    """The smallest run that is found."""
    before = None
    while run != before:
        before = run
        for split in (parts_of(run.kind), single_bytes):
            run = shrunk_field(run, "given", split, differs)
        for split in (entries, lines):
            run = shrunk_field(run, "policy", split, differs)
        if run.kind == "policy-files":
            run = shrunk_field(run, "policy", single_bytes, differs)
    return run


def shrunk_field(run: Run, field: str, split: Callable[[bytes], list[bytes]], differs: Differs) -> Run:
    """The run with fewer parts of a field."""
    kept = smallest(split(getattr(run, field)), lambda parts: differs(replace(run, **{field: b"".join(parts)})))
    return replace(run, **{field: b"".join(kept)})


def smallest(parts: list[bytes], differs: Callable[[list[bytes]], bool]) -> list[bytes]:
    """Parts of which none can be taken out alone: halves are tried first, then ever smaller stretches."""
    size = len(parts)
    while size >= 1:
        place = 0
        while place < len(parts):
            fewer = parts[:place] + parts[place + size:]
            if differs(fewer):
                parts = fewer
            else:
                place += size
        size //= 2
    return parts


# How a field is split.


def parts_of(kind: str) -> Callable[[bytes], list[bytes]]:
    """How what is given is split, by the kind of a run."""
    return {"scripts": lines, "pipes": packets, "audits": records}.get(kind, single_bytes)


def lines(content: bytes) -> list[bytes]:
    """Lines, each with its end."""
    return content.splitlines(keepends=True)


def entries(content: bytes) -> list[bytes]:
    """Entries of a policy file, as far as they are blocks."""
    return re.split(rb"(?m)^(?=\[\[)", content)


def packets(content: bytes) -> list[bytes]:
    """Packets, and what is left behind them."""
    found = []
    while content:
        length = 2 + int.from_bytes(content[:2], "big")
        found.append(content[:length])
        content = content[length:]
    return found


def records(content: bytes) -> list[bytes]:
    """Records of an audit, the header among them."""
    return [content[place:place + 128] for place in range(0, len(content), 128)]


def single_bytes(content: bytes) -> list[bytes]:
    """Single bytes, where they are not too many."""
    return [content[place:place + 1] for place in range(len(content))] if len(content) <= BYTES else [content]
