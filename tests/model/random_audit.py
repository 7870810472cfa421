"""An audit at random: that of a day on which users had lines of their own, in which mostly something is changed."""

from dataclasses import replace
from random import Random

import headers
from audit import LAYOUT, MATCH, mark_of, write_record
from day import Day, Record
from messages import Login
from policy import Policy
from policyfile import Table
from random_policy import chance
from random_script import random_script

NAMES = (
    "mark", "number", "handed", "moment", "line", "user", "kind", "body", "verdict", "rule", "order", "maker", "shares",
    "price",
)
SIZES = (4, 8, 8, 8, 2, 6, 1, 58, 1, 8, 8, 8, 4, 4)
ENDS = {name: sum(SIZES[:place + 1]) for place, name in enumerate(NAMES)}
REQUEST_FIELDS = ("handed", "moment", "line", "user", "body", "body", "verdict", "verdict", "rule")
RULES = (
    b"G1", b"G2", b"I1", b"P2", b"P6", b"L1", b"Q1", b"Q4", b"SIZE", b"GROSS", b"NOSUCH", b"", b"p2", b"\0", b" P2",
)
BYTES = tuple(bytes([byte]) for byte in b"\0 \xffAaGDFREYN1234OUX")


def random_audit(random: Random, policy: Policy, table: Table) -> bytes:
    """An audit to check under a policy."""
    version = random.choice((1, 2, 2, 3))
    scripted = Day.opened(policy)
    random_script(random, table, scripted)
    records = on_own_lines(random, policy, scripted.records)
    if version == 1:
        header = b""
    elif version == 2:
        header = headers.header(policy, 2)
    else:
        header = headers.header_3(policy, random.randbytes(4), random.choice((b"+", b"-")), random.randbytes(2))
    pieces = [header, *(write_record(record, mark_of(version)) for record in records)]
    for _ in range(random.choice((0, 1, 1, 1, 2))):
        change_pieces(random, pieces)
    content = b"".join(pieces)
    if chance(random, 10):
        content = content[:random.randint(0, len(content))]
    if chance(random, 3):
        content += random.randbytes(random.choice((1, 127, 128)))
    return content


def on_own_lines(random: Random, policy: Policy, records: list[Record]) -> list[Record]:
    """The records of the day of the same steps, but that each login is on a line at random."""
    day = Day.opened(policy)
    lines: dict[bytes, int] = {}
    for record in records:
        if record.request is None:
            day.match_one(record.handed)
            continue
        request = record.request
        if isinstance(request, Login):
            lines[record.user] = random.choice((1, 1, 2, 3, 255, 65_535))
            if chance(random, 4):
                request = replace(request, is_session=False)
            if chance(random, 4):
                request = replace(request, is_password=not request.is_password)
        line = random.randint(1, 65_535) if chance(random, 2) else lines.get(record.user, 1)
        day.step(line, record.user, record.handed, request)
    return day.records


def change_pieces(random: Random, pieces: list[bytes]) -> None:
    """One change of the header or of a record."""
    places = [place for place, piece in enumerate(pieces) if piece]
    if not places:
        return
    place = 0 if chance(random, 5) and 0 in places else random.choice(places)
    drawn = random.random()
    if drawn < 0.06:
        del pieces[place]
    elif drawn < 0.1:
        pieces.insert(place, pieces[place])
    elif drawn < 0.14:
        other = random.choice(places)
        pieces[place], pieces[other] = pieces[other], pieces[place]
    elif drawn < 0.2:
        pieces[place] = pieces[place][:random.randint(0, 127)]
    elif drawn < 0.4:
        pieces[place] = flipped(random, pieces[place])
    elif drawn < 0.6:
        at = changed_place(random, pieces[place])
        pieces[place] = pieces[place][:at] + random.choice(BYTES) + pieces[place][at + 1:]
    else:
        pieces[place] = with_other_field(random, pieces[place])


def flipped(random: Random, piece: bytes) -> bytes:
    """A piece with one bit flipped."""
    at = changed_place(random, piece)
    return piece[:at] + bytes([piece[at] ^ 1 << random.randrange(8)]) + piece[at + 1:]


def changed_place(random: Random, piece: bytes) -> int:
    """A place in a piece; of a header mostly one where it says something."""
    return random.randrange(64 if piece.startswith(b"GXH") and len(piece) > 64 and chance(random, 90) else len(piece))


def with_other_field(random: Random, piece: bytes) -> bytes:
    """A record with another value of one field, most likely of one that says something."""
    if len(piece) != LAYOUT.size:
        return piece
    is_match = piece[ENDS["kind"] - 1:ENDS["kind"]] == MATCH
    likely = ("moment", "verdict", "order", "maker", "shares", "price") if is_match else REQUEST_FIELDS
    name = random.choice(likely if chance(random, 75) else NAMES)
    start, end = ENDS[name] - SIZES[NAMES.index(name)], ENDS[name]
    changed = piece[:start] + other_value(random, name, piece[start:end]) + piece[end:]
    if name == "verdict" and not is_match and chance(random, 75):
        rule = random.choice(RULES) if changed[start:end] == b"D" else b""
        changed = changed[:end] + rule.ljust(8) + changed[end + 8:]
    return changed


def other_value(random: Random, name: str, old: bytes) -> bytes:
    """Another value of a field."""
    size = len(old)
    match name:
        case "rule":
            return random.choice(RULES).ljust(size)
        case "verdict":
            return random.choice((b"G", b"D", b"F", b"R", b"E", b" "))
        case "body":
            at = random.randrange(1, 50)
            return old[:at] + random.choice((*BYTES, old[at + 1:at + 2])) + old[at + 1:]
        case "mark" | "user" | "kind":
            return random.choice((bytes(size), b" " * size, random.choice(BYTES).ljust(size), random.randbytes(size)))
    number = int.from_bytes(old, "big")
    return (random.choice((0, 1, number + 1, number - 1, number * 256)) % 256**size).to_bytes(size, "big")
