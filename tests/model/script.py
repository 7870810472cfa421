"""Runs a script: a step a line, and what becomes of it a line (docs/SCRIPTS.md)."""

import re
from collections.abc import Callable, Iterator

from day import Day, DayFull, Denied, Expired, Filled, Record, Rested
from messages import (
    TOKEN, Cancel, CloseDay, Enter, Grant, Kill, Lift, Login, Logout, Replace, Request, Restrict, Revoke, SetLimit,
    Unrestrict, read_payload,
)
from policy import Policy

LINE = 1_024
LINE_NUMBER = 1
"""Every user's step is made on this line of the day."""


class BadStep(Exception):
    """A line is none of the forms."""


def run_script(day: Day, content: bytes) -> tuple[bytes, int | None]:
    """Does what the lines say. Answers what is printed, and the number of the first bad line, behind which nothing is
    done."""
    printed: list[str] = []
    for number, line in enumerate(content.split(b"\n"), 1):
        try:
            printed += do_line(day, line)
        except BadStep:
            return text_of(printed), number
    return text_of(printed), None


def text_of(lines: list[str]) -> bytes:
    """Lines as they are printed."""
    return "".join(line + "\n" for line in lines).encode()


def do_line(day: Day, line: bytes) -> Iterator[str]:
    """What a line prints."""
    line = line.removesuffix(b"\r")
    if len(line) > LINE:
        raise BadStep
    if not line or line.startswith(b"#"):
        return
    match line.split(b" "):
        case [b"stream", user]:
            yield from stream(day, name(user, 6).upper())
        case [moment, b"match"]:
            yield match_one(day, number(moment, 64))
        case [moment, b"settle"]:
            yield from settle(day, number(moment, 64))
        case [moment, user, verb, *words]:
            yield step(day, number(moment, 64), name(user, 6).upper(), verb, words)
        case _:
            raise BadStep


def stream(day: Day, user: bytes) -> Iterator[str]:
    """The reports that a user of the policy is owed."""
    if user not in day.state.streams:
        raise BadStep
    for number_, report in enumerate(day.state.streams[user], 1):
        yield f"{user.decode()} {number_} {report.hex()}"


def step(day: Day, moment: int, user: bytes, verb: bytes, words: list[bytes]) -> str:
    """A user's step."""
    request = read_request(day.state.policy, user, verb, words)
    try:
        return told(day.step(LINE_NUMBER, user, moment, request))
    except DayFull:
        return "refused DayFull"


def match_one(day: Day, moment: int) -> str:
    """A matching step."""
    try:
        record = day.match_one(moment)
    except DayFull:
        return "refused DayFull"
    return "idle" if record is None else told(record)


def settle(day: Day, moment: int) -> Iterator[str]:
    """Matching steps until no order waits, or the day is full."""
    printed = ""
    while printed not in ("idle", "refused DayFull"):
        printed = match_one(day, moment)
        yield printed


def told(record: Record) -> str:
    """How a record is printed."""
    return f"{record.number} {verdict_text(record)}"


def verdict_text(record: Record) -> str:
    """What became of a step."""
    match record.verdict:
        case Denied(rule):
            return f"denied {rule.decode()}"
        case Filled(taker, maker, shares, price):
            return f"filled {taker} {maker} {shares} {price}"
        case Rested(order):
            return f"rested {order}"
        case Expired(order):
            return f"expired {order}"
    return "granted"


# The words of a line.


def read_request(policy: Policy, user: bytes, verb: bytes, words: list[bytes]) -> Request:
    """What a user's line asks for."""
    if verb == b"login":
        password, wanted = read_words(words, [password_word, number_64])
        return Login(policy.is_password(user, password), True, wanted)
    if verb not in FORMS:
        raise BadStep
    make, forms = FORMS[verb]
    return make(*read_words(words, forms))


def read_words(words: list[bytes], forms: list[Callable]) -> list:
    """The meanings of words, one for each form."""
    if len(words) != len(forms):
        raise BadStep
    return [form(word) for form, word in zip(forms, words)]


def name(word: bytes, most: int) -> bytes:
    """A name of one to so many visible characters."""
    if re.fullmatch(b"[!-~]{1,%d}" % most, word) is None:
        raise BadStep
    return word


def number(word: bytes, bits: int) -> int:
    """A number of so many bits, in decimal digits."""
    if re.fullmatch(b"[0-9]+", word) is None or int(word) >= 2**bits:
        raise BadStep
    return int(word)


def number_32(word: bytes) -> int:
    """SHARES, PRICE or TIF."""
    return number(word, 32)


def number_64(word: bytes) -> int:
    """NUMBER or VALUE."""
    return number(word, 64)


def password_word(word: bytes) -> bytes:
    """PASSWORD."""
    return name(word, 10)


def token(word: bytes) -> bytes:
    """TOKEN or TAG, in its field."""
    return name(word, TOKEN).ljust(TOKEN)


def name_of_8(word: bytes) -> bytes:
    """STOCK, ACCOUNT or RULE, in its field."""
    return name(word, 8).ljust(8)


def reader(word: bytes) -> bytes:
    """READER, in its field."""
    return name(word, 6).ljust(6)


def side(word: bytes) -> bytes:
    """SIDE: any one byte."""
    if len(word) != 1:
        raise BadStep
    return word


def payload(word: bytes) -> bytes:
    """HEX: pairs of digits."""
    if re.fullmatch(b"([0-9a-fA-F]{2})+", word) is None:
        raise BadStep
    return bytes.fromhex(word.decode())


FORMS: dict[bytes, tuple[Callable[..., Request], list[Callable]]] = {
    b"logout": (Logout, []),
    b"enter": (Enter, [token, side, number_32, name_of_8, number_32, number_32]),
    b"replace": (Replace, [token, token, number_32, number_32, number_32]),
    b"cancel": (Cancel, [token, number_32]),
    b"kill": (Kill, [token, name_of_8]),
    b"lift": (Lift, [token, name_of_8]),
    b"limit": (SetLimit, [token, name_of_8, number_64]),
    b"restrict": (Restrict, [token, name_of_8, name_of_8]),
    b"unrestrict": (Unrestrict, [token, name_of_8, name_of_8]),
    b"grant": (Grant, [token, reader, name_of_8]),
    b"revoke": (Revoke, [token, reader, name_of_8]),
    b"close": (CloseDay, [token]),
    b"raw": (read_payload, [payload]),
}
