"""A script at random: logins, then orders, commands and matching steps of several users, and at last all streams."""

from random import Random

from day import Day
from messages import (
    Cancel, CloseDay, Command, Enter, Grant, Kill, Lift, Message, Replace, Restrict, Revoke, SetLimit, Unrestrict,
)
from policyfile import Table
from random_messages import Scene
from random_policy import chance, visible
from script import BadStep, do_line

VERBS = {
    Kill: "kill", Lift: "lift", SetLimit: "limit", Restrict: "restrict", Unrestrict: "unrestrict", Grant: "grant",
    Revoke: "revoke", CloseDay: "close",
}
BAD_LINES = (
    "1", "1 ", " 1 match", "1 match ", "1  match", "x match", "-1 match", "18446744073709551616 match", "1 ALICE",
    "1 ALICE enter T1 B 1 TEST 1", "1 ALICE enter T1 BB 1 TEST 1 0", "1 ALICE enter T1 B 4294967296 TEST 1 0",
    "1 ALICE cancel fifteen_letters 0", "1 SEVENTH logout", "1 ALICE raw", "1 ALICE raw 4", "1 ALICE raw 4g",
    "1 ALICE fly T1", "stream", "stream NOBODY", "stream ALICE 1", "1 ALICE\tlogout", "\ufeff1 match",
    "1 ALICE kill K1", "1 ALICE limit K1 SIZE 18446744073709551616", "1 ALICE login eleven_byte 1", "1 settle\r",
    "# " + "x" * 1_023, "1 ALICE enter T1 B 1 NINE_CHAR 1 0", "1 ALICE login a 00", "\u00e4 match", "match", "1 MATCH",
    "1 ALICE close", "1 ALICE enter T1 \u00e4 1 TEST 1 0", "1 ALICE enter T1 B 1 TEST 1 0 ",
    "1 ALICE enter T1  1 T 1 0",
)
GOOD_LINES = ("", "# a comment", "#", "# " + "x" * 1_022, "# c\r", "\r", "0001 match")


def random_script(random: Random, policy: Table, day: Day) -> bytes:
    """A script under a policy, on whose day its steps are made as they are written."""
    scene = Scene(random, policy, day)
    clock = Clock(random)
    lines: list[str] = []
    for user in policy["user"]:
        if chance(random, 97):
            put(scene, lines, login(random, clock.moment(), user))
    traders = random.choice((0.7, 0.85, 0.97))
    for _ in range(random.choice((5, 20, 40, 80, 120, 200))):
        put(scene, lines, random_line(random, scene, clock, traders))
    lines += [f"stream {user['name']}" for user in policy["user"]]
    if chance(random, 12):
        lines.insert(random.randint(0, len(lines)), random.choice(BAD_LINES))
    ending = "\r\n" if chance(random, 3) else "\n"
    return ending.join(lines).encode() + (b"" if chance(random, 5) else ending.encode())


def put(scene: Scene, lines: list[str], line: str) -> None:
    """Writes a line, and does what it says."""
    lines.append(line)
    try:
        list(do_line(scene.day, line.encode()))
    except BadStep:
        pass


class Clock:
    """Moments that go on, and seldom back or far ahead."""

    def __init__(self, random: Random) -> None:
        """It begins somewhere in the day."""
        self.random = random
        self.now = random.choice((0, 1, 34_200_000_000_000))
        self.step = random.choice((1, 10, 30))

    def moment(self) -> int:
        """The next one."""
        if chance(self.random, 40):
            self.now += self.random.randint(0, self.step)
        if chance(self.random, 0.2):
            self.now += 10**9
        if chance(self.random, 0.05):
            self.now = 2**64 - 1
        early = max(0, self.now - self.random.randint(1, 50))
        return early if chance(self.random, 4) else min(self.now, 2**64 - 1)


def random_line(random: Random, scene: Scene, clock: Clock, traders: float) -> str:
    """A line; the more of the `traders`, the fewer are those of officers and readers."""
    moment = clock.moment()
    drawn = random.random()
    if drawn < 0.2:
        return f"{moment} match"
    if drawn < 0.28:
        return f"{moment} settle"
    if drawn < 0.30:
        return random.choice(GOOD_LINES)
    user = random.choice(scene.policy["user"])
    if drawn < 0.32:
        return f"stream {user['name']}"
    if drawn < 0.33:
        return f"{moment} {user['name']} logout"
    off = [user for user in scene.policy["user"] if user["name"].upper().encode() not in scene.day.state.lines]
    if drawn < 0.34 or drawn < 0.42 and off:
        return login(random, moment, random.choice(off or [user]))
    if drawn < traders:
        user = random.choice([user for user in scene.policy["user"] if user["role"] == "trader"])
    return f"{moment} {request_words(random, scene, user)}"


def request_words(random: Random, scene: Scene, user: Table) -> str:
    """A user, and the words of a message that he sends."""
    name = user["name"]
    message = scene.message(name, user["role"])
    words = words_of(message)
    if words is None or chance(random, 5):
        payload = scene.payload(message).hex()
        words = "raw " + (payload.upper() if chance(random, 20) else payload)
    return f"{'NOBODY' if chance(random, 1) else name.swapcase() if chance(random, 5) else name} {words}"


def login(random: Random, moment: int, user: Table) -> str:
    """A login, seldom a wrong one."""
    password = visible(random, 10) if chance(random, 4) else user["password"]
    if chance(random, 10):
        password = password.swapcase()
    number = random.choice((2, 3, 10, 2**64 - 1)) if chance(random, 8) else random.choice((0, 1))
    return f"{moment} {user['name']} login {password} {number}"


def words_of(message: Message) -> str | None:
    """The words that ask for a message; None where none do."""
    match message:
        case Enter(token, side, shares, stock, price, time_in_force):
            plain = Enter(token, side, shares, stock, price, time_in_force)
            words = ["enter", token, side, shares, stock, price, time_in_force]
        case Replace(old, token, shares, price, time_in_force):
            plain = Replace(old, token, shares, price, time_in_force)
            words = ["replace", old, token, shares, price, time_in_force]
        case Cancel(token, shares):
            plain, words = message, ["cancel", token, shares]
        case Command():
            plain, words = message, [VERBS[type(message)], *vars(message).values()]
    texts = [word.rstrip(b" ").decode("latin-1") if isinstance(word, bytes) else str(word) for word in words]
    is_plain = message == plain and all(text and all("!" <= letter <= "~" for letter in text) for text in texts)
    return " ".join(texts) if is_plain else None
