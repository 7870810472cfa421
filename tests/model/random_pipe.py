"""A connection at random: a login, then orders or commands of one user, and sometimes bytes that are no packets."""

from random import Random

from day import Day
from pipe import Pipe
from policyfile import Table
from random_messages import Scene, field_of
from random_policy import chance, visible
from soup import packet, packets

NUMBERS = ("1", "0", "", "1 ", "01", "00000000000000000001")
ODD_NUMBERS = ("2", "7", "99999999999999999999", "18446744073709551616", "1x", "-1", "+1", "1 1", "\0", "1_0")
ENDS = (
    packet(b"O"), packet(b"O", b"behind"), packet(b"L", b"short"), packet(b"U"), b"\0", b"\0\0", b"\0\1", b"\0\1Q",
    b"\0\1l", b"\0\1H", b"\0\1A", b"\0\2L", b"\0\x2fL", b"\0\x32U", b"\xff\xff", b"\xff\xffU", b"\xff\xff^",
)
SILENT = (packet(b"R"), packet(b"R", b"any bytes"), packet(b"+"), packet(b"+", b"debug"), packet(b"+", b"\0" * 300))


def random_pipe(random: Random, policy: Table, day: Day) -> bytes:
    """What a client sends under a policy, on whose day its steps are made as they are written."""
    user = random.choice(policy["user"])
    if chance(random, 60):
        user = random.choice([user for user in policy["user"] if user["role"] == "trader"])
    scene = Scene(random, policy, day)
    pipe = Pipe(day)
    content = bytearray()
    while chance(random, 15):
        put(pipe, content, random.choice(SILENT))
    if chance(random, 97):
        put(pipe, content, login(random, policy, user))
    for _ in range(random.choice((0, 3, 10, 25, 50))):
        silent = chance(random, 6)
        message = scene.message(user["name"], user["role"])
        put(pipe, content, random.choice(SILENT) if silent else packet(b"U", scene.payload(message)))
        if chance(random, 1):
            put(pipe, content, random.choice((*ENDS, login(random, policy, user))))
    if chance(random, 50):
        put(pipe, content, random.choice(ENDS))
    while chance(random, 20):
        content += random.choice((*SILENT, *ENDS, login(random, policy, user)))
    cut = len(content) - random.randint(0, 60) if chance(random, 10) else len(content)
    return bytes(content[:max(0, cut)])


def put(pipe: Pipe, content: bytearray, given: bytes) -> None:
    """Writes a packet, or bytes that are none, and does what it asks for."""
    content += given
    for whole in packets(given):
        if not pipe.is_over:
            pipe.take(whole)


def login(random: Random, policy: Table, user: Table) -> bytes:
    """A Login Request, seldom a wrong one."""
    name = user["name"].upper() if chance(random, 50) else user["name"]
    password = visible(random, 10) if chance(random, 4) else user["password"]
    if chance(random, 10):
        password = password.swapcase()
    if chance(random, 3):
        name = random.choice(("NOBODY", "", " " + name[:5], name[:5] + "\0"))
    session = policy["session"]
    asked = random.choice(("", "", session, session.rjust(10), f" {session}"))
    if chance(random, 5):
        asked = random.choice((session.swapcase(), session + "x", "\0"))
    number = random.choice(ODD_NUMBERS if chance(random, 7) else NUMBERS)
    wanted = number.rjust(20) if chance(random, 70) else number.center(20)
    fields = (field_of(name, 6), field_of(password, 10), field_of(asked, 10), field_of(wanted, 20))
    return packet(b"L", b"".join(fields))
