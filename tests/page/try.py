#!/usr/bin/env python3
"""The risk desk's page, seen by those who ask for it: over raw sockets, beside traders, and in a browser.

A server with a page (`gate serve --status-port`) is asked for each of its paths: who gets in and who does not, what an officer
of two accounts and a reader are shown, what is refused and makes no record, what becomes of bytes that are no request, of
those that name a foreign host, and of half a request, of wrong passwords and of more connections than it serves at once, and
whether the figures are what a Prometheus server reads, with the times of a trader's reports in buckets, and with a journal
what was written to it. Then a kill in a flood of 64 traders, and what a thousand idle connections to the page, and one that
asks ten times a second, cost a trader. Last a browser opens the page with an officer's password, presses Kill by keyboard, and
has to show the account as killed within two seconds, also in a flood; without a server its banner has to be in front of a
narrow page, and no Kill button to be live, nor while the officer is logged in elsewhere; and amounts are shown to the last
ten-thousandth of a dollar. Where no browser can be had that is told, and nothing fails. A line is printed for each point, and
behind one that is not as wanted what was seen. The status is 1 where there is such a one. Run as

  tests/page/try.py [GATE]
  tests/page/try.py [GATE] --slack 5                    costs may be five times as high
  tests/page/try.py [GATE] --within 90                  takes no longer than so many seconds
  tests/page/try.py [GATE] --only requests,browser      parts of it
  tests/page/try.py [GATE] --only reading --days 8      what one costs that asks ten times a second, measured on eight servers
  tests/page/try.py [GATE] --screenshots FOLDER         writes pictures of the page: light, dark, narrow, and old

GATE: the built program; where none is named, crates/gate/out/gate of this repository.
"""

import argparse
import os
import re
import resource
import select
import shutil
import signal
import socket
import subprocess
import sys
import tempfile
import threading
import time
from collections.abc import Callable
from pathlib import Path

sys.dont_write_bytecode = True
TOP = Path(__file__).resolve().parents[2]
sys.path[:0] = [str(Path(__file__).resolve().parent), str(TOP / "tests"), str(TOP / "tests" / "desk")]

import peers  # noqa: E402  (of tests)
from browser import browser  # noqa: E402  (beside this file)
from costs import idle_cost, reading_cost  # noqa: E402
from crowds import crowds  # noqa: E402
from desks import HOST  # noqa: E402  (of tests/desk)
from pages import (  # noqa: E402
    ALICE, KILLED_SECONDS, OLGA, OMAR, OTTO, PATIENCE_SECONDS, POLICY, RITA, TRADERS, Answer, Points, Server, asked, comes,
    exchanged, flood_policy, flooding, is_documented, request_for, serving, traded,
)

PART_SECONDS = 240
SILENT_SECONDS = 5.0
AT_ONCE = 64
FLOOD_KILLS = 10
PAGE_POLICY = "default-src 'none'; script-src 'self'; style-src 'self'; connect-src 'self'; img-src data:; form-action 'self'; " \
    "base-uri 'none'; frame-ancestors 'none'"
# What answers say in a line of text.
WELL, CLOSED = "the gate takes orders", "the day is closed"
STRANGER = "the name and the password of an officer or a reader are wanted"
REFUSED = b"HTTP/1.1 401 Unauthorized\r\nContent-Type: text/plain; charset=utf-8\r\nContent-Length: 63\r\n" \
    b"Cache-Control: no-store\r\nConnection: close\r\nContent-Security-Policy: " + PAGE_POLICY.encode() + b"\r\n" \
    b"X-Content-Type-Options: nosniff\r\nReferrer-Policy: no-referrer\r\n" \
    b'WWW-Authenticate: Basic realm="Boskurige", charset="UTF-8"\r\n\r\n' + STRANGER.encode() + b"\n"
NO_REQUEST = "this is no request that is served here"
FOREIGN = "the page is served by the names 127.0.0.1, localhost and [::1] alone"
NO_TOKEN = "the page is of an earlier run of the server: try again"
NO_POWER = "you may not kill this account"
ELSEWHERE = "you are logged in elsewhere: kill from there, or log out there"
KILLED = "the account is killed"
UNKEPT = "the journal can't be written: nothing more is told"
NO_RECORD = "there is no memory or no record left for the kill: try again"
DENIED = "the gate denied the kill: the last commands say why"
# The members of a state, in their order, and those of the rows of its lists.
MEMBERS = [
    "record", "left", "lines_left", "at", "closed", "granted", "denied", "fills", "accounts", "limits", "gross", "net", "rules",
    "denials", "commands", "users", "user", "may_kill", "token", "journal", "connections",
]
ROWS = {
    "accounts": ["account", "killed", "kill", "lift", "live"], "limits": ["rule", "unit", "limit", "file"],
    "gross": ["rule", "account", "used", "left"], "net": ["rule", "account", "stock", "buys", "sells"],
    "rules": ["rule", "count"], "denials": ["record", "at", "user", "asked", "about", "denied_by"],
    "commands": ["record", "at", "user", "asked", "about", "denied_by"], "users": ["user", "line"],
}


# Requests.


def paths(server: Server, points: Points) -> None:
    """What there is, and who gets it."""
    kinds = {"/": "text/html", "/page.js": "text/javascript", "/page.css": "text/css", "/state.json": "application/json",
             "/metrics": "text/plain"}
    for path, kind in kinds.items():
        answer = asked(server.page, path, OLGA)
        is_right = answer.status == 200 and answer.is_whole and answer.fields.get("content-type", "").startswith(kind)
        is_right &= answer.fields.get("content-security-policy") == PAGE_POLICY and len(answer.body) > 100
        is_right &= answer.fields.get("cache-control") == "no-store" and answer.fields.get("x-content-type-options") == "nosniff"
        points.look(f"GET {path} is answered", is_right, answer)
        refused = [asked(server.page, path, user) for user in (None, ("OLGA", "pear"), ("NOBODY", "orange"), ALICE)]
        is_right = all(
            answer.says(401, STRANGER) and answer.fields.get("www-authenticate", "").startswith("Basic realm=") for answer in refused
        )
        points.look(f"GET {path} without a password, with a wrong one, and with a trader's is 401", is_right, *refused)
    health = asked(server.page, "/healthz")
    points.look("/healthz needs no password", health.says(200, WELL), health)
    answer = exchanged(server.page, request_for("/state.json", None))
    points.look("the bytes of a 401 are as HTTP has them", answer == REFUSED, answer)
    answer = Answer(exchanged(server.page, request_for("/state.json", OLGA).replace(b"Basic", b"basic")))
    points.look("the scheme of a password may be in lower case", answer.status == 200 and answer.is_whole, answer)
    wanted = {("GET", "/kill"): 405, ("POST", "/"): 405, ("POST", "/state.json"): 405, ("GET", "/nothing"): 404, ("GET", "//"): 404,
              ("GET", "/page.js/"): 404}
    for (method, path), status in wanted.items():
        answer = asked(server.page, path, OLGA, method=method)
        allowed = {"/kill": "POST"}.get(path, "GET") if status == 405 else None
        is_right = answer.says(status, NO_REQUEST) and answer.fields.get("allow") == allowed
        points.look(f"{method} {path} is {status}", is_right, answer)


def bad_bytes(server: Server, points: Points) -> None:
    """Bytes that are no request, half of one, and too many."""
    whole, front = request_for("/state.json", OLGA), f"POST /kill HTTP/1.1\r\nHost: {HOST}\r\n".encode()
    wrong = {
        "bytes at random": os.urandom(200) + b"\r\n\r\n",
        "a login of a trader": peers.login(b"ALICE", b"apple"),
        "a name with a space": whole.replace(b"Host:", b"Bad Name: 1\r\nHost:"),
        "no Host": whole.replace(b"Host:", b"Guest:"),
        "two of them": whole.replace(b"Host:", b"Host: HERE\r\nHost:"),
        "another version": whole.replace(b"HTTP/1.1", b"HTTP/9.7"),
        "a body in chunks": front + b"Transfer-Encoding: chunked\r\n\r\n0\r\n\r\n",
    }
    for what, data in wrong.items():
        answer = Answer(exchanged(server.page, data, ends=True))
        points.look(f"{what}: 400", answer.says(400, NO_REQUEST), answer)
    answer = Answer(exchanged(server.page, whole[:-5], ends=True))
    points.look("half a request whose peer ends: 400", answer.says(400, NO_REQUEST), answer)
    began = time.monotonic()
    answer = Answer(exchanged(server.page, whole[:-5]))
    took = time.monotonic() - began
    is_right = answer.says(400, NO_REQUEST) and SILENT_SECONDS - 1 < took < SILENT_SECONDS + 4
    points.look(f"half a request and then silence: 400 after {took:.1f} s", is_right, answer)
    many = whole[:-2] + b"".join(b"X-%05d: %s\r\n" % (i, b"x" * 1000) for i in range(64)) + b"\r\n"
    answer = Answer(exchanged(server.page, many))
    points.look("64 KB of fields: 413", answer.says(413, NO_REQUEST), answer)
    answer = Answer(exchanged(server.page, front + b"Content-Length: 9999999\r\n\r\n"))
    points.look("a body of 10 MB: 413", answer.says(413, NO_REQUEST), answer)
    with socket.create_connection((HOST, server.page), timeout=PATIENCE_SECONDS) as line:
        for byte in whole:
            line.sendall(bytes([byte]))
        pieces = []
        while piece := line.recv(65536):
            pieces.append(piece)
    answer = Answer(b"".join(pieces))
    points.look("a request that comes a byte at a time is answered", answer.status == 200 and answer.is_whole, answer)


def hosts(server: Server, points: Points) -> None:
    """Requests by the names of the machine itself, with a port and without one, and by others: those are shown nothing, and kill
    nobody, whoever's password is with them."""
    state, kill = request_for("/state.json", OLGA), f"account=ALFA&token={server.state()['token']}"
    host = f"Host: {HOST}\r\n".encode()
    for name in ("localhost", "LOCALHOST", "127.0.0.1", "127.8.9.255", "[::1]"):
        answers = [Answer(exchanged(server.page, state.replace(host, f"Host: {name}{port}\r\n".encode())))
                   for port in ("", f":{server.page}", ":1", ":")]
        points.look(f"a request by the name {name} is answered", all(one.status == 200 for one in answers), *answers)
    records = server.state()["record"]
    for name in (
        "evil.example", "localhost.evil.example", "evil.localhost", "evil.example:127.0.0.1", "127.0.0.1.evil.example", "127.0.0.1@evil",
        "localhostile", "localhost:9101.evil.example", "localhost:x", "[::1]evil.example", "[::2]", "::1", "127.0.0", "127.0.0.256",
        "127.0.0.01", "128.0.0.1", "0.0.0.0", "10.0.0.1", ":9101", "",
    ):
        foreign = f"Host: {name}\r\n".encode()
        asks = [state, request_for("/healthz"), request_for("/", OLGA), request_for("/nothing"),
                request_for("/kill", OLGA, method="POST", body=kill), request_for("/healthz").replace(b"HTTP/1.1", b"HTTP/1.0")]
        answers = [Answer(exchanged(server.page, ask.replace(host, foreign))) for ask in asks]
        points.look(f"whatever is asked by the name {name or 'of nobody'} is 421", all(one.says(421, FOREIGN) for one in answers), *answers)
    after = server.state()
    points.look("and nothing is killed by that", not after["accounts"][0]["killed"] and after["record"] == records, after)
    answer = Answer(exchanged(server.page, state.replace(host, b"").replace(b"HTTP/1.1", b"HTTP/1.0")))
    points.look("HTTP/1.0 needs no name", answer.status == 200, answer)


def by_curl(server: Server, folder: Path, points: Points) -> None:
    """What curl is answered, where there is curl."""
    if not shutil.which("curl"):
        points.skip("curl is not there, so it was not asked")
        return
    fields = folder / "fields"
    fields.write_text("".join(f"X-{i:05}: {'x' * 1000}\n" for i in range(64)))
    wanted = {
        "a state": (["--user", ":".join(OLGA)], "/state.json", "200"), "64 KB of fields": (["--header", f"@{fields}"], "/", "413"),
        "no password": ([], "/", "401"),
    }
    for what, (words, path, status) in wanted.items():
        call = ["curl", "--silent", "--show-error", "--max-time", "10", "--write-out", "%{stderr}%{http_code}", *words]
        told = subprocess.run([*call, f"http://{HOST}:{server.page}{path}"], capture_output=True, text=True, check=False)
        is_right = told.returncode == 0 and told.stderr == status and told.stdout
        points.look(f"curl is answered: {what}, {status}", bool(is_right), told)


def wrong_passwords(server: Server, points: Points) -> None:
    """The sixth wrong password for a user is answered a second later, and nobody else waits for that."""
    took = []
    for _ in range(6):
        began = time.monotonic()
        answer = asked(server.page, "/state.json", ("OMAR", "pear"))
        took.append(time.monotonic() - began)
        if not answer.says(401, STRANGER):
            break
    is_right = len(took) == 6 and max(took[:5]) < 0.9 and 1 <= took[5] < 2
    points.look("the sixth wrong password of a user is answered a second later", is_right, took, answer)
    late = threading.Thread(target=asked, args=(server.page, "/state.json", ("OMAR", "pear")))
    late.start()
    time.sleep(0.2)
    began = time.monotonic()
    answers = [asked(server.page, "/state.json", user) for user in (OMAR, OLGA)]
    took = time.monotonic() - began
    is_right = all(answer.status == 200 for answer in answers) and late.is_alive()
    points.look(f"meanwhile the right one and another officer are answered: {took:.2f} s", is_right, *answers)
    late.join()


def too_many(server: Server, points: Points) -> None:
    """More connections than it serves at once: the first of those who say nothing is hung up on."""
    time.sleep(1.5)  # the last ones have left
    lines = [socket.create_connection((HOST, server.page), timeout=PATIENCE_SECONDS) for _ in range(AT_ONCE)]
    time.sleep(0.2)
    began = time.monotonic()
    answer = asked(server.page, "/healthz")
    took = time.monotonic() - began
    ended = select.select(lines, [], [], 0.5)[0]
    is_right = answer.says(200, WELL) and ended == [lines[0]] and lines[0].recv(100) == b""
    points.look(f"one more than {AT_ONCE} is answered in {took:.2f} s, and the first is hung up on", is_right, answer, len(ended))
    answers = []
    for line in lines[1:]:
        answers.append(Answer(line.recv(65536)))
    is_right = all(answer.says(400, NO_REQUEST) for answer in answers)
    points.look("the others are answered 400 in the end", is_right, *answers)
    for line in lines:
        line.close()


def states(server: Server, points: Points) -> None:
    """What an officer of all accounts, one of two, and a reader of one are shown."""
    state = server.state()
    is_right = list(state) == MEMBERS and all(list(row) == names for key, names in ROWS.items() for row in state[key])
    points.look("a state has its members", is_right, list(state), {key: state[key][:1] for key in ROWS if key in state})
    is_right = re.fullmatch("[0-9a-f]{32}", state["token"]) and re.fullmatch(r"\d\d:\d\d:\d\d\.\d{9}", state["at"])
    is_right = bool(is_right) and state["journal"] == "none" and state["connections"] >= 0
    is_right &= state["record"] > state["granted"] > 0 and state["denied"] == 3 and state["fills"] == 1
    points.look("its token, moment and counts are such", is_right, state)
    wanted = {OLGA: (["ALFA", "BETA", "GAMMA"], True), OTTO: (["ALFA", "BETA"], True), OMAR: (["ALFA", "BETA", "GAMMA"], False),
              RITA: (["BETA"], False)}
    tokens = set()
    for user, (accounts, may_kill) in wanted.items():
        state = server.state(user)
        tokens.add(state["token"])
        traders = {name: user for user, name in zip(("ALICE", "BOB", "CAROL"), ("ALFA", "BETA", "GAMMA"))}
        is_right = [row["account"] for row in state["accounts"]] == accounts and state["user"] == user[0]
        is_right &= state["may_kill"] is may_kill
        is_right &= {row["account"] for row in state["gross"] + state["net"]} <= set(accounts)
        is_right &= {row["user"] for row in state["users"]} == {traders[name] for name in accounts} | {user[0]}
        is_right &= {row["user"] for row in state["denials"]} <= {traders[name] for name in accounts} | {user[0]}
        points.look(f"{user[0]} is shown {', '.join(accounts)}, and may{'' if may_kill else ' not'} kill", is_right, state)
    points.look("each has a token of his own", len(tokens) == len(wanted), tokens)
    gross = {row["account"]: row for row in server.state()["gross"] if row["rule"] == "GROSS"}
    limit = next(row["limit"] for row in server.state()["limits"] if row["rule"] == "GROSS")
    is_right = set(gross) == {"ALFA", "BETA", "GAMMA"} and all(row["used"] + row["left"] == limit for row in gross.values())
    points.look("what is used and what is left of GROSS are its limit", is_right and gross["ALFA"]["used"] > 0, gross, limit)
    denied = {row["rule"]: row["count"] for row in server.state()["rules"]}
    points.look("SIZE has denied three", denied.get("SIZE") == 3, denied)


def refused_kills(server: Server, points: Points) -> None:
    """Kills that are refused: no record is made of any."""
    before, token = server.state()["record"], server.state(OTTO)["token"]
    wrong = {
        "a wrong token": (OTTO, f"account=ALFA&token={'0' * 32}", 403, NO_TOKEN),
        "another user's token": (OTTO, f"account=ALFA&token={server.state()['token']}", 403, NO_TOKEN),
        "a reader": (RITA, f"account=BETA&token={server.state(RITA)['token']}", 403, NO_POWER),
        "an officer without the power": (OMAR, f"account=ALFA&token={server.state(OMAR)['token']}", 403, NO_POWER),
        "an account that is not his": (OTTO, f"account=GAMMA&token={token}", 403, NO_POWER),
        "an account that is none": (OTTO, f"account=NONE&token={token}", 403, NO_POWER),
        "no password": (None, f"account=ALFA&token={token}", 401, STRANGER),
        "a wrong password": (("OTTO", "pear"), f"account=ALFA&token={token}", 401, STRANGER),
        "a form without a token": (OTTO, "account=ALFA", 400, NO_REQUEST),
        "a form with one member more": (OTTO, f"account=ALFA&token={token}&more=1", 400, NO_REQUEST),
        "its members in another order": (OTTO, f"token={token}&account=ALFA", 400, NO_REQUEST),
    }
    for what, (user, body, status, words) in wrong.items():
        answer = asked(server.page, "/kill", user, method="POST", body=body)
        points.look(f"a kill with {what}: {status}", answer.says(status, words), answer)
    time.sleep(0.5)
    after = server.state()
    is_right = after["record"] == before and not any(row["killed"] for row in after["accounts"])
    points.look("no record was made of any of them", is_right, before, after)
    texts = [f"Kill ALFA: not confirmed. {words}" for words in (STRANGER, NO_TOKEN, NO_POWER, ELSEWHERE, DENIED, NO_RECORD, UNKEPT)]
    unknown = [text for text in texts if not is_documented(text)]
    points.look("RISK_OFFICERS.md has what the page tells of refused kills", not unknown, *unknown)


def kill_requests(server: Server, points: Points) -> None:
    """A kill that is granted; one while the officer is logged in elsewhere."""
    body = f"account=ALFA&token={server.state(OTTO)['token']}"
    answer = asked(server.page, "/kill", OTTO, method="POST", body=body)
    points.look("a kill: 303 to the page", answer.says(303, KILLED) and answer.fields.get("location") == "/", answer)
    state = server.state(OTTO)
    row = state["accounts"][0]
    is_right = row["killed"] and row["kill"]["officer"] == "OTTO" and row["live"] == 0
    points.look("it stands in the next state", is_right and state["commands"][-1]["asked"] == "kill", row, state["commands"])
    ended = {"event": "orders_ended", "user": "OTTO", "command": "kill", "account": "ALFA", "record": row["kill"]["record"]}
    is_told = comes(lambda: any(ended.items() <= one.items() and one["orders"] > 0 for one in server.logged()))
    points.look("the log tells what it ended", is_told, ended, server.logged())
    answer = asked(server.page, "/kill", OTTO, method="POST", body=body)
    points.look("a kill of what is killed: 403", answer.says(403, DENIED), answer)
    peer = peers.Peer(server.port)
    peer.line.sendall(peers.login(b"OTTO", b"olive"))
    peer.packet()
    answer = asked(server.page, "/kill", OTTO, method="POST", body=body.replace("ALFA", "BETA"))
    is_right = answer.says(403, ELSEWHERE) and not server.state()["accounts"][1]["killed"]
    points.look("a kill while he is logged in elsewhere: 403", is_right, answer)
    peer.log_out()
    told = server.desk(OLGA, "lift", "ALFA")
    is_lifted = comes(lambda: not server.state()["accounts"][0]["killed"])
    points.look("and the shell lifts it", told.returncode == 0 and is_lifted, told)


# The figures, by the text format that a Prometheus server reads.

NAME = r"[a-zA-Z_:][a-zA-Z0-9_:]*"
LABEL = r'[a-zA-Z_][a-zA-Z0-9_]*="(?:[^"\\\n]|\\[\\"n])*"'
VALUE = r"-?[0-9]+(?:\.[0-9]{9})?"
SAMPLE = re.compile(rf"({NAME})(?:\{{({LABEL}(?:,{LABEL})*)?\}})? ({VALUE})")
ANSWERS = "boskurige_answer_seconds"
# What stands behind a histogram's name in those of its samples.
PARTS_OF_HISTOGRAM = ("_bucket", "_sum", "_count")
BOUNDS = [
    0.00001, 0.000025, 0.00005, 0.0001, 0.00025, 0.0005, 0.001, 0.0025, 0.005, 0.01, 0.025, 0.05, 0.1, 0.25, 0.5, 1, float("inf"),
]


def labelled(family: str, kind: str, name: str, labels: str) -> str:
    """What tells a sample of this family apart: its labels, behind its part where it is a histogram's. A fault is a ValueError."""
    part = name.removeprefix(family)
    if not name.startswith(family) or part not in (PARTS_OF_HISTOGRAM if kind == "histogram" else ("",)):
        raise ValueError(f"{name} under {family}")
    return f"{part} {labels}".strip()


def value_of(kind: str, key: str, text: str) -> int | float:
    """The value of a sample: only the sum of a histogram has decimals. A fault is a ValueError."""
    if ("." in text) != (kind == "histogram" and key == "_sum"):
        raise ValueError(f"{text} for {key}")
    return float(text) if "." in text else int(text)


def figures_in(text: str) -> dict:
    """The samples of each family: their labels and values. A fault is a ValueError."""
    if not text.endswith("\n"):
        raise ValueError("the last line has no end")
    families, helped, kind, name = {}, set(), None, None
    for line in text[:-1].split("\n"):
        if found := re.fullmatch(rf"# HELP ({NAME}) (\S.*)", line):
            if found[1] in helped:
                raise ValueError(f"{found[1]} is told of twice")
            helped.add(found[1])
            name, kind = found[1], None
        elif found := re.fullmatch(rf"# TYPE ({NAME}) (counter|gauge|histogram)", line):
            if found[1] != name or name in families:
                raise ValueError(f"TYPE of {found[1]} behind HELP of {name}")
            kind, families[name] = found[2], {}
            if (kind == "counter") != name.endswith("_total"):
                raise ValueError(f"{name} is a {kind}")
        elif found := SAMPLE.fullmatch(line):
            if kind is None:
                raise ValueError(f"out of place: {line}")
            key = labelled(name, kind, found[1], found[2] or "")
            if key in families[name]:
                raise ValueError(f"twice: {line}")
            families[name][key] = value_of(kind, key, found[3])
        else:
            raise ValueError(f"no line of the format: {line!r}")
    return families


def figures(server: Server) -> dict:
    """The samples of each family, as an officer of all accounts is shown them."""
    return figures_in(asked(server.page, "/metrics", OLGA).body.decode())


def is_histogram(samples: dict) -> bool:
    """Whether each bucket counts those before it, too, the last one has all, and the sum is no more than the bounds allow."""
    buckets = {key: count for key, count in samples.items() if key.startswith("_bucket ")}
    bounds = [float(key.removeprefix('_bucket le="').removesuffix('"')) for key in buckets]
    counts = list(buckets.values())
    alone = [count - before for before, count in zip([0, *counts], counts)]
    least = sum(count * bound for count, bound in zip(alone[1:], bounds))
    is_within = samples["_sum"] >= least * 0.999 and samples["_sum"] <= least + sum(alone) * PATIENCE_SECONDS
    return bounds == BOUNDS and min(alone) >= 0 and counts[-1] == samples["_count"] and is_within


def answer_times(server: Server, points: Points) -> None:
    """Each report that a trader is sent is counted once, but for those that he is told again."""
    before = figures(server)[ANSWERS]
    points.look("the times of reports are a histogram", is_histogram(before) and before["_count"] > 0, before)
    peer = peers.Peer(server.port)
    peer.line.sendall(peers.login(*(word.encode() for word in ALICE)))
    peer.packet()
    again = []
    peer.line.sendall(peers.order(b"H1", 100, 90_000))
    while (packet := peer.packet()) and not packet.startswith(b"SA" + b"H1".ljust(14)):
        again.append(packet)
    new = 1 + sum(packet[:1] == peers.SEQUENCED for packet in peer.log_out())
    is_right = comes(lambda: figures(server)[ANSWERS]["_count"] == before["_count"] + new)
    after = figures(server)[ANSWERS]
    is_right &= len(again) > 0 and is_histogram(after) and after["_sum"] > before["_sum"]
    what = f"{new} more are counted for {new} reports, and none for {len(again)} that are told again"
    points.look(what, is_right, before, after)


def metrics(server: Server, points: Points) -> None:
    """The figures, and the state that they have to be those of."""
    text, state = asked(server.page, "/metrics", OLGA).body.decode(), server.state()
    try:
        found = figures_in(text)
    except ValueError as error:
        points.look("/metrics is in the text format", False, error, text)
        return
    points.look("/metrics is in the text format", len(found) >= 10, text)
    wanted = {"records_total": "record", "granted_total": "granted", "fills_total": "fills", "records_left": "left",
              "lines_left": "lines_left"}
    is_right = all(found.get(f"boskurige_{name}") == {"": state[member]} for name, member in wanted.items())
    points.look("its counts are those of the state", is_right, found, state)
    of_accounts = {"live_orders": lambda row: row["live"], "account_killed": lambda row: int(row["killed"])}
    is_right = all(
        found.get(f"boskurige_{name}") == {f'account="{row["account"]}"': value(row) for row in state["accounts"]}
        for name, value in of_accounts.items()
    )
    points.look("its figures of accounts too", is_right, found, state)
    limits = {f'rule="{row["rule"]}"': row["limit"] for row in state["limits"] if row["limit"] is not None}
    points.look("and the limits in force", found.get("boskurige_limit") == limits, found, limits)
    sides = {
        f'rule="{row["rule"]}",account="{row["account"]}",stock="{row["stock"]}",side="{side}"': row[side]
        for row in state["net"] for side in ("buys", "sells") if row[side] is not None
    }
    is_right = found.get("boskurige_net_used") == sides and min(sides.values()) < 0
    points.look("and what is used of net limits", is_right, found, sides)
    for name, member in (("limit_used", "used"), ("limit_left", "left")):
        rows = {f'rule="{row["rule"]}",account="{row["account"]}"': row[member] for row in state["gross"]}
        points.look(f"and those of {name}", found.get(f"boskurige_{name}") == rows, found, rows)
    rows = {f'rule="{row["rule"]}"': row["count"] for row in state["rules"]}
    points.look("and how often each rule denied", found.get("boskurige_denied_total") == rows, found, rows)
    journal = {name: found.get(f"boskurige_{name}") for name in ("journaled", "journal_bytes_total", "journal_failures_total")}
    points.look("and that there is no journal", all(samples == {"": 0} for samples in journal.values()), journal)


def requests(gate: str, folder: Path, points: Points) -> None:
    """All that raw sockets show."""
    with serving(gate, folder, POLICY, "--log", "json") as server:
        wrong_passwords(server, points)
        traded(server)
        paths(server, points)
        states(server, points)
        metrics(server, points)
        answer_times(server, points)
        refused_kills(server, points)
        kill_requests(server, points)
        bad_bytes(server, points)
        hosts(server, points)
        by_curl(server, folder, points)
        too_many(server, points)
        records = server.state()["record"]
        told = server.desk(OLGA, "close", "--yes")
        comes(lambda: server.state()["closed"])
        health, state = asked(server.page, "/healthz"), server.state()
        is_right = told.returncode == 0 and health.says(503, CLOSED) and state["closed"] and state["record"] > records
        points.look("/healthz is 503 once the day is closed, and the page tells it", is_right, told, health, state)
        ends(server, points)


def ends(server: Server, points: Points) -> None:
    """The end of a server, in order."""
    status = server.end()
    words = [server.gate, "check", str(server.audit), "--policy", str(server.policy)]
    checked = subprocess.run(words, capture_output=True, check=False)
    points.look("the server ends, and its audit is legal", status == 0 and checked.stdout.startswith(b"legal "), status, checked)


def journaled(gate: str, folder: Path, points: Points) -> None:
    """What was written to a journal: 128 bytes a record of this run, before the records are told, and nothing that failed."""
    path = folder / "journal"
    with serving(gate, folder, POLICY, "--journal", str(path)) as server:
        header = path.stat().st_size
        traded(server)

        def is_written() -> bool:
            found = figures(server)
            return found["boskurige_journal_bytes_total"] == {"": 128 * server.state()["record"]}

        is_right, found = comes(is_written), figures(server)
        is_right &= found["boskurige_journal_bytes_total"][""] == path.stat().st_size - header > 0
        is_right &= found["boskurige_journal_failures_total"] == {"": 0} and found["boskurige_journaled"] == {"": 1}
        points.look("128 bytes a record were written to the journal", is_right, header, path.stat().st_size, found)
        ends(server, points)


def kills_in_a_flood(gate: str, folder: Path, points: Points) -> None:
    """Kills while 64 traders enter orders all the time."""
    took = []
    with serving(gate, folder, flood_policy()) as server:
        with flooding(server.port, TRADERS):
            for _ in range(FLOOD_KILLS):
                body = f"account=ALFA&token={server.state()['token']}"
                began = time.monotonic()
                answer = asked(server.page, "/kill", OLGA, method="POST", body=body)
                is_right = answer.says(303, KILLED) and server.state()["accounts"][0]["killed"]
                took.append(time.monotonic() - began)
                is_right &= server.state()["accounts"][0]["live"] == 0 and server.desk(OLGA, "lift", "ALFA").returncode == 0
                if not is_right:
                    break
        state = server.state()
        is_right &= state["granted"] > 1_000 and max(took) < KILLED_SECONDS
        what = f"{FLOOD_KILLS} kills beside 64 traders stand in a state within {max(took):.2f} s"
        points.look(what, is_right, took, answer, state["accounts"], state["granted"])
        ends(server, points)


def unkept_kill(gate: str, folder: Path, points: Points) -> None:
    """A kill that the journal can't keep: nothing is told of it."""
    journal = folder / "journal"
    with serving(gate, folder, POLICY, "--journal", str(journal)) as server:
        body = f"account=ALFA&token={server.state()['token']}"
        size = journal.stat().st_size
        resource.prlimit(server.run.pid, resource.RLIMIT_FSIZE, (size, size))
        answer = asked(server.page, "/kill", OLGA, method="POST", body=body)
        status = server.run.wait(PATIENCE_SECONDS)
    is_right = (answer.body == b"" or answer.says(503, UNKEPT)) and status != 0 and journal.stat().st_size == size
    points.look("a kill that the journal can't keep is not told, and the server ends", is_right, answer, status)


# All of it.

PARTS: dict[str, Callable[[str, Path, Points], None]] = {
    "requests": requests,
    "unkept": unkept_kill,
    "journal": journaled,
    "flood": kills_in_a_flood,
    "crowds": crowds,
    "idle": idle_cost,
    "reading": reading_cost,
    "browser": browser,
}


def arguments() -> argparse.Namespace:
    """The words of the call."""
    parser = argparse.ArgumentParser(description="Shows what the risk desk's page does.")
    parser.add_argument("gate", nargs="?", default=str(TOP / "crates" / "gate" / "out" / "gate"), help="the built program")
    parser.add_argument("--slack", type=float, default=1.0, help="how many times as high a cost may be (1)")
    parser.add_argument("--days", type=int, default=1, help="on how many servers what a reader costs is measured (1)")
    parser.add_argument("--within", type=float, default=PART_SECONDS * len(PARTS), help="the seconds that all may take")
    parser.add_argument("--only", default=",".join(PARTS), help=f"parts to run: {', '.join(PARTS)} (all)")
    parser.add_argument("--screenshots", type=Path, help="a folder for pictures of the page (none)")
    return parser.parse_args()


def too_late(*_: object) -> None:
    """Ends a part that takes too long."""
    raise TimeoutError("it took too long")


def main() -> int:
    """Runs all parts. Answers the status: 1 where something is not as wanted."""
    words = arguments()
    gate, until = str(Path(words.gate).resolve()), time.monotonic() + words.within
    points = Points(words.slack, words.days, words.screenshots, until)
    resource.setrlimit(resource.RLIMIT_NOFILE, (4096, 4096))
    signal.signal(signal.SIGALRM, too_late)
    for name, part in PARTS.items():
        if name not in words.only.split(","):
            continue
        signal.setitimer(signal.ITIMER_REAL, max(0.01, min(PART_SECONDS, points.left())))
        with tempfile.TemporaryDirectory(ignore_cleanup_errors=True) as folder:
            try:
                part(gate, Path(folder), points)
            except (OSError, ValueError, KeyError, IndexError, StopIteration, RuntimeError, subprocess.SubprocessError) as error:
                points.look(name, False, repr(error))
            finally:
                signal.setitimer(signal.ITIMER_REAL, 0)
    return 0 if points.are_right else 1


if __name__ == "__main__":
    sys.exit(main())
