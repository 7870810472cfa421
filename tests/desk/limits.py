"""Runs of `gate desk` that give rules limits: money is typed as money, and is told as money."""

import os
import pty
import select
import subprocess
import time
from pathlib import Path

from desks import PASSWORDS, POLICIES, Server, free_port, serving  # beside this file

MEANINGS = "gate: limit GROSS 30000: $30,000.00 or $3.00? write one of them"
SHARES = "gate: SIZE counts shares: its limit is no amount of money"
QUESTION = "gate: GROSS $1,000.00 -> $3.00: under a tenth. Type yes to send it"
NOT_MONEY = "gate: word 3: wanted VALUE, a number below 2^64, or money as $30,000 or 30000.00, at most $922,337,203,685,477.5807"
# What is typed, and the amount that it is.
AMOUNTS = {
    "$30,000": "$30,000.00", "$30,000.00": "$30,000.00", "30000.00": "$30,000.00", "30,000.5": "$30,000.50", "$0.0001": "$0.0001",
    "$1,234,567.8901": "$1,234,567.8901", "0.25": "$0.25", "$007": "$7.00", "$922,337,203,685,477.5807": "$922,337,203,685,477.5807",
}
WRONG = [
    "30,000", "$", "$.50", ".50", "$5.", "$5.00001", "$1,00", "$,100", "$1,,000", "$1000,000", "$1,0000", "$-5", "$5.0.0", "$5,000.0,0",
    "5$", "$$5", "$922,337,203,685,477.5808", "$922337203685477.5808", "$99999999999999999999999999", "0x10.00", "1e3.0", "$1 000",
]


def typed_amounts(server: Server, points, *options: str) -> None:
    """Each amount is sent as it is meant, and what is none is not sent."""
    lines = "".join(f"limit GROSS {word}\n" for word in AMOUNTS)
    told = server.desk("OLGA", given=lines, options=options)
    said = list(AMOUNTS.values())
    kinds = ("", " already")
    wanted = [f"GROSS limit is {amount}: record {{n}} at {{t}}" for amount in said]
    for place in (1, 2):
        wanted[place] = f"gate: denied Q4: GROSS limit is {said[place]}{kinds[1]}"
    points.told("amounts of money, each as it is meant", told, 5, wanted)
    told = server.desk("OLGA", given="".join(f"limit GROSS {word}\n" for word in WRONG), options=options)
    endings = ["gate: word 4: wanted the end of the line" if " " in word else NOT_MONEY for word in WRONG]
    points.told("what is no amount of money", told, 2, [], endings)


def known_by(server: Server, points, source: str, *options: str) -> None:
    """What is told where the kinds of rules are known: nothing is sent of what can't be meant."""
    told = server.desk("OLGA", "limit", "GROSS", "30000", options=options)
    points.told(f"a bare number for a value, known by {source}", told, 2, [], [MEANINGS])
    told = server.desk("OLGA", "limit", "SIZE", "$5.00", options=options)
    points.told(f"money for a number of shares, known by {source}", told, 2, [], [SHARES])
    told = server.desk("OLGA", given="limit SIZE 5\nlimit GROSS 5\nlimit NONE 5\n", options=options)
    wanted = ["SIZE limit is 5: {any}", "gate: denied Q1: the policy has no rule NONE with a limit to set"]
    meanings = "gate: limit GROSS 5: $5.00 or $0.0005? write one of them"
    points.told(f"on standard input, known by {source}", told, 5, wanted, [meanings])


def limits_of_money(gate: str, folder: Path, points) -> None:
    """Limits where nothing is known, where a file is known, and beside the server's page."""
    port = free_port()
    with serving(gate, folder, "sample.toml", "--status-port", str(port)) as server:
        page, file = ("--status-port", str(port)), ("--policy", str(server.policy))
        known_by(server, points, "a file", *file)
        server.desk("OLGA", "limit", "SIZE", "6")
        known_by(server, points, "the page", *page)
        told = server.desk("OLGA", given="limit GROSS $3\nlimit GROSS $30,000\nlimit GROSS 30000.00\n", options=page)
        wanted = ["GROSS $1,000.00 -> $3.00: record {n} at {t}", "GROSS $3.00 -> $30,000.00: record {n} at {t}",
                  "gate: denied Q4: GROSS limit is $30,000.00 already"]
        points.told("the limit in force and the new one; nobody is asked where input is no terminal", told, 5, wanted)
        told = server.desk("OLGA", "limit", "GROSS", "$3.00", options=(*page, "--json"))
        points.look("its line of JSON has ten-thousandths", '"limit":30000,' in "".join(told.out), told)
        told = server.desk("OLGA", "limit", "GROSS", "20000")
        points.told("a bare number goes as it is where no kind is known", told, 0, ["GROSS limit is 20000: {any}"])
        typed_amounts(server, points)
        told = server.desk("OLGA", "limit", "GROSS", "$5", options=("--status-port", str(free_port())))
        points.told("a limit where the page does not answer", told, 1, [], ["gate: the server's page tells nothing: {any}"])
    collar = (POLICIES / "every-kind.toml").read_text()
    rule = next(part for part in collar.split("[[rule]]") if '"collar"' in part).split('name = "')[1].split('"')[0]
    with serving(gate, folder, "every-kind.toml") as server:
        told = server.desk("OLGA", "limit", rule, "$5.00", options=("--policy", str(server.policy)))
        why = f"gate: {rule} counts ten-thousandths of the reference price: its limit is no amount of money"
        points.told("money for a part of the reference price", told, 2, [], [why])


def on_terminal(server: Server, typed: str, *words: str) -> tuple[int, str]:
    """The status of a run at a terminal, and what it shows, where this is typed once it has asked or said anything."""
    inside, outside = pty.openpty()
    run = subprocess.Popen(
        server.call("OLGA", *words), stdin=outside, stdout=outside, stderr=outside, close_fds=True,
        env={**os.environ, "GATE_PASSWORD": PASSWORDS["OLGA"]},
    )
    os.close(outside)
    shown, until, is_typed = b"", time.monotonic() + 10, False
    while time.monotonic() < until:
        if not select.select([inside], [], [], 0.1)[0]:
            continue
        try:
            piece = os.read(inside, 4096)
        except OSError:
            break
        shown += piece
        if b"\n" in shown and not is_typed:
            os.write(inside, typed.encode())
            is_typed = True
    run.kill()
    os.close(inside)
    return run.wait(10), shown.decode().replace("\r\n", "\n")


def questions(gate: str, folder: Path, points) -> None:
    """At a terminal a limit under a tenth of the one before is sent only behind a yes."""
    port = free_port()
    with serving(gate, folder, "sample.toml", "--status-port", str(port)) as server:
        page, file = ("--status-port", str(port)), ("--policy", str(server.policy))
        for source, options in {"page": page, "file": file}.items():
            for typed in ("no\n", "\n", "YES\n", "yes, please\n", "\x04"):
                status, shown = on_terminal(server, typed, *options, "limit", "GROSS", "$3.00")
                is_right = status == 2 and QUESTION in shown and "nothing was sent" in shown and "record" not in shown
                points.look(f"{typed!r} to the question sends nothing, by the {source}", is_right, status, shown)
        status, shown = on_terminal(server, "yes\n", *file, "limit", "GROSS", "$3.00")
        is_right = status == 0 and QUESTION in shown and "GROSS limit is $3.00: record" in shown
        points.look("yes sends it, by the file", is_right, status, shown)
        server.desk("OLGA", "limit", "GROSS", "$1,000.00")
        status, shown = on_terminal(server, "yes\n", *page, "limit", "GROSS", "$3.00")
        is_right = status == 0 and QUESTION in shown and "GROSS $1,000.00 -> $3.00: record" in shown
        points.look("yes sends it, by the page", is_right, status, shown)
        server.desk("OLGA", "limit", "GROSS", "$1,000.00")
        status, shown = on_terminal(server, "", *page, "limit", "GROSS", "$100.00")
        is_right = status == 0 and "yes" not in shown and "GROSS $1,000.00 -> $100.00: record" in shown
        points.look("a tenth asks nothing", is_right, status, shown)
        status, shown = on_terminal(server, "", *page, "limit", "SIZE", "1")
        points.look("nor does a number of shares", status == 0 and "yes" not in shown and "SIZE limit is 1: record" in shown, status, shown)
