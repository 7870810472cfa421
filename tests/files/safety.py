#!/usr/bin/env python3
"""What the program does with the files that it is given, and with those that it is not to touch. No fault shows
a password.

A server whose standard streams are closed keeps a legal journal beside a peer who sends garbage, and a second start goes
on with it. Two options that name one file are refused, whatever names it has, before anything is written. An audit takes
its place when it is whole: until then what stood there stays, and nobody else gets it. It is written where memory has
ended. What is no regular file or is too long is refused before it is read. A journal that is made shorter or longer, renamed or
removed under a running server ends it, and the reason stands in the place of its audit; so does one that has reached
the length that a file may have. No fault shows a password, or a long value whole. Run as

  tests/files/safety.py [GATE]

GATE: the built program; where none is named, crates/gate/out/gate of this repository.
"""

import os
import re
import resource
import shutil
import signal
import socket
import subprocess
import sys
import tempfile
import time
from collections.abc import Callable, Iterator
from contextlib import contextmanager
from pathlib import Path

TOP = Path(__file__).resolve().parents[2]
GATE = TOP / "crates" / "gate" / "out" / "gate"
sys.dont_write_bytecode = True
sys.path.insert(0, str(TOP / "tests" / "refusals"))

from refusing import shim  # noqa: E402

PATIENCE_SECONDS = 10
RECORD = 128
LONGEST_POLICY = 2**24
LONGEST_RECORDS = RECORD * (1 + 16_777_537)
SAMPLE = (TOP / "examples" / "policies" / "sample.toml").read_text()
LOGIN = b"\x00\x2fL" + b"ALICE apple     " + b" " * 10 + b"%20d" % 1
LOGOUT = b"\x00\x01O"
GARBAGE = b"\x00\x00" + b"no packets" * 5
SCRIPT = b"""1 ALICE login apple 1
2 ALICE enter T1 B 100 TEST 100000 99999
3 match
4 ALICE cancel T1 0
5 ALICE logout
"""
STEPS = 5
CHANGED = b"another program has made the file longer or shorter"
MOVED = b"another file has its name, or none"
TOO_LONG = b"it would be longer than a file may be (ulimit -f)"


def order(token: bytes) -> bytes:
    """Enters an order to buy 100 TEST."""
    return (
        b"\x00\x32UO" + token.ljust(14) + b"B" + (100).to_bytes(4, "big") + b"TEST    "
        + (10_000).to_bytes(4, "big") + (99_999).to_bytes(4, "big") + b"    YAN" + bytes(4) + b"NN"
    )


def free_port() -> int:
    """A port that nobody listens on."""
    with socket.create_server(("127.0.0.1", 0)) as line:
        return line.getsockname()[1]


def connected(port: int) -> socket.socket:
    """A connection, as soon as somebody listens."""
    end = time.monotonic() + PATIENCE_SECONDS
    while True:
        try:
            return socket.create_connection(("127.0.0.1", port), timeout=PATIENCE_SECONDS)
        except ConnectionRefusedError:
            if time.monotonic() > end:
                raise
            time.sleep(0.02)


def heard(line: socket.socket, wanted: bytes) -> bool:
    """Whether a report of this kind comes."""
    held = b""
    while True:
        while len(held) >= 3 and len(held) >= (size := 2 + int.from_bytes(held[:2], "big")):
            packet, held = held[2:size], held[size:]
            if packet.startswith(wanted):
                return True
        piece = line.recv(4096)
        if not piece:
            return False
        held += piece


def trade(port: int, token: bytes) -> bool:
    """Whether ALICE logs in, has an order accepted, and logs out."""
    with connected(port) as line:
        line.sendall(LOGIN + order(token))
        is_accepted = heard(line, b"SA")
        line.sendall(LOGOUT)
        while line.recv(4096):
            pass
    return is_accepted


class Gate:
    """The program, in a folder of its own."""

    def __init__(self, gate: str, folder: str) -> None:
        self.gate = os.path.abspath(gate)
        self.folder = Path(folder)

    def run(self, *words: str, given: bytes = b"") -> subprocess.CompletedProcess:
        """Runs it."""
        return subprocess.run(
            [self.gate, *words], input=given, capture_output=True, timeout=PATIENCE_SECONDS, cwd=self.folder, check=False
        )

    def is_refused(self, status: int, first: str, second: str, *words: str, given: bytes = SCRIPT) -> bool:
        """Whether it ends with this status and these lines on standard error, and prints nothing."""
        done = self.run(*words, given=given)
        lines = done.stderr.decode().splitlines()
        return (done.returncode, done.stdout, lines) == (status, b"", [first] + [second] * (second != ""))

    def count(self, name: str) -> int | None:
        """How many records an audit or a journal has; None where it is not that of a legal day."""
        told = re.fullmatch(rb"legal (\d+)\n", self.run("check", name).stdout)
        return int(told[1]) if told else None

    @contextmanager
    def server(self, *words: str) -> Iterator[tuple[subprocess.Popen, int]]:
        """A server that listens."""
        port = free_port()
        with subprocess.Popen(
            [self.gate, "serve", "--port", str(port), *words], cwd=self.folder,
            stdin=subprocess.PIPE, stdout=subprocess.PIPE, stderr=subprocess.PIPE,
        ) as server:
            try:
                server.stdout.readline()
                yield server, port
            finally:
                server.kill()

    def put(self, name: str, data: bytes) -> Path:
        """A file with these bytes."""
        path = self.folder / name
        path.write_bytes(data)
        return path

    def bytes_of(self, name: str) -> bytes | None:
        """What a file has; None where it is not there."""
        path = self.folder / name
        return path.read_bytes() if path.exists() else None


def keeps_journal_without(gate: Gate, closing: str) -> bool:
    """Whether a server with such a closed stream keeps a legal journal beside garbage, and a second start goes on."""
    counts = []
    for token in (b"A1", b"A2"):
        port = free_port()
        words = [gate.gate, "serve", "--port", str(port), "--connections", "2", "--journal", "J"]
        with subprocess.Popen(
            ["bash", "-c", f'exec "$@" {closing}', "bash", *words], cwd=gate.folder,
            stdin=subprocess.DEVNULL, stdout=subprocess.DEVNULL, stderr=subprocess.DEVNULL,
        ) as server:
            with connected(port) as line:
                line.sendall(GARBAGE)
                while line.recv(4096):
                    pass
            if not trade(port, token) or server.wait(PATIENCE_SECONDS) != 0:
                return False
        counts.append(gate.count("J"))
    return None not in counts and 4 <= counts[0] and counts[0] + 4 <= counts[1]


def refuses_one_file(gate: Gate) -> bool:
    """Whether two options that name one file are refused, and the file is as it was."""
    policy = gate.put("p.toml", SAMPLE.encode())
    os.link(policy, gate.folder / "hard")
    os.symlink("p.toml", gate.folder / "soft")
    os.symlink("new", gate.folder / "dangling")
    with gate.server("--connections", "1", "--journal", "J") as (server, port):
        trade(port, b"A1")
        server.wait(PATIENCE_SECONDS)
    kept = gate.bytes_of("J")
    os.link(gate.folder / "J", gate.folder / "J2")
    port = str(free_port())
    calls = [
        ("policy", "audit", [command, "--policy", "p.toml", "--audit", name])
        for command in ("script", "pipe") for name in ("p.toml", "./p.toml", "hard", "soft")
    ]
    serve = ["serve", "--port", port]
    calls += [
        ("policy", "journal", [*serve, "--policy", "p.toml", "--journal", "hard"]),
        ("policy", "audit", [*serve, "--policy", "p.toml", "--journal", "other", "--audit", "soft"]),
        ("journal", "audit", [*serve, "--journal", "J", "--audit", "J"]),
        ("journal", "audit", [*serve, "--journal", "J", "--audit", "J2"]),
        ("journal", "audit", [*serve, "--journal", "new", "--audit", "./new"]),
        ("journal", "audit", [*serve, "--journal", "new", "--audit", "dangling"]),
        ("journal", "audit", [*serve, "--journal", "K.tmp", "--audit", "K"]),
    ]
    are_refused = [
        gate.is_refused(2, f"gate: --{one} and --{other} are one file", "", *words) for one, other, words in calls
    ]
    are_kept = policy.read_text() == SAMPLE and gate.bytes_of("J") == kept and gate.bytes_of("new") == b""
    return all(are_refused) and are_kept and gate.bytes_of("K") is None


def refuses_journal_of_another(gate: Gate) -> bool:
    """Whether an audit is refused into the journal of a server that runs, which goes on."""
    with gate.server("--connections", "2", "--journal", "J") as (server, port):
        is_right = trade(port, b"A1")
        before = gate.bytes_of("J")
        is_right &= gate.is_refused(1, "gate: audit in use", "", "script", "--audit", "J")
        # the last records may be written behind the end of the connection
        is_right &= gate.bytes_of("J").startswith(before) and gate.bytes_of("J.tmp") is None
        is_right &= trade(port, b"A2") and server.wait(PATIENCE_SECONDS) == 0
    return is_right and gate.count("J") == 8


def tells_audit_early(gate: Gate) -> bool:
    """Whether an audit that can't be written is told before anything is run or listened on."""
    (gate.folder / "folder").mkdir()
    absent, folder = "No such file or directory (os error 2)", "Is a directory (os error 21)"
    serve = ["serve", "--port", str(free_port())]
    return all(
        gate.is_refused(1, "gate: write failed", f"{name}: {why}", *words, "--audit", name)
        for name, why in (("no/such/audit", absent), ("", absent), ("folder", folder))
        for words in (["script"], ["pipe"], serve, [*serve, "--journal", "J"])
    )


def puts_audit_last(gate: Gate) -> bool:
    """Whether what stands in an audit's place stays until the audit is whole, locked; a killed server leaves it."""
    old = b"what stood there"
    os.chmod(gate.put("A", old), 0o600)
    with gate.server("--connections", "1", "--audit", "A") as (server, port):
        is_right = gate.is_refused(1, "gate: audit in use", "", "script", "--audit", "A")
        is_right &= gate.bytes_of("A") == old
        is_right &= trade(port, b"A1") and server.wait(PATIENCE_SECONDS) == 0
    is_right &= gate.count("A") == 4 and gate.bytes_of("A.tmp") is None
    is_right &= (gate.folder / "A").stat().st_mode & 0o777 == 0o600
    os.symlink("nowhere", gate.folder / "D.tmp")
    odd = "D: the name with .tmp behind it is not a regular file's"
    is_right &= gate.is_refused(1, "gate: write failed", odd, "script", "--audit", "D")
    os.unlink(gate.folder / "D.tmp")
    gate.put("B", old)
    with gate.server("--connections", "1", "--audit", "B") as (server, port):
        server.send_signal(signal.SIGKILL)
        server.wait(PATIENCE_SECONDS)
    is_right &= gate.bytes_of("B") == old
    is_right &= gate.run("script", "--audit", "B", given=SCRIPT).returncode == 0 and gate.count("B") == STEPS
    with socket.create_server(("127.0.0.1", 0)) as taken:
        port = str(taken.getsockname()[1])
        is_right &= gate.run("serve", "--port", port, "--audit", "C").stderr.startswith(b"gate: listen failed\n")
    return is_right and not list(gate.folder.glob("C*")) and not list(gate.folder.glob("*.tmp"))


def writes_through_devices(gate: Gate) -> bool:
    """Whether an audit goes to what is no regular file as it stands, and behind a symbolic link."""
    plain = gate.run("script", "--audit", "A", given=SCRIPT)
    audit = gate.bytes_of("A")
    is_right = plain.returncode == 0 and gate.count("A") == STEPS
    is_right &= gate.run("script", "--audit", "/dev/stdout", given=SCRIPT).stdout == plain.stdout + audit
    null = gate.run("script", "--audit", "/dev/null", given=SCRIPT)
    is_right &= (null.returncode, null.stdout, null.stderr) == (0, plain.stdout, b"")
    full = gate.run("script", "--audit", "/dev/full", given=SCRIPT)
    is_right &= (full.returncode, full.stdout) == (1, plain.stdout)
    is_right &= full.stderr == b"gate: write failed\n/dev/full: No space left on device (os error 28)\n"
    os.mkfifo(gate.folder / "fifo")
    with subprocess.Popen(["cat", "fifo"], cwd=gate.folder, stdout=subprocess.PIPE) as reader:
        is_right &= gate.run("script", "--audit", "fifo", given=SCRIPT).returncode == 0
        is_right &= reader.communicate(timeout=PATIENCE_SECONDS)[0] == audit
    gate.put("target", audit * 2)
    os.symlink("target", gate.folder / "link")
    is_right &= gate.run("script", "--audit", "link", given=SCRIPT).returncode == 0
    return is_right and gate.bytes_of("target") == audit and (gate.folder / "link").is_symlink()


def writes_audit_without_memory(gate: Gate) -> bool:
    """Whether an audit has what was done where all memory is refused from some allocation on."""
    policy = str(gate.put("p.toml", SAMPLE.encode()))
    path = gate.folder / "A"
    words = [gate.gate, "script", "--policy", policy, "--audit", str(path)]
    with shim() as refusing:
        allocations = refusing.run(words, SCRIPT).allocations
        begun = 0
        for call in range(1, allocations + 1, max(1, allocations // 120)):
            path.unlink(missing_ok=True)
            run = refusing.run_from(words, SCRIPT, call)
            count = gate.count("A") if path.exists() else None
            done = run.printed.count(b"\n")
            begun += count is not None
            if run.status == 1 and run.said.startswith(b"gate: out of memory\n") and count is None and done == 0:
                continue
            if count is None or count < done or (gate.folder / "A.tmp").exists():
                print(f"refused from {call}: status {run.status}, {done} steps told, audit of {count}")
                return False
    return begun > 0


def refuses_odd_files(gate: Gate) -> bool:
    """Whether what is no regular file, or is too long, is refused before it is read."""
    os.mkfifo(gate.folder / "fifo")
    for name, size in (("policy", LONGEST_POLICY + 1), ("records", LONGEST_RECORDS + 1)):
        gate.put(name, b"")
        os.truncate(gate.folder / name, size)
    serve = ["serve", "--port", str(free_port())]
    regular = "not a regular file"
    policy = f"longer than a policy may be, {LONGEST_POLICY} bytes"
    records = f"longer than a day's records can be, {LONGEST_RECORDS} bytes"
    calls = [
        (name, regular, words)
        for name in ("/dev/full", "/dev/zero", "fifo", ".")
        for words in (
            ["policy"], ["migrate"], ["check"], ["show"], ["script", "--policy"], ["pipe", "--policy"],
            [*serve, "--policy"], [*serve, "--journal"],
        )
    ]
    calls += [("policy", policy, words) for words in (["policy"], ["migrate"], ["script", "--policy"])]
    calls += [("records", records, words) for words in (["check"], ["show"], [*serve, "--journal"])]
    are_refused = [
        gate.is_refused(1, "gate: read failed", f"{name}: {why}", *words, name) for name, why, words in calls
    ]
    os.truncate(gate.put("fits", SAMPLE.encode() + b"#"), LONGEST_POLICY)
    fits = gate.run("policy", "fits").stderr
    return all(are_refused) and fits.startswith(b"gate: policy fault 1 NotToml\n")


def syncs_folder(gate: Gate) -> bool:
    """Whether the folder of a new journal is forced to the disk before the server listens."""
    if not shutil.which("strace"):
        print("no strace: whether the folder is forced to the disk is not looked at")
        return True
    port = str(free_port())
    words = ["strace", "-f", "-y", "-e", "trace=fsync,fdatasync,listen", "-o", "calls", gate.gate]
    words += ["serve", "--port", port, "--connections", "1", "--journal", "J"]
    seen = []
    for more in ([], ["--journal-sync"]):
        with subprocess.Popen([*words, *more], cwd=gate.folder, stdout=subprocess.DEVNULL) as server:
            connected(int(port)).close()
            server.wait(PATIENCE_SECONDS)
        before = (gate.folder / "calls").read_text().partition("listen(")[0]
        seen.append(bool(re.search(r"f(data)?sync\(\d+<%s>\)" % re.escape(str(gate.folder)), before)))
    return seen == [False, True]


def notices_change(gate: Gate, change: Callable[[Path], None], why: bytes = CHANGED) -> bool:
    """Whether a server ends that finds its journal changed, and says why, also in the place of its audit."""
    told = b"gate: write failed\nJ: " + why + b"\n"
    with gate.server("--connections", "1", "--journal", "J", "--audit", "A") as (server, port):
        with connected(port) as line:
            line.sendall(LOGIN + order(b"A1"))
            is_right = heard(line, b"SA")
            # a matching step is written behind the order
            time.sleep(0.3)
            change(gate.folder / "J")
            line.sendall(order(b"A2"))
            is_right &= not heard(line, b"SA")
        is_right &= server.wait(PATIENCE_SECONDS) == 1
        is_right &= server.stderr.read().endswith(told)
    is_right &= gate.bytes_of("A") == told and gate.run("check", "A").returncode != 0
    return is_right and not list(gate.folder.glob("*.tmp"))


def notices_change_at_end(gate: Gate) -> bool:
    """Whether a server that has nothing more to write finds at its end that its journal was changed."""
    with gate.server("--connections", "2", "--journal", "J") as (server, port):
        is_right = trade(port, b"A1")
        # the last records are written behind the end of the connection
        time.sleep(0.3)
        cut_last(gate.folder / "J")
        connected(port).close()
        is_right &= server.wait(PATIENCE_SECONDS) == 1
        return is_right and server.stderr.read().endswith(b"gate: write failed\nJ: " + CHANGED + b"\n")


def cut_last(journal: Path) -> None:
    """Makes a journal a record shorter."""
    os.truncate(journal, journal.stat().st_size - RECORD)


def add_byte(journal: Path) -> None:
    """Makes a journal a byte longer."""
    with journal.open("ab") as file:
        file.write(b"x")


def rename(journal: Path) -> None:
    """Gives a journal another name, as who rotates files does."""
    journal.rename(journal.with_name("J.1"))


def remove(journal: Path) -> None:
    """Takes a journal's name away."""
    journal.unlink()


def copy_over(journal: Path) -> None:
    """Puts a copy of a journal in its place."""
    shutil.copy(journal, journal.with_name("copy"))
    journal.with_name("copy").rename(journal)


def goes_on_behind_limit(gate: Gate) -> bool:
    """Whether a server whose journal has reached the length that a file may have ends with its reason, and not by a signal, and
    the next one goes on with all that was told; and an audit that would be too long is told."""
    most, port, accepted = RECORD * 5 + 60, free_port(), 0

    def limit() -> None:
        """No file may be longer, in the program that is started."""
        resource.setrlimit(resource.RLIMIT_FSIZE, (most, most))

    words = [gate.gate, "serve", "--port", str(port), "--connections", "1", "--journal", "J"]
    with subprocess.Popen(
        words, cwd=gate.folder, preexec_fn=limit, stdout=subprocess.PIPE, stderr=subprocess.PIPE
    ) as server:
        with connected(port) as line:
            line.sendall(LOGIN)
            for number in range(8):
                try:
                    line.sendall(order(b"A%d" % number))
                    accepted += heard(line, b"SA")
                except ConnectionError:
                    break
        status, told = server.wait(PATIENCE_SECONDS), server.stderr.read()
    is_right = status == 1 and 1 <= accepted < 8 and told.endswith(b"gate: write failed\nJ: " + TOO_LONG + b"\n")
    is_right &= b"journal: a file may have %d bytes (ulimit -f), so this one has room for 4 records\n" % most in told
    kept = gate.count("J")
    with gate.server("--connections", "1", "--journal", "J") as (server, port):
        is_right &= trade(port, b"B1") and server.wait(PATIENCE_SECONDS) == 0
    is_right &= kept is not None and accepted < kept <= 4 and kept + 4 <= gate.count("J")
    audited = subprocess.run(
        [gate.gate, "script", "--audit", "A"], input=SCRIPT, capture_output=True, cwd=gate.folder, preexec_fn=limit, check=False
    )
    is_right &= (audited.returncode, audited.stderr) == (1, b"gate: write failed\nA: " + TOO_LONG + b"\n")
    return is_right and gate.bytes_of("A") is None


def hides_values(gate: Gate) -> bool:
    """Whether no fault shows a password, or a value of more than 80 characters whole."""
    long = "x" * 300
    secret = "my secret"
    wrong = {
        "password": SAMPLE.replace('password = "apple"', f'password = "{secret}"'),
        "unquoted password": SAMPLE.replace('password = "apple"', f"password = {secret}"),
        "password in line": SAMPLE.partition("[[user]]")[0] + f'user = [1, {{ name = "A", password = "{secret}" }}]\n',
        "name": SAMPLE.replace('name = "ALICE"', f'name = "{long}"'),
        "key": SAMPLE.replace("[[user]]", f"{long} = 1\n[[user]]", 1),
        "value": SAMPLE.replace('session = "GATE01"', f'session = "{long}"'),
    }
    is_right = True
    for name, text in wrong.items():
        gate.put("p.toml", text.encode())
        told = gate.run("policy", "p.toml")
        is_right &= text != SAMPLE and told.returncode == 3 and b"secret" not in told.stderr and b"x" * 81 not in told.stderr
    gate.put("p.toml", wrong["password"].encode())
    is_right &= b'key password = ".."\n' in gate.run("policy", "p.toml").stderr
    gate.put("p.toml", wrong["value"].encode())
    is_right &= b"x" * 60 in gate.run("policy", "p.toml").stderr
    usages = [[long], ["serve", "--port", long], ["serve", f"--{long}"], ["policy", "a", long], ["check", f"a/{long}"]]
    for words in usages:
        told = gate.run(*words)
        is_right &= told.returncode in (1, 2) and b"x" * 60 in told.stderr and b"x" * 81 not in told.stderr
    line = f"1 ALICE login {secret.replace(' ', '')}toolong 1\n2 {long}\n".encode()
    told = gate.run("script", given=line).stderr
    return is_right and told.startswith(b"gate: line 1: bad step\n") and b"secret" not in told and b"x" * 81 not in told


def main() -> int:
    """Runs them all. Answers the status: 1 where one does something else."""
    runs: dict[str, Callable[[Gate], bool]] = {
        f"standard streams: {closing}": lambda gate, closing=closing: keeps_journal_without(gate, closing)
        for closing in ("2>&-", ">&-", "<&-", "<&- >&- 2>&-")
    }
    runs["one file under two options"] = refuses_one_file
    runs["the journal of another server as an audit"] = refuses_journal_of_another
    runs["an audit that can't be written"] = tells_audit_early
    runs["an audit takes its place when it is whole"] = puts_audit_last
    runs["an audit goes through devices and links"] = writes_through_devices
    runs["an audit is written without memory"] = writes_audit_without_memory
    runs["odd and long files"] = refuses_odd_files
    runs["the folder of a journal"] = syncs_folder
    runs["a journal that is cut"] = lambda gate: notices_change(gate, cut_last)
    runs["a journal that grows"] = lambda gate: notices_change(gate, add_byte)
    runs["a journal that is renamed"] = lambda gate: notices_change(gate, rename, MOVED)
    runs["a journal that is removed"] = lambda gate: notices_change(gate, remove, MOVED)
    runs["a journal with a copy in its place"] = lambda gate: notices_change(gate, copy_over, MOVED)
    runs["a journal that is cut before the end"] = notices_change_at_end
    runs["a journal as long as a file may be"] = goes_on_behind_limit
    runs["passwords and long values"] = hides_values
    are_right = True
    for what, run in runs.items():
        signal.alarm(6 * PATIENCE_SECONDS)
        with tempfile.TemporaryDirectory() as folder:
            is_right = run(Gate(sys.argv[1] if len(sys.argv) > 1 else str(GATE), folder))
        are_right &= is_right
        print(f"{what}: {'as wanted' if is_right else 'NOT AS WANTED'}", flush=True)
    return 0 if are_right else 1


if __name__ == "__main__":
    sys.exit(main())
