"""Runs of the program and of the model, and where their answers differ."""

import os
import subprocess
from dataclasses import dataclass
from pathlib import Path

import gate
from gate import Answer

PATIENCE_SECONDS = 60
COMMANDS = {"scripts": "script", "pipes": "pipe", "policy-files": "policy", "audits": "check"}


@dataclass(frozen=True)
class Run:
    """A call: its kind, the policy file, and the script, the packets or the audit that is given."""

    kind: str
    policy: bytes
    given: bytes
    audit_version: int = 2

    @property
    def command(self) -> str:
        """The command of the program."""
        return COMMANDS[self.kind]


def ask_model(run: Run) -> Answer:
    """What the model answers."""
    return gate.answer(run.command, run.policy, run.given, run.audit_version)


def ask_program(program: str, run: Run, folder: Path) -> Answer:
    """What the program answers, in a folder of its own files."""
    policy, given, written = folder / "day.toml", folder / "given.audit", folder / "written.audit"
    policy.write_bytes(run.policy)
    written.unlink(missing_ok=True)
    call = [program, run.command]
    match run.command:
        case "policy":
            call += [str(policy)]
        case "check":
            given.write_bytes(run.given)
            call += ["--policy", str(policy), str(given)]
        case _:
            version = ["--audit-version", str(run.audit_version)] if run.audit_version != 2 else []
            call += ["--policy", str(policy), "--audit", str(written), *version]
    given_in = run.given if run.command in ("script", "pipe") else b""
    try:
        done = subprocess.run(call, input=given_in, capture_output=True, timeout=PATIENCE_SECONDS, check=False)
    except subprocess.TimeoutExpired:
        return Answer(-1, told=f"no end within {PATIENCE_SECONDS} seconds")
    told = done.stderr.partition(b"\n")[0].decode(errors="backslashreplace")
    return Answer(done.returncode, done.stdout, told, written.read_bytes() if written.exists() else None)


def differences(program: Answer, model: Answer) -> list[str]:
    """Where two answers differ, a line each."""
    told = []
    if program.status != model.status:
        told.append(f"status: the program's {program.status}, the model's {model.status}")
    if program.told != model.told:
        told.append(f"standard error: the program's {program.told!r}, the model's {model.told!r}")
    if program.printed != model.printed:
        told.append("standard output: as shown above")
    if program.audit != model.audit:
        told.append(f"audit: {first_difference(program.audit or b'', model.audit or b'')}")
    return told


def first_difference(program: bytes, model: bytes) -> str:
    """Where bytes differ first, in lines of 128 bytes as the records of an audit have."""
    place = len(os.path.commonprefix([program, model])) // 128 * 128
    heads = [content[place:place + 128].hex() or "nothing" for content in (program, model)]
    return f"from byte {place} on the program has\n  {heads[0]}\nand the model\n  {heads[1]}"
