#!/usr/bin/env python3
"""The model as a program, called as the gate is: `gate.py script|pipe|policy|check ..` (examples/command-line.md).

Of what the gate says on standard error it says the first line alone.
"""

import sys
from argparse import ArgumentParser, Namespace
from dataclasses import dataclass
from pathlib import Path

import audit
from day import Day
from pipe import run_pipe
from policy import Policy
from policyfile import PolicyFault, read_policy
from script import run_script

SAMPLE = Path(__file__).resolve().parents[2] / "examples" / "policies" / "sample.toml"
POLICY_FAULT, NOT_AS_WANTED = 3, 4


@dataclass(frozen=True)
class Answer:
    """What a run answers: its status, standard output, the first line of standard error, and its audit."""

    status: int
    printed: bytes = b""
    told: str = ""
    audit: bytes | None = None


def answer(command: str, policy_file: bytes, given: bytes, audit_version: int) -> Answer:
    """What a call answers: `given` is the audit to check, or else standard input."""
    try:
        version, policy = read_policy(policy_file)
    except PolicyFault as fault:
        return Answer(POLICY_FAULT, told=f"gate: policy fault {fault.number} {fault.name}")
    match command:
        case "policy":
            return answer_policy(version, policy)
        case "check":
            is_legal, said = audit.check(policy, given)
            return Answer(0 if is_legal else NOT_AS_WANTED, said.encode() + b"\n")
    return answer_run(command, policy, given, audit_version)


def answer_policy(version: int, policy: Policy) -> Answer:
    """How much a policy file holds."""
    counts = f"{len(policy.accounts)} accounts, {len(policy.stocks)} stocks, {len(policy.users)} users"
    return Answer(0, f"policy {version}: {counts}, {len(policy.rules)} rules\n".encode())


def answer_run(command: str, policy: Policy, given: bytes, audit_version: int) -> Answer:
    """What becomes of a script, or what a connection is answered."""
    day = Day.opened(policy)
    if command == "pipe":
        return Answer(0, run_pipe(day, given), audit=audit.write_audit(day, audit_version))
    printed, bad_line = run_script(day, given)
    written = audit.write_audit(day, audit_version)
    if bad_line is None:
        return Answer(0, printed, audit=written)
    return Answer(NOT_AS_WANTED, printed, f"gate: line {bad_line}: bad step", written)


def arguments() -> Namespace:
    """The words of the call."""
    parser = ArgumentParser(description=__doc__)
    commands = parser.add_subparsers(dest="command", required=True)
    for command in ("script", "pipe", "check"):
        words = commands.add_parser(command)
        words.add_argument("--policy", type=Path, default=SAMPLE)
        if command == "check":
            words.add_argument("given", type=Path)
        else:
            words.add_argument("--audit", type=Path)
            words.add_argument("--audit-version", choices=(2, 3), type=int, default=2)
    commands.add_parser("policy").add_argument("policy", type=Path)
    return parser.parse_args()


def main() -> int:
    """Answers the call."""
    words = arguments()
    policy_file = words.policy.read_bytes()
    match words.command:
        case "policy":
            answered = answer("policy", policy_file, b"", 2)
        case "check":
            answered = answer("check", policy_file, words.given.read_bytes(), 2)
        case _:
            answered = answer(words.command, policy_file, sys.stdin.buffer.read(), words.audit_version)
            if answered.audit is not None and words.audit is not None:
                words.audit.write_bytes(answered.audit)
    sys.stdout.buffer.write(answered.printed)
    if answered.told:
        print(answered.told, file=sys.stderr)
    return answered.status


if __name__ == "__main__":
    sys.exit(main())
