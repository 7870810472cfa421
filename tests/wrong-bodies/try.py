#!/usr/bin/env python3
"""Tries wrong bodies: each is a bug in one function, and the function's contract has to refuse it. By hand, of the crates
that a change touches.

A file NAME.edit beside this one is one bug. It has the form of a must-fail edit of the toolchain, with four more lines:

  bug: WORDS           what the program would do
  crate: NAME          the crate of crates/ that the function stands in
  function: PATH       the function, as `rt check --only` takes it
  clause: WORDS        the clause of its contract that is to refuse it
  file: src/FILE.rt    the file of the crate
  old: TEXT            what stands there, on one line, and once in the file
  new: TEXT            what is put in its place; more such pairs may follow

The tree is copied, with what its checks have kept. In the copy each text is replaced, `rt check --only PATH` is run in that
crate and nothing else, and the text is put back. A line is told of each:

  REFUSED       the function is not proved: what the check says of it is shown
  STILL PROVED  its contract lets the bug through, so it is too weak
  NO TRY        the edit does not apply or does not compile, or the check came to no verdict

A bug that is refused only in a function that calls it, or in another file of proofs, is not seen here. Run as

  tests/wrong-bodies/try.py [NAME..]          these, or all; a minute or two each, once the crates have been checked
  tests/wrong-bodies/try.py --changed BASE    those of the crates that changed since this commit
  tests/wrong-bodies/try.py --list            tells what there is, and which does not fit the code any more; tries nothing
  tests/wrong-bodies/try.py --copy FOLDER     in this copy of the tree, which is left as it was; none is made

It wants `rt` on the path. The status is 1 where one is not refused.
"""

import argparse
import re
import shutil
import subprocess
import sys
import tempfile
from collections.abc import Iterator
from contextlib import contextmanager
from dataclasses import dataclass, field
from pathlib import Path

HERE = Path(__file__).resolve().parent
TOP = HERE.parents[1]
COPIED = ("crates", "crates.txt", "HANDLES")
SHOWN = 3


@dataclass
class Bug:
    """A wrong body."""

    name: str
    told: dict[str, str] = field(default_factory=dict)
    pairs: list[tuple[str, str]] = field(default_factory=list)

    def file(self, tree: Path) -> Path:
        """The file that it stands in."""
        return tree / "crates" / self.told["crate"] / self.told["file"]

    def edited(self, text: str) -> str:
        """The file's text with it; raises ValueError where an old text is not there just once."""
        for old, new in self.pairs:
            if text.count(old) != 1:
                raise ValueError(f"`{old.strip()}` stands {text.count(old)} times in {self.told['file']}, and not once")
            text = text.replace(old, new)
        return text


def read(path: Path) -> Bug:
    """The wrong body of a file."""
    bug, old = Bug(path.stem), ""
    for line in path.read_text().splitlines():
        key, _, value = line.partition(": ")
        if key == "old":
            old = value
        elif key == "new" or line == "new:":
            bug.pairs.append((old, value))
        elif key in ("bug", "crate", "function", "clause", "file"):
            bug.told[key] = value
    missing = {"bug", "crate", "function", "clause", "file"} - set(bug.told)
    if missing or not bug.pairs:
        sys.exit(f"{path.name}: no line {', '.join(sorted(missing)) or 'old and new'}")
    return bug


@contextmanager
def tree_at(folder: str | None) -> Iterator[Path]:
    """A copy of the tree: the one that is named, or one that goes with the run."""
    if folder:
        yield Path(folder).resolve()
        return
    with tempfile.TemporaryDirectory(prefix="wrong-bodies-") as made:
        copy = Path(made) / "tree"
        copy.mkdir()
        for part in COPIED:
            subprocess.run(["cp", "-a", "--reflink=auto", str(TOP / part), str(copy / part)], check=True)
        yield copy


def verdict(bug: Bug, status: int, said: str) -> tuple[str, list[str]]:
    """What a check has come to, and the lines that say why."""
    whole = f"{bug.told['crate']}::{bug.told['function']}"
    found = re.search(rf"(?m)^fn {re.escape(whole)}: (.*)$", said)
    errors = re.findall(r"(?m)^(?:\./)?(?:src|proofs)/\S+: error.*$|^note: \S+:\d+:\d+: .*$", said)
    if re.search(r"\berror\[[\w-]+\]", said):
        return "NO TRY", said.strip().splitlines()[:SHOWN]
    if found and found[1].startswith("proved") and status == 0:
        return "STILL PROVED", []
    if status == 1 and (found and re.match("not proved|no proof", found[1]) or errors):
        return "REFUSED", errors[:SHOWN]
    return "NO TRY", said.strip().splitlines()[-SHOWN:]


def tried(bug: Bug, tree: Path) -> tuple[str, list[str]]:
    """What a wrong body comes to in the copy, whose file is put back."""
    file = bug.file(tree)
    try:
        text = file.read_text()
        wrong = bug.edited(text)
    except (ValueError, OSError) as fault:
        return "NO TRY", [str(fault)]
    try:
        file.write_text(wrong)
        run = subprocess.run(
            ["rt", "check", "--only", bug.told["function"]], cwd=tree / "crates" / bug.told["crate"],
            stdin=subprocess.DEVNULL, stdout=subprocess.PIPE, stderr=subprocess.STDOUT, text=True, check=False,
        )
        return verdict(bug, run.returncode, run.stdout)
    finally:
        file.write_text(text)


def changed_crates(base: str) -> set[str]:
    """The crates that changed since this commit."""
    run = subprocess.run([TOP / "tools" / "changed", base, "--direct"], stdout=subprocess.PIPE, text=True, check=True)
    return set(run.stdout.split())


def told_of(bugs: list[Bug]) -> int:
    """Tells what there is, and which does not fit the code any more. Answers the status."""
    status = 0
    for bug in bugs:
        print(f"{bug.name}: {bug.told['bug']}: {bug.told['crate']}::{bug.told['function']}, {bug.told['clause']}")
        try:
            bug.edited(bug.file(TOP).read_text())
        except (ValueError, OSError) as fault:
            print(f"    does not fit: {fault}")
            status = 1
    return status


def main() -> int:
    """Tries them. Answers the status."""
    parser = argparse.ArgumentParser(description=__doc__, formatter_class=argparse.RawDescriptionHelpFormatter)
    parser.add_argument("names", nargs="*", help="wrong bodies by name (all)")
    parser.add_argument("--changed", metavar="BASE", help="those of the crates that changed since this commit")
    parser.add_argument("--list", action="store_true", help="tells what there is")
    parser.add_argument("--copy", help="a copy of the tree to try them in")
    asked = parser.parse_args()
    every = {path.stem: read(path) for path in sorted(HERE.glob("*.edit"))}
    unknown = [name for name in asked.names if name not in every]
    if unknown:
        sys.exit(f"no such wrong body: {', '.join(unknown)}")
    bugs = [every[name] for name in asked.names or every]
    if asked.changed:
        touched = changed_crates(asked.changed)
        bugs = [bug for bug in bugs if bug.told["crate"] in touched]
    if asked.list:
        return told_of(bugs)
    if not shutil.which("rt"):
        sys.exit("rt is not on the path")
    refused = 0
    with tree_at(asked.copy) as tree:
        for bug in bugs:
            answer, why = tried(bug, tree)
            refused += answer == "REFUSED"
            print(f"{answer}: {bug.name} ({bug.told['crate']}::{bug.told['function']}): {bug.told['bug']}")
            print(f"    to be refused by: {bug.told['clause']}")
            for line in why:
                print(f"    {line}")
            sys.stdout.flush()
    print(f"{refused} of {len(bugs)} refused")
    return 0 if refused == len(bugs) else 1


if __name__ == "__main__":
    sys.exit(main())
