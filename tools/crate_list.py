"""The crates of the repository, as crates.txt has them, and which of them a change touches. For the tools of this folder."""

import re
import subprocess
from pathlib import Path

TOP = Path(__file__).resolve().parents[1]


def crates(text: str | None = None) -> dict[str, list[str]]:
    """Each crate, in the order of crates.txt, and the libraries that its line names."""
    found: dict[str, list[str]] = {}
    for line in (TOP / "crates.txt").read_text().splitlines() if text is None else text.splitlines():
        name, colon, below = line.split("#")[0].partition(":")
        if colon:
            found[name.split()[0]] = below.split()
    return found


def layers(text: str | None = None) -> dict[str, str]:
    """The heading that stands above the first crate of each layer of crates.txt, by that crate."""
    found: dict[str, str] = {}
    heading = ""
    for line in (TOP / "crates.txt").read_text().splitlines() if text is None else text.splitlines():
        if line.startswith("#"):
            heading = line.strip("# ")
        elif heading and ":" in line:
            found[line.split(":")[0].split()[0]] = heading
            heading = ""
    return found


def in_order(every: dict[str, list[str]]) -> list[str]:
    """The crates, each behind those that it stands on."""
    done: list[str] = []

    def put(name: str) -> None:
        if name in every and name not in done:
            for below in every[name]:
                put(below)
            done.append(name)

    for name in every:
        put(name)
    return done


def with_those_above(changed: set[str], every: dict[str, list[str]]) -> list[str]:
    """These crates and all that stand on one of them, each behind those that it stands on."""
    touched: set[str] = set()
    order = in_order(every)
    for name in order:
        if name in changed or touched & set(every[name]):
            touched.add(name)
    return [name for name in order if name in touched]


def git(*words: str) -> str:
    """What git prints, run at the top."""
    return subprocess.run(["git", *words], cwd=TOP, stdout=subprocess.PIPE, text=True, check=True).stdout


def crates_of(files: list[str], every: dict[str, list[str]]) -> set[str]:
    """The crates that these files stand in."""
    found = (re.match(r"crates/([^/]+)/", file) for file in files)
    return {match[1] for match in found if match and match[1] in every}
