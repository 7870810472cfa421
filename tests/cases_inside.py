"""Parts of cases that want the inside: they run in the program `gate_cases`, on the gate's own libraries.

- `-- pipe-reads READ WRITE`: the bytes of a connection, in hex, which is run again and again, each time on a gate of its own:
  the reader fails at once, after one read, after two, until nothing fails. Reads give at most READ bytes, writes take at most
  WRITE. `-- pipe-writes READ WRITE`: so too, with a writer that fails. It answers what was sent where nothing failed, in hex,
  and then how each run ended, with how many bytes of that answer written. Runs in a row that end alike are told once:
  `writes 4 to 6: 10 bytes`, or, where each wrote a byte more than the one before it, `writes 4 to 6: 10 to 12 bytes`.
- `-- pipe-endless READS`: the bytes of a connection, in hex, which it is sent again and again. It is read so often at most. It
  answers the bytes that it was sent, in hex, how it ended, and how often it was read: once for reads that give all of the
  bytes, and again, where that is another answer, for reads that give one.
- `-- play`: a scenario of `gate_cases`. It may have two more steps: `NAME repeats COUNT HEX`: a peer sends these bytes so often,
  and nothing is waited for; `######` is the number of each, from 000 on; `both NAME NAME HEX`: two peers give them at once. It
  answers the packets that each peer was sent, in hex, a line each, twelve of them at
  most, and why he was cut off, if he was; the records of the day, as `gate show` shows them; and what `gate check` tells of its
  audit. `-- play-races`: so too, but for the records, which may come in more than one order. Where two peers send at once
  their packets are told sorted, without names. `-- play-kept`, `-- play-kept SIZE READS ROOM`: the journal's device takes so
  many bytes at a time, and so many in all. It answers how many reports each peer was sent, how many the user of his name is
  owed, whether these are the same in order, and whether the journal is the audit; of a journal that failed, whether all that
  was sent is of its day.
- `-- calls pulls`, `-- calls meeting`, `-- calls again`, `-- calls three`: calls of `gate_cases`, and what `gate check` tells of
  their audit. Of three callers at once it answers how many requests are on record on their lines, in order.
"""

import re
import subprocess
from collections.abc import Callable, Iterator
from dataclasses import dataclass
from itertools import groupby

PATIENCE_SECONDS = 60
NO_LIMIT = "-"
MOST_RUNS = 1_000
RUNS_AT_ONCE = 100
MOST_PACKETS = 12
HEX_LINE = re.compile(r"(?m)^(?:[0-9a-f]{2})+\n")
LEFT_OUT = re.compile(r"(?m)^(?:(?:[0-9a-f]{2})+|on: .*|killed: .*)\n")
# The type of a packet that carries a report.
REPORT = "53"


def run_parts(program: str, parts: list[str]) -> list[str]:
    """What comes of parts, each run as a case of its own."""
    text = "".join(f"== {number}\n-- {part}\n" for number, part in enumerate(parts))
    run = subprocess.run([program], input=text.encode(), capture_output=True, timeout=PATIENCE_SECONDS, check=True)
    return re.split(r"(?m)^== \d+\n", run.stdout.decode())[1:]


def told_range(first: int, last: int) -> str:
    """From one number to another, or one number."""
    return str(first) if first == last else f"{first} to {last}"


@dataclass(frozen=True)
class Trial:
    """A run of a connection that is run again and again: which it is, how many bytes it was sent, and what is told of it."""

    count: int
    size: int
    told: str


def trial(count: int, sent: str, told: str, whole: str) -> Trial:
    """A run that was sent these bytes, in hex, of the whole answer."""
    is_front = whole.startswith(sent)
    return Trial(count, len(sent) // 2, told if is_front else told + "no front of the whole answer\n")


def continues(group: list[Trial], trial: Trial) -> bool:
    """Whether a run ends like those before it: with as many bytes, or each with a byte more than the one before."""
    first, last = group[0], group[-1]
    is_level = first.size == last.size == trial.size
    is_rising = all(each.size - first.size == each.count - first.count for each in (last, trial))
    return trial.told == first.told and (is_level or is_rising)


def told_of_trials(what: str, trials: Iterator[Trial]) -> str:
    """What is told of runs; those in a row that end alike are told once."""
    groups: list[list[Trial]] = []
    for each in trials:
        if groups and continues(groups[-1], each):
            groups[-1].append(each)
        else:
            groups.append([each])
    return "".join(
        f"{what} {told_range(group[0].count, group[-1].count)}: {told_range(group[0].size, group[-1].size)} bytes\n"
        + group[0].told
        for group in groups
    )


def sent_and_told(answer: str) -> tuple[str, str]:
    """The bytes that a connection was sent, in hex, and its verdicts and how it ended."""
    sent = HEX_LINE.search(answer)
    return sent[0].strip() if sent else "", LEFT_OUT.sub("", answer)


def failing(program: str, what: str, words: str, text: str) -> str:
    """Runs a connection whose reads or writes fail, one later each time, until none does."""
    read_size, write_size = words.split()

    def part(count: int | str) -> str:
        reads, writes = (count, NO_LIMIT) if what == "reads" else (NO_LIMIT, count)
        return f"pipe {read_size} {reads} {NO_LIMIT} 0 {write_size} {writes}\n{text}"

    whole, _ = sent_and_told(run_parts(program, [part(NO_LIMIT)])[0])

    def trials() -> Iterator[Trial]:
        for count in range(MOST_RUNS):
            if count % RUNS_AT_ONCE == 0:
                answers = run_parts(program, [part(count + more) for more in range(RUNS_AT_ONCE)])
            sent, told = sent_and_told(answers[count % RUNS_AT_ONCE])
            yield trial(count, sent, told, whole)
            if told.endswith("pipe: done\n"):
                return

    return f"{whole}\n" + told_of_trials(what, trials())


def endless(program: str, words: str, text: str) -> str:
    """Runs a connection that is sent bytes again and again, in pieces of all of them, and of one."""
    most, once = int(words), text.strip()

    def told(size: int) -> str:
        """How it ended with as few reads as it takes."""
        for reads in range(most + 1):
            part = f"pipe {size} {reads} {NO_LIMIT} 0 {NO_LIMIT} {NO_LIMIT} {most}\n{once * (most + 1)}"
            sent, end = sent_and_told(run_parts(program, [part])[0])
            if "read failed" not in end:
                return (f"{sent}\n" if sent else "") + f"{end.strip()}, {reads} reads\n"
        return "it was read more often\n"

    whole, in_pieces = told(len(bytes.fromhex(once))), told(1)
    return whole if whole == in_pieces else f"{whole}byte by byte:\n{in_pieces}"


@dataclass
class Scenario:
    """What came of a scenario: what each peer was sent and is owed, in hex, what else is told of it, and its files."""

    sent: dict[str, list[str]]
    owed: dict[str, list[str]]
    # Lines of a peer have their name before them here; others have none.
    lines: list[tuple[str, str]]
    journal: str = ""
    audit: str = ""


def steps_of(line: str) -> list[str]:
    """The steps of `gate_cases` that a step of a scenario here is."""
    match line.split(" ", 3):
        case ["both", one, other, content]:
            return [f"{one} sends {content}", f"{other} sends {content}"]
        case [name, "repeats", count, content]:
            digits = (f"{number:03}".encode().hex() for number in range(int(count)))
            return [f"{name} sends " + " ".join(content.replace("######", each) for each in digits)]
    return [line]


def play(program: str, words: str, text: str) -> Scenario:
    """Runs a scenario."""
    names = re.findall(r"(?m)^open (\w+)$", text)
    scenario = Scenario({name: [] for name in names}, {name: [] for name in names}, [])
    steps = "\n".join(step for line in text.splitlines() for step in steps_of(line))
    for line in run_parts(program, [f"play {words}".rstrip() + f"\n{steps}"])[0].splitlines():
        match line.split(" "):
            case [name, "is", "owed", report]:
                scenario.owed[name].append(report)
            case ["journal:", content]:
                scenario.journal = content
            case ["audit:", content]:
                scenario.audit = content
            case [peer, packet] if re.fullmatch("[0-9a-f]+", packet):
                scenario.sent[peer.removesuffix(":")].append(packet)
                scenario.lines.append((peer, packet))
            case _:
                scenario.lines.append(("", line))
    return scenario


def packets(scenario: Scenario) -> list[str]:
    """A line for each packet of a peer, twelve at most, and the other lines."""
    told = []
    for peer, lines in groupby(scenario.lines, lambda line: line[0]):
        texts = [text for _, text in lines]
        told += [f"{peer} {text}".lstrip() for text in (texts[:MOST_PACKETS] if peer else texts)]
        told += [f"{peer} {len(texts) - MOST_PACKETS} more"] if peer and len(texts) > MOST_PACKETS else []
    return told


def races(scenario: Scenario, text: str) -> str:
    """What each peer was sent; without names and sorted, where two sent at once."""
    told = packets(scenario)
    if re.search(r"(?m)^both ", text):
        told = sorted(re.sub(r"^\w+", "one of them", line) for line in told)
    return "".join(f"{line}\n" for line in told)


def kept(scenario: Scenario, legal: str) -> str:
    """How what each peer was sent compares with what he is owed, and the journal with the audit."""
    told = [f"{line}\n" for name, line in scenario.lines if not name]
    reports = {name: [packet[6:] for packet in sent if packet[4:6] == REPORT] for name, sent in scenario.sent.items()}
    if "the journal failed\n" in told:
        is_front = all(owed[:len(reports[name])] == reports[name] for name, owed in scenario.owed.items())
        return "".join(told) + f"{'all' if is_front else 'not all'} that was told is in the journal\n"
    for name, owed in scenario.owed.items():
        words = "the same in order" if reports[name] == owed else "others"
        told.append(f"{name}: {len(reports[name])} sent, {len(owed)} owed, {words}\n")
    return "".join(told) + legal + f"the journal is {'' if scenario.journal == scenario.audit else 'not '}the audit\n"


def three_callers(called: str, shown: str) -> str:
    """How many requests of three callers are on record: what each call answered, and the records as they are shown."""
    found = re.findall(r"(?m)^0 (.*) # line (\d+) at 0: (\d+) ", shown)
    records = {int(number): (line, step) for step, line, number in found}
    told = []
    for name, line, numbers in re.findall(r"(?m)^(\w+) on line (\d+):(.*)$", called):
        made = [int(number) for number in numbers.split()]
        right = [number for call, (before, number) in enumerate(zip([0, *made], made, strict=False))
                 if number > before and is_call(records.get(number), line, name, call)]
        of_line = sum(of == line for of, _ in records.values())
        told.append(f"{name}: {len(made)} requests, {len(right)} of them on record in order, {of_line} records of the line\n")
    return "".join(told)


def is_call(record: tuple[str, str] | None, line: str, name: str, call: int) -> bool:
    """Whether a record is of the line, and of the caller's request of this number."""
    return record is not None and record[0] == line and re.match(rf"{name} \w+ A{call:03} ", record[1]) is not None


class Inside:
    """Runs parts, with the built programs: `gate_cases`, and what `gate show` and `gate check` tell of an audit."""

    def __init__(self, program: str, shown: Callable[[bytes], str], legal: Callable[[bytes], str]) -> None:
        self.program = program
        self.shown = shown
        self.legal = legal

    def answer(self, kind: str, words: str, text: str) -> str:
        """What comes of a part."""
        match kind:
            case "pipe-reads" | "pipe-writes":
                return failing(self.program, kind.removeprefix("pipe-"), words, text)
            case "pipe-endless":
                return endless(self.program, words, text)
            case "calls":
                return self.calls(words)
            case "play" | "play-races" | "play-kept":
                return self.scenario(kind, words, text)
        raise ValueError(f"no such part: {kind}")

    def scenario(self, kind: str, words: str, text: str) -> str:
        """What comes of a scenario."""
        scenario = play(self.program, words, text)
        audit = bytes.fromhex(scenario.audit)
        match kind:
            case "play":
                return races(scenario, text) + self.shown(audit) + self.legal(audit)
            case "play-races":
                return races(scenario, text) + self.legal(audit)
        return kept(scenario, self.legal(audit))

    def calls(self, words: str) -> str:
        """What comes of calls."""
        called, _, content = run_parts(self.program, [f"calls {words}"])[0].partition("audit: ")
        audit = bytes.fromhex(content)
        told = three_callers(called, self.shown(audit)) if words == "three" else called
        return told + self.legal(audit)

    def at_one_gate(self, parts: list[str]) -> tuple[str, bytes]:
        """What comes of parts that run on one gate, and its audit of version 2."""
        case = "\n-- ".join([*parts, "audit"])
        told, _, rest = run_parts(self.program, [case])[0].partition("47584832")
        return told, bytes.fromhex("47584832" + rest.partition("audit: ")[0])
