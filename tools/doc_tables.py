"""The parts of hand-written documents that tools/docs makes from the code: exact texts, layouts, options and codes as the
code has them, and what its comments say of each."""
import re
from pathlib import Path

from crate_list import git

TOP = Path(__file__).resolve().parent.parent
CRATES = TOP / "crates"


# ---------------------------------------------------------------- reading

def text_of(path):
    return path.read_text(encoding="utf-8")


def source(name):
    """The text of a file, from crates/."""
    return text_of(CRATES / name)


def sentence(text):
    """The first sentence of a comment."""
    text = " ".join(text.split())
    ends = re.search(r"[.:?](?=\s+[A-Z`\[])|\.$", text)
    return (text[: ends.start()] + "." if ends and text[ends.start()] in ".:" else text[: ends.end()] if ends else text)


def plain(text):
    """A comment as a page shows it: links of the compiler's own lose their brackets, and `|` is no end of a cell."""
    return re.sub(r"\[(`[^`]*`)\](?:\([^)]*\))?", r"\1", text).replace("|", "\\|")


def lower(said):
    return said[0].lower() + said[1:]


def table(heads, rows):
    """A table; a cell that is not there is empty."""
    lines = ["| " + " | ".join(heads) + " |", "|" + "---|" * len(heads)]
    for row in rows:
        row = list(row) + [""] * (len(heads) - len(row))
        lines.append(re.sub(r"\|  (?=\|)", "| ", "| " + " | ".join(row) + " |"))
    return "\n".join(lines)


def variants(path, name):
    """The variants of an enum, or the fields of a struct, each with the first paragraph of the comment above it."""
    body = re.search(r"^pub(?:\(crate\))? (?:enum|struct) %s(?:<.*>)? \{\n(.*?)^\}" % name, text_of(path), re.M | re.S).group(1)
    found, comment = [], []
    for line in body.splitlines():
        bare = line.strip()
        if bare.startswith("///"):
            comment.append(bare[3:].strip())
        elif bare and not bare.startswith("#["):
            said = comment[: comment.index("")] if "" in comment else comment
            found.append((re.match(r"(?:pub )?(\w+)", bare).group(1), plain(" ".join(said))))
            comment = []
    return found


# ---------------------------------------------------------------- layouts of messages

MESSAGES = {"gx_ouch": ("gx_ouch/src/inbound.rt", "gx_ouch/src/outbound.rt"), "gx_desk": ("gx_desk/src/lib.rt",)}
FIELD = re.compile(r"^\s*(?:fields = )?(?:field (\d+) (\d+) ∷\s*-- (.*)|(\w+(?:\.\w+)?) \+\+)$", re.M)


def layouts():
    """Each layout, by its message: its crate, type byte, length, and fields as offset, length and name."""
    found, lists = {}, {}
    for crate, file in (("gx_ouch", "gx_ouch/specs/Messages.antt"), ("gx_desk", "gx_desk/specs/Messages.antt")):
        for name, body in re.findall(r"^abbrev pub (\w+) : .*\n((?:(?!abbrev).*\n)+)", source(file), re.M):
            fields = []
            for offset, length, said, other in FIELD.findall(body):
                fields += lists[other.partition(".")[0]] if other else [(offset, length, said)]
            lists[name] = fields
            kind, size = re.search(r"kind = (\d+|[\w.]+);", body), re.search(r"size = (\d+);", body)
            if kind and size:
                byte = chr(int(kind.group(1))) if kind.group(1).isdigit() else found[kind.group(1).partition(".")[0]][1] \
                    if "." in kind.group(1) else ""
                found[name] = (crate, byte, size.group(1), fields)
    return {name.removesuffix("_layout"): layout for name, layout in found.items()}


def notes_of(crate, struct):
    """What the comments of a message's struct, and of those in it, say of its fields, by the field's name in small letters.

    A comment that ends with a name in brackets, `(Time in Force).`, is of the standard's field of that name; one that is
    a name and no more says nothing else."""
    notes = {}
    for file in MESSAGES[crate]:
        body = re.search(r"^pub struct %s \{\n(.*?)^\}" % struct, source(file), re.M | re.S)
        for field, said in variants(CRATES / file, struct) if body else ():
            kind = re.search(r"pub %s: (\w+)" % field, body.group(1)).group(1)
            if kind == "OrderTerms":
                notes |= notes_of(crate, kind)
                continue
            named = re.match(r"(.*) \((.*)\)\.$|(.*)\.$", said)
            name = (named.group(2) or (said.rstrip(".") if crate == "gx_ouch" else field.replace("_", " "))).lower()
            note = named.group(1) or (named.group(3) if crate != "gx_ouch" else "")
            notes[name] = letters(kind) or note and lower(note)
    return notes


def letters(kind):
    """The codes of a field that is an enum of letters, with what they mean."""
    for file in ("gx_ouch/src/letters.rt", "gx_desk/src/lib.rt"):
        if kind not in ("RejectReason", "OrderTerms") and re.search(r"^pub enum %s " % kind, source(file), re.M):
            return "; ".join(said.rstrip(".") for _, said in variants(CRATES / file, kind))
    return ""


# What is laid out as another message is, but for the fields that the table shows.
LIKE = {"replaced": "accepted", "drop_copy": "executed"}


def layout_part(name):
    every = layouts()
    crate, _, _, fields = every[name]
    known = every[LIKE[name]][3] if name in LIKE else []
    if name == "system_event":
        notes = {"event code": letters("EventCode")}
    else:
        notes = notes_of(crate, "".join(word.capitalize() for word in name.split("_")))
    return table(["Field", "Offset", "Length", ""],
                 [[said[0].upper() + said[1:], offset, length, notes.get(said.lower()) or notes.get(said.split()[0].lower(), "")]
                  for offset, length, said in fields if (offset, length, said) not in known])


def commands_part():
    """Officers' commands: a row for each variant of Action, by its layout."""
    text, every = source("gx_desk/specs/Messages.antt"), layouts()
    rows = []
    for variant, said in variants(CRATES / "gx_desk/src/lib.rt", "Action"):
        name, letter = re.match(r"(.*?), `(.)`", said).groups()
        word = name.lower().replace(" ", "_")
        made = re.search(r"^%s = (\w+) \d+$" % word, text, re.M)
        _, _, size, fields = every[made.group(1) if made else word]
        named = [(offset, length, said if ", or " not in said else said.split(", or ")[variant != "SetLimit"])
                 for offset, length, said in fields[1:]]
        behind = "; ".join("%s %s %s" % (said, offset, length) for offset, length, said in named)
        rows.append([name, "`%s`" % letter, size, behind])
    return table(["Command", "Type", "Length", "After the tag, as field offset length"], rows)


# ---------------------------------------------------------------- audits

def record_fields_part():
    """The fields of a record of an audit: where their definitions place them, and what the comments of these say."""
    rows = []
    for said, name, offset, length in re.findall(r"^-- (.*)\nabbrev pub \w+ : Field\n(\w+)_place = field (\d+) (\d+)$",
                                                 source("gx_audit_bytes/specs/Records.antt"), re.M):
        rows.append([name, offset, length, plain(said)])
    return table(["Field", "Offset", "Length", "Content"], rows)


def shown_fields_part():
    """The fields of a record as `gate show` writes them, in the order of CSV, with the comment of what stands in each."""
    cell, row = source("gx_fields/src/cell.rt"), CRATES / "gx_fields/src/row.rt"
    names = re.findall(r'^    "(\w+)",$', cell, re.M)
    said = {"row." + name: note for name, note in variants(row, "Row")}
    for struct, front in (("Beside", "beside."), ("EndedOrders", "ended.")):
        said |= {front + name: note for name, note in variants(CRATES / "gx_fields/src/cell.rt", struct)}
    said["Clock"] = dict(variants(CRATES / "gx_fields/src/cell.rt", "Cell"))["Clock"]
    filled = []
    for kind, value in re.findall(r"^        Cell::(\w+)\((.*)\),$", cell, re.M):
        ended = re.match(r"(\w+)_ended\(", value)
        filled.append("ended." + ended.group(1) if ended else "Clock" if kind == "Clock" else re.search(r"\w+\.\w+", value).group(0))
    return table(["Field", "Of"], [["`%s`" % name, lower(said[of]).rstrip(".")] for name, of in zip(names, filled, strict=True)])


def report_tables_part():
    """The tables of a report with their columns."""
    text, rows = source("gx_tables/src/kind.rt"), []
    for variant, said in variants(CRATES / "gx_tables/src/kind.rt", "TableKind"):
        name = re.search(r'TableKind::%s => "(\w+)"' % variant, text).group(1)
        columns = re.search(r"TableKind::%s => &\[(.*?)\]" % variant, text, re.S).group(1)
        rows.append(["`%s`" % name, said, ", ".join("`%s`" % c for c in re.findall(r'"(\w+)"', columns))])
    return table(["Table", "What it holds", "Columns"], rows)


# ---------------------------------------------------------------- options

def constants(text):
    return dict(re.findall(r'const (\w+): &str = "([^"]*)";', text))


def options_part(name):
    """The options of a subcommand that it alone has: how each is written, and what its help says."""
    path = CRATES / "gx_command_line/src" / ("commands.rt" if "const %s:" % name.upper() in
                                             source("gx_command_line/src/commands.rt") else "state.rt")
    text, names = text_of(path), constants(source("gx_command_line/src/commands.rt"))
    names |= constants(text)
    body = re.search(r"const %s: Subcommand = Subcommand \{(.*?)^\};" % name.upper(), text, re.M | re.S).group(1)
    rows = []
    for inner in re.findall(r"^        Argument \{\n(.*?)^        \},", body, re.M | re.S):
        word = re.search(r"name: (?:\"([^\"]*)\"|(\w+)),", inner)
        value = re.search(r'value: "([^"]*)"', inner).group(1)
        kind = re.search(r"kind: Kind::(\w+)(.*?),\n", inner, re.S)
        if kind.group(1) in ("Word", "Rest"):
            continue
        helped = " ".join(re.sub(r"\\\n\s*", "", re.search(r'help: "(.*?)",\n', inner, re.S).group(1)).split())
        limits = re.search(r"Count\((\w+), &\[\"?(\w*)", inner)
        bounds = "; %s is from 1 to %s, else %s" % (value, *(format(int(n.replace("_", "")), ",") for n in limits.groups())) \
            if limits else ""
        choice = re.search(r"Choice\(&\[(.*?)\]", inner)
        value = "\\|".join(names[c.strip()] for c in choice.group(1).split(",")) if choice else value
        rows.append(["`--%s`" % " ".join(filter(None, [word.group(1) or names[word.group(2)], value])),
                     plain(helped) + bounds])
    return table(["Option", "What it says"], rows)


def block_part(file, name):
    """A text of the code as it stands."""
    text = re.search(r'const %s: &str =\s*"(?:\\\n)?(.*?)";' % name, source(file), re.S).group(1)
    return "```text\n" + text.replace('\\"', '"').rstrip() + "\n```"


# ---------------------------------------------------------------- scripts

def head_of_script(path):
    """The first paragraph that a script says of itself."""
    text = text_of(path)
    said = re.search(r'^"""(.*?)"""', text, re.M | re.S)
    if said:
        return " ".join(said.group(1).split("\n\n")[0].split())
    said = []
    for line in text.splitlines()[1:]:
        if not line.startswith("# "):
            break
        said.append(line[2:])
    return " ".join(" ".join(said).split()).partition(" Run as")[0]


def scripts_part(folder, left_out=()):
    """The scripts of a folder that are run by themselves, with what each says of itself."""
    names = [line.split("\t")[1] for line in git("ls-files", "-s", folder).splitlines() if line.startswith("100755")]
    rows = [["[`%s`](%s)" % (name.removeprefix(folder + "/"), name.removeprefix(folder + "/")), plain(head_of_script(TOP / name))]
            for name in names if name not in left_out]
    return table(["Script", "What it shows" if folder == "tests" else "What it does"], rows)


def model_part():
    """The modules of the model, with what each says of itself."""
    return table(["File", "What it is"], [["`%s`" % path.name, plain(head_of_script(path)).rstrip(".")]
                                         for path in sorted((TOP / "tests/model").iterdir()) if path.suffix == ".py"])


def examples_part():
    """The scripts among the examples, with what each says that it shows."""
    rows = []
    for path in sorted((TOP / "examples").glob("*.txt")):
        lines = text_of(path).splitlines()
        said = " ".join(line[2:] for line in lines[1:20] if line.startswith("# "))
        if lines[0].startswith("# ") and "out/gate" in lines[0]:
            rows.append(["`%s`" % path.name, plain(sentence(said))])
    return table(["Script", "What it shows"], rows)


# ---------------------------------------------------------------- rules

def arms(path, word):
    """`word .. TYPE.VARIANT .. = .. TYPE.ANSWER`, of each line of a definition by cases."""
    found = {}
    for line in text_of(path).splitlines():
        arm = re.match(r"^%s (?:policy )?\(?\w+\.(\w+)[^=]*= (?:Some )?\w+\.(\w+)$" % word, line)
        if arm:
            found[arm.group(1)] = arm.group(2)
    return found


def kinds_of_rules():
    """Each kind of rule that a policy file may have: its word, who is asked, what its denial means, and its reason."""
    code, told = source("gx_policy/src/kinds.rt"), source("gx_policy/specs/Kinds.antt")
    kind = r"KindName\.(\w+)(?: \w+\.(\w+)\))?"
    means = {(a, b): said for a, b, said in re.findall(r'^kind_meaning \(?%s = codes "(.*)"$' % kind, told, re.M)}
    reasons = {(a, b): said for a, b, said in re.findall(r"^kind_reason \(?%s = RejectReason\.(\w+)$" % kind, told, re.M)}
    asks_enter_alone = {name for name, said in variants(CRATES / "gx_policy/src/policy.rt", "RuleKind")
                        if said.endswith(", an Enter alone.")}
    for word, a, b in re.findall(r'\(\s*"(\w+)",\s*KindName::(\w+)(?:\(\w+::(\w+)\))?,?\s*\)', code):
        yield word, "Enter" if a in asks_enter_alone else None, means[a, b], reasons[a, b]


def rules_part():
    reasons = CRATES / "gx_history/specs/Reasons.antt"
    signs = {name: re.match(r"`(.)`", said).group(1)
             for name, said in variants(CRATES / "gx_ouch/src/letters.rt", "RejectReason")}
    codes = {name: re.match(r"`(\w+)`", said).group(1)
             for name, said in variants(CRATES / "gx_desk/src/lib.rt", "AnswerCode")}
    rejects, denials = arms(reasons, "reject_reason"), arms(reasons, "denial_code")
    out, last = [], []
    for name, said in variants(CRATES / "gx_policy/src/rule_name.rt", "RuleName"):
        asked, _, what = said.partition(": ")
        if name == "File":
            out += [["its own name", "`%s`" % word, by or asked, means, "Rejected `%s`" % signs[reason]]
                    for word, by, means, reason in kinds_of_rules()]
            continue
        answer = "Rejected `%s`" % signs[rejects[name]] if name in rejects else \
            "Answer `%s`" % codes[denials[name]] if name in denials else \
            "Login Rejected `%s`" % login_letter(name) if name.startswith("L") else "nothing"
        (last if name in denials else out).append(
            [name, "built in", lower(asked) if asked[:5] in ("All b", "Order", "Unrea", "Comma") else asked, what.rstrip("."), answer])
    return table(["Rule", "Kind of policy line", "Asked by", "Forbids", "Answered"], out + last)


def login_letter(rule):
    """The letter of the Login Rejected that a denial by this rule is answered by."""
    arm = re.search(r"\(Verdict\.Denied RuleName\.%s\) = LoginAnswer\.Rejected LoginRejection\.(\w+)" % rule
                    + r"|other = LoginAnswer\.Rejected LoginRejection\.(\w+)", source("gx_access_gate/specs/Logins.antt"))
    told = arm.group(1) or arm.group(2)
    return re.search(r"LoginRejection::%s => b'(.)'" % told, source("gx_soup/src/writing.rt")).group(1)


# ---------------------------------------------------------------- all

def main_promises_part():
    """The rows of docs/PROOFS.md whose promise stands in bold."""
    cells = [[c.strip() for c in re.split(r"(?<!\\)\|", line)[1:-1]] for line in text_of(TOP / "docs/PROOFS.md").splitlines()
             if line.startswith("| **")]
    return table(["Promise", "Call", "Clause"], [[row[0].strip("*"), *row[1:3]] for row in cells])


PARTS = {
    "rules": rules_part, "main_promises": main_promises_part, "commands": commands_part, "record_fields": record_fields_part,
    "shown_fields": shown_fields_part, "report_tables": report_tables_part,
    "script_lines": lambda: block_part("gx_command_line/src/commands.rt", "SCRIPT_LINES"),
    "desk_lines": lambda: block_part("gx_terminal/src/help.rt", "HELP"),
    "tests": lambda: scripts_part("tests", ("tests/model/gate.py", "tests/desk/flood.py")), "bench": lambda: scripts_part("bench"),
    "model": model_part, "examples": examples_part,
}


def part(name):
    """The lines of a part."""
    if name.startswith("layout_"):
        return layout_part(name.removeprefix("layout_"))
    if name.startswith("options_"):
        return options_part(name.removeprefix("options_"))
    return PARTS[name]()
