"""Rows of scripts, as the tests of `rr_test_runs` have them, and what a program may do with one whose memory is refused."""
import os
import re

TESTS = os.path.join(os.path.dirname(os.path.abspath(__file__)), "..", "..", "crates", "rr_test_runs", "src", "tests")

# A string as Rust writes it, or the name of a constant.
TEXT = r'(?:"(?:[^"\\]|\\.)*"|[A-Z_]+)'

# What a command's line is answered if its memory was refused. Lines with other words take none.
REFUSALS = {
    "client": {"error UnableToCreateDataSegment"},
    "server": {"error UnableToCreateDataSegment"},
    "loan": {"error OutOfMemory"},
    "default": {"error OutOfMemory"},
    "copy": {"error SendError LoanError OutOfMemory", "error LoanError OutOfMemory"},
    "data": {"refused NoMemory"},
}


class Row:
    """Words after the program's name, an input, and what the program is to do with ample memory."""

    def __init__(self, name, words, text, status, output, fault):
        self.name, self.words, self.text = name, words, text
        self.status, self.output, self.fault = status, output, fault


def value(text, constants):
    """Returns what a string, the name of a constant, or a number says."""
    if not text.startswith('"'):
        return constants.get(text, text)
    body = re.sub(r"\\\n\s*", "", text[1:-1], flags=re.S)
    return re.sub(r"\\(.)", lambda it: {"n": "\n", "r": "\r"}.get(it[1], it[1]), body)


def fields(text, kind, names, constants):
    """Returns the fields of every literal of a struct, and checks that none was passed over."""
    pattern = r"\b" + kind + r" \{\s*" + r"\s*".join(rf"{it}: ({TEXT}|\d+)," for it in names) + r"\s*\}"
    found = [[value(it, constants) for it in ran] for ran in re.findall(pattern, text, re.S)]
    literals = len(re.findall(rf"(?<!struct )\b{kind} \{{\s*{names[0]}: ", text))
    if len(found) != literals:
        raise SystemExit(f"{literals - len(found)} rows of {kind} were not read")
    return found


def story(name, start, lines):
    """Returns the row of lines as `command -> reply`. A line without a reply is not answered."""
    told = [it.partition(" -> ") for it in (start + lines).splitlines()]
    text = "".join(f"{command}\n" for command, _, _ in told)
    output = "".join(f"{reply}\n" for _, arrow, reply in told if arrow)
    if output.startswith("error "):
        return Row(name, ["script"], text, 4, output, "refused\n")
    return Row(name, ["script"], text, 0, output, "")


def all_rows():
    """Returns all rows of the tests."""
    sources = {}
    for name in sorted(it for it in os.listdir(TESTS) if it.endswith(".rt")):
        with open(os.path.join(TESTS, name), encoding="utf-8") as it:
            sources[name] = it.read()
    constants = {}
    for source in sources.values():
        for name, text in re.findall(rf"const ([A-Z_]+): &str = ({TEXT});", source, re.S):
            constants[name] = value(text, constants)
    rows = []
    for source in sources.values():
        for name, start, lines in fields(source, "Row", ["name", "start", "lines"], constants):
            rows.append(story(name, start, lines))
        for words, text, status, output, fault in fields(source, "PoolRow", ["words", "input", "status", "output", "fault"], constants):
            rows.append(Row(f"rr {words} {text!r}", words.split(" "), text, int(status), output, fault))
    return rows




def lines_of(text):
    """Returns whole lines, or None if the last one is cut off."""
    return text.split("\n")[:-1] if text == "" or text.endswith("\n") else None


def asked(text):
    """Returns the places of an input's lines that have words."""
    return [at for at, line in enumerate(text.split("\n")) if line.strip()]


def without(text, place):
    """Returns an input without the line at a place."""
    lines = text.split("\n")
    return "\n".join(lines[:place] + lines[place + 1 :])


def judge(row, whole, status, output, fault, run_without):
    """Returns 'went on', 'ended' or 'refused', or None if the run did what it may not.

    It did what it does with ample memory; or a buffer of the program was refused, and it ended there with status 4 after a beginning
    of the row's replies; or a command was refused by its name, and what follows is what a run without that command's line gives."""
    if (status, output, fault) == whole:
        return "went on"
    replies, wanted = lines_of(output), lines_of(whole[1])
    if replies is None:
        return None
    if status == 4 and fault == "no memory\n" and replies == wanted[: len(replies)]:
        return "ended"
    if row.words[0] == "least":
        return "ended" if (status, output, fault) == (4, "error OutOfMemory\n", "refused\n") else None
    at = next((at for at, (one, other) in enumerate(zip(replies, wanted)) if one != other), None)
    places = asked(row.text)
    if at is None or at >= len(places):
        return None
    word = row.text.split("\n")[places[at]].split()[0]
    if replies[at] not in REFUSALS.get(word, ()):
        return None
    left = run_without(places[at])
    beginning = "".join(f"{it}\n" for it in replies[:at])
    rest = "".join(f"{it}\n" for it in replies[at + 1 :])
    return "refused" if (status, beginning + rest, fault) == left else None
