#!/usr/bin/env python3
"""Makes docs/CALLS.md, a table of all calls of the ports, from the sources of `rr_ports` and `rr_shared_ports`.

    tests/calls.py            writes the page
    tests/calls.py --check    compares it, as the gate does; the last line is 'N passed, M failed'
"""
import pathlib
import re
import sys

ROOT = pathlib.Path(__file__).resolve().parent.parent
PAGE = ROOT / "docs" / "CALLS.md"
TYPES = [
    "Hub", "SharedPorts", "PortFactoryClient", "PortFactoryServer", "Client", "RequestMutUninit", "RequestMut", "PendingResponse", "Server",
    "ActiveRequest", "ResponseMutUninit", "ResponseMut", "Response", "Seat", "Opened",
]
HANDLES = "|".join(TYPES[2:13])
FAMILIES = {"Option": "single values", "SliceBody": "slices", "KeptBody": "large values"}
HEAD = """# Calls

`tests/calls.py` writes this page from the sources; change those, not this page. `hub` is the hub of the service. In the calls of ports and handles that threads share, `..` stands for `&hub, &rt, &mut seat`. `T` is the type of an element. [GUIDE](GUIDE.md) shows how to call, [RULES](RULES.md) says what the calls do.
"""


def closing(text, at):
    """Returns the place behind the bracket that closes the one at a place."""
    pairs, depth = {"<": 1, "(": 1, ">": -1, ")": -1}, 0
    for place in range(at, len(text)):
        if text[place] == ">" and text[place - 1] in "-=":
            continue
        depth += pairs.get(text[place], 0)
        if depth == 0:
            return place + 1
    raise ValueError(text)


def parts(text):
    """Returns the parameters of a list of them."""
    found, depth, last = [], 0, 0
    for place, sign in enumerate(text):
        depth += (sign in "<([") - (sign in ">)]" and text[place - 1] != "-")
        if sign == "," and depth == 0:
            found.append(text[last:place].strip())
            last = place + 1
    return [it for it in [*found, text[last:].strip()] if it]


def short(kind):
    """Returns a type without the parameters that every call has."""
    kind = re.sub(r"\s+", " ", kind).strip()
    while (at := re.search(r"\bClaimed<N, ", kind)) is not None:
        end = closing(kind, at.start() + len("Claimed"))
        kind = kind[: at.start()] + kind[at.end() : end - 1].rstrip(", ") + kind[end:]
    while (at := re.search(rf"\b({HANDLES})<", kind)) is not None:
        kind = kind[: at.end() - 1] + kind[closing(kind, at.end() - 1) :]
    return re.sub(r"&'\w+ ", "&", kind).replace("< ", "<").replace(", >", ">")


def parameter(text, is_shared):
    """Returns a parameter as a caller sees it, or none if it is the same in every call."""
    name, _, kind = text.partition(":")
    if name in {"self", "&self", "&mut self", "mut self"} or is_shared and name in {"hub", "rt", "seat"}:
        return None
    if name in {"rt", "seat"}:
        return f"&mut {name}" if kind.strip().startswith("&mut") else f"&{name}"
    if name == "hub":
        return "&mut hub" if re.match(r"\s*&('\w+ )?mut ", kind) else "&hub"
    return f"{name.removeprefix('mut ').strip()}: {short(kind)}"


def errors(lines):
    """Returns the errors that the section of a document names."""
    if "# Errors" not in lines:
        return ""
    section = " ".join(lines[lines.index("# Errors") + 1 :]).split(" # ")[0]
    listed = re.findall(r"(?:^|\s)- ((?:`[^`]+`(?:, | and | or )?)+)", section)
    if listed:
        return ", ".join(it.strip() for it in listed)
    found = re.match(r"\s*(As `[^`]+`)", section)
    return found.group(1) if found else ""


def calls(path, is_shared):
    """Yields the type, the family and the row of each public call of a file."""
    lines, owner, family, at = path.read_text().split("\n"), None, "", 0
    while at < len(lines):
        line = lines[at]
        if line.startswith(("impl", "pub trait")):
            head = line
            while not head.rstrip().endswith("{"):
                at += 1
                head += " " + lines[at].strip()
            head = head[closing(head, 4) :] if head.startswith("impl<") else head[4:]
            is_open = line.startswith("impl") and " for " not in head
            inner = short(head.strip(" {"))
            named = re.match(r"(\w+)", re.sub(r"^Claimed< ?N, ", "", inner))
            family = next((name for body, name in FAMILIES.items() if f"{body}<" in head.partition("<")[2]), "")
            owner = named.group(1) if is_open and named else None
            if owner == "SharedPorts" or owner == "Hub":
                family = ""
        found = re.match(r"    pub fn (\w+)", line)
        if found and owner in TYPES:
            signature = line.strip()
            while not re.search(r"(\{| where)$", signature) and not re.match(r"\s+(requires|ensures|where|\{)", lines[at + 1]):
                at += 1
                signature += " " + lines[at].strip()
            yield owner, family, row(found.group(1), signature, document(lines, at, found.group(1)), is_shared and owner in HANDLES)
        at += 1


def document(lines, at, name):
    """Returns the document of the call of this name whose signature ends at a line."""
    while f"pub fn {name}" not in lines[at]:
        at -= 1
    first = at
    while lines[first - 1].startswith(("    ///", "    #[")):
        first -= 1
    return [line.strip()[3:].strip() for line in lines[first:at] if line.startswith("    ///")]


def row(name, signature, told, is_shared):
    """Returns the row of a call."""
    rest = signature[signature.index(name) + len(name) :].strip(" {")
    rest = rest[closing(rest, 0) :] if rest.startswith("<") else rest
    end = closing(rest, 0)
    taken = [it for it in (parameter(part, is_shared) for part in parts(rest[1 : end - 1])) if it]
    result = rest[end:].replace(" where", "").strip(" {")
    result = short(result.removeprefix("->").strip()) if result else "()"
    paragraph = " ".join(told[: told.index("")] if "" in told else told)
    first = re.split(r"(?<=[.:])\s(?=[A-Z])", paragraph)[0]
    begin = ["..", *taken] if is_shared and "hub: " in rest[:end] else taken
    return f"`{name}({', '.join(begin)})`", f"`{result}`", first, errors(told)


def page():
    """Returns the page."""
    text = [HEAD]
    for crate, title in [("rr_ports", "Ports"), ("rr_shared_ports", "Ports that threads share")]:
        found = {}
        for path in sorted((ROOT / "crates" / crate / "src").rglob("*.rt")):
            for owner, family, told in calls(path, crate == "rr_shared_ports"):
                found.setdefault(owner, []).append((family, told))
        text.append(f"## {title}\n")
        for owner in TYPES:
            if owner not in found:
                continue
            text += [f"### `{owner}`\n", "| Call | Returns | | Errors |\n|---|---|---|---|"]
            for family, cells in sorted(found[owner], key=lambda it: it[0]):
                call, result, told, refused = (cell.replace("|", "\\|") for cell in cells)
                text.append(f"| {call} | {result} | {f'*{family}.* ' if family else ''}{told} | {refused} |")
            text.append("")
    return "\n".join(text)


def main(words):
    made = page()
    if words != ["--check"]:
        PAGE.write_text(made)
        return 0
    is_same = PAGE.is_file() and PAGE.read_text() == made
    print("" if is_same else "docs/CALLS.md is not what the sources say: run tests/calls.py\n", end="")
    print("1 passed, 0 failed" if is_same else "0 passed, 1 failed")
    return not is_same


if __name__ == "__main__":
    sys.exit(main(sys.argv[1:]))
