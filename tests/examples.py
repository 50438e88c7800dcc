#!/usr/bin/env python3
"""Checks the examples in the documents of the types that a user names, and those of the pages.

A fenced block whose sentence ends with (`CRATE::MODULE`): repeats functions of that module, which is proved: each function in it has to
stand there, word for word but for `pub` and white space, with its imports. Every public struct, enum and trait of `rr_ports` and
`rr_locked` has such a block, and so have the main types of the crates that share a hub. In README.md and docs/ a fenced block whose sentence ends with (`PATH`): repeats parts of that file likewise. The last line is
'N passed, M failed'.
"""

import pathlib
import re
import sys

ROOT = pathlib.Path(__file__).resolve().parent.parent
# Which types of a crate have an example: these, or all.
CRATES = {"rr_ports": None, "rr_locked": None, "rr_shared": {"SharedHub"}, "rr_shared_ports": {"Claimed", "Opened", "SharedPorts"}}
TYPE = re.compile(r"^pub (?:struct|enum|trait) (\w+)")
SOURCE = re.compile(r"\(`(\w+(?:::\w+)+)`\):$")
PATH = re.compile(r"\(`([\w./-]+\.\w+)`\):$")
IMPORT = re.compile(r"^(ghost use|use|type|const) ")


def squeezed(text):
    """The text without white space, `pub` and attributes."""
    text = re.sub(r"^#\[.*\]$", "", text, flags=re.M)
    return re.sub(r"\s+", "", re.sub(r"\bpub(\(crate\))? ", "", text))


def documents(lines, at):
    """The lines of the document above a line, without their marks."""
    first = at
    while first > 0 and lines[first - 1].startswith(("///", "#[")):
        first -= 1
    return [line[3:].removeprefix(" ") for line in lines[first:at] if line.startswith("///")]


def blocks(document):
    """Each fenced block, with the sentence before it."""
    sentence, block = [], None
    for line in document:
        if line.startswith("```"):
            if block is not None:
                yield " ".join(sentence).strip(), block
                sentence, block = [], None
            else:
                block = []
        elif block is not None:
            block.append(line)
        elif not line:
            sentence = sentence if sentence and sentence[-1].endswith(":") else []
        else:
            sentence.append(line)


def fault(block, source):
    """What is wrong with a block that names a source, or None."""
    path = ROOT / "crates" / source.split("::")[0] / "src" / ("/".join(source.split("::")[1:]) + ".rt")
    if not path.is_file():
        return f"there is no {source}"
    first = next((at for at, line in enumerate(block) if line and not IMPORT.match(line)), len(block))
    if not any(line.startswith("use ") for line in block[:first]):
        return "no import stands in it"
    proved = squeezed(path.read_text())
    functions = [squeezed(item) for item in re.split(r"(?<=^})$", "\n".join(block[first:]), flags=re.M)]
    if not any(functions) or any(item not in proved for item in functions):
        return f"it does not stand in {source}"
    return None


def page_fault(block, name):
    """Returns the fault of a block of a page that repeats parts of a file, or None."""
    path = ROOT / name
    if not path.is_file():
        return f"there is no {name}"
    text = squeezed(path.read_text())
    if squeezed("\n".join(block)) in text:
        return None
    first = next((at for at, line in enumerate(block) if line and not IMPORT.match(line) and not line.startswith("#![")), len(block))
    items = block[:first] + re.split(r"(?<=^})$", "\n".join(block[first:]), flags=re.M)
    return None if all(squeezed(item) in text for item in items) else f"it is not in {name}"


def pages():
    """Checks the pages. Returns how many blocks passed and failed."""
    passed, failed = 0, 0
    for page in [ROOT / "README.md", *sorted(ROOT.glob("docs/*.md"))]:
        cited = [(block, PATH.search(sentence)) for sentence, block in blocks(page.read_text().split("\n"))]
        for block, name in cited:
            told = page_fault(block, name.group(1)) if name else None
            if told:
                print(f"{page.relative_to(ROOT)}: {block[0]}: {told}")
            passed, failed = passed + bool(name and not told), failed + bool(told)
    return passed, failed


def main():
    passed, failed = pages()
    for crate, chosen in CRATES.items():
        exported = re.findall(r"\w+", " ".join(re.findall(r"^pub use (.*?);", (ROOT / "crates" / crate / "src/lib.rt").read_text(), re.M | re.S)))
        for path in sorted((ROOT / "crates" / crate / "src").rglob("*.rt")):
            lines = path.read_text().split("\n")
            for at, line in enumerate(lines):
                named = TYPE.match(line)
                if not named or named.group(1) not in exported:
                    continue
                cited = [(block, SOURCE.search(sentence)) for sentence, block in blocks(documents(lines, at))]
                faults = [fault(block, source.group(1)) for block, source in cited if source]
                if not faults and chosen is not None and named.group(1) not in chosen:
                    continue
                faults = [told for told in faults if told] if faults else ["it has no example"]
                for told in faults:
                    print(f"{path.relative_to(ROOT)}: {named.group(1)}: {told}")
                passed, failed = (passed, failed + 1) if faults else (passed + 1, failed)
    print(f"{passed} passed, {failed} failed")
    return failed > 0


sys.exit(main())
