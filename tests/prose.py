#!/usr/bin/env python3
"""Looks for turns of phrase that readers stumble over, in README.md and docs/, or in the files that are named.

    tests/prose.py [FILE ..]

Of a source file the comments are read. Fenced blocks and words in backticks are left out. The last line is 'N passed, M failed', a file each.
"""
import pathlib
import re
import sys

ROOT = pathlib.Path(__file__).resolve().parent.parent
COMMENT = re.compile(r"^\s*(?:///|//!|//|--|/\*|\*|#)\s?(.*)$")
PATTERNS = {
    "a free relative clause as the subject": r"(?:^|[.;:] |\| )(?:Who|Whoever|What|Whatever)(?! (?:the check|your)) (?:\w+ )*?(?:is|are|has|have|does|waits?|sends?|comes?|holds?)\b",
    "'one' for an index or a bound": r"\bfrom one on\b|\b(?:up to|below|above|behind|before) one(?=[,.;:])",
    "a number without its name": r"\b(?:so many|that often|so long|that many)\b",
    "'told'": r"\b(?:is|are|was|were|be) told\b",
    "'no more' at the end": r"\bno more[.;:]",
    "'gone'": r"\b(?:is|are|was|were|be) gone\b",
    "'stands' for is": r"\bstands? (?:in|at|on|under|beside|behind|there|apart|below|above|still)\b",
    "'those of'": r"\bthose of whom\b|\bwhom they\b",
}


def lines(path):
    """Yields the number and the text of each line to be read."""
    is_page, is_fenced = path.suffix == ".md", False
    for number, line in enumerate(path.read_text().split("\n"), 1):
        if is_page:
            is_fenced ^= line.startswith("```")
            text = "" if is_fenced or line.startswith("#") else line
        else:
            found = COMMENT.match(line)
            text = found.group(1) if found else ""
        yield number, re.sub(r"`[^`]*`|\]\([^)]*\)", "`", text)


def main(words):
    files = [pathlib.Path(word).resolve() for word in words] or [ROOT / "README.md", *sorted(ROOT.glob("docs/*.md"))]
    failed = 0
    for path in files:
        faults = [(number, name, found.group(0).strip()) for number, text in lines(path) for name, pattern in PATTERNS.items() for found in re.finditer(pattern, text)]
        for number, name, found in faults:
            print(f"{path.relative_to(ROOT) if path.is_relative_to(ROOT) else path}:{number}: {name}: {found}")
        failed += bool(faults)
    print(f"{len(files) - failed} passed, {failed} failed")
    return failed > 0


if __name__ == "__main__":
    sys.exit(main(sys.argv[1:]))
