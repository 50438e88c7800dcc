"""Checks each relative link of each document: the file stands there, and has the heading that is named behind `#`.

The last line is 'N passed, M failed'.
"""
import pathlib
import re
import sys

LINK = re.compile(r"\]\(([^)\s]+)\)")
HEADING = re.compile(r"^#+ (.+)$", re.MULTILINE)


def slug(heading):
    """Returns the anchor of a heading: lower case, without punctuation, with hyphens for blanks."""
    kept = re.sub(r"[^\w\- ]", "", heading.strip().lower())
    return kept.replace(" ", "-")


def anchors(path):
    """Returns the anchors of a document."""
    return {slug(heading) for heading in HEADING.findall(path.read_text())}


def is_there(document, target):
    """Returns whether the target of a link in a document stands there."""
    name, _, anchor = target.partition("#")
    path = document.parent / name if name else document
    if not path.exists():
        return False
    return not anchor or path.suffix != ".md" or anchor in anchors(path)


def main():
    root = pathlib.Path(__file__).resolve().parent.parent
    documents = [root / "README.md", *sorted(root.glob("docs/*.md")), *sorted(root.glob("crates/*/*.md"))]
    passed = failed = 0
    for document in documents:
        for target in LINK.findall(document.read_text()):
            if "://" in target:
                continue
            if is_there(document, target):
                passed += 1
            else:
                failed += 1
                print(f"{document.relative_to(root)}: dead link: {target}")
    print(f"{passed} passed, {failed} failed")
    return failed > 0


sys.exit(main())
